"""Runs the program on a scene with one allocation refused, each of them in turn, and counts how it ended.

Each run has to end with status 5 and a prefix of the report, or with the status and the report that it has with all its
memory. Jobs of a race may be done in any order, so --runs asks for more than one report with all memory. A program of
rows may end with other --statuses where its input can't be read, and go on with other rows after a line that begins
with one of the texts --told.
"""

import tempfile
from collections import Counter

from bagjulen_tools.engine import BUILT
from bagjulen_tools.trials import allocations
from bagjulen_tools.trouble import DIFFERENT, DONE, ToolParser, read_file


def words(given):
    """What the words say."""
    parser = ToolParser(__doc__, "a run ended otherwise")
    parser.add_argument("scene", metavar="SCENE", help="a scene")
    parser.add_argument("--words", metavar="WORDS", default="fetch", help="the program's words (fetch)")
    parser.add_argument("--runs", metavar="N", type=int, default=1, help="runs with all memory, to compare with (1)")
    parser.add_argument("--statuses", metavar="N", type=int, nargs="+", default=[5], help="of a refused run (5)")
    parser.add_argument("--told", metavar="TEXT", nargs="+", default=[], help="that a line of a refusal begins with")
    parser.add_argument("--engine", default=BUILT, metavar="PROGRAM", help="the built program")
    return parser.parse_args(given)


def ended(run, wholes, asked):
    """How a run ended, None for otherwise."""
    if (run.status, run.written) in {(whole.status, whole.written) for whole in wholes}:
        return "as with all memory"
    if run.status in asked.statuses and any(whole.written.startswith(run.written) for whole in wholes):
        return f"with status {run.status}"
    lines = run.written.splitlines()
    told = [text for text in asked.told if any((line + b" ").startswith(f"{text} ".encode()) for line in lines)]
    return f"with a line `{told[0]}`" if told else None


def main(arguments: list[str]) -> int:
    asked = words(arguments)
    scene, others = read_file(asked.scene), 0
    ends: Counter[str] = Counter()
    with tempfile.TemporaryDirectory() as directory:
        counter = allocations.Counter(directory, asked.engine, asked.words.split())
        wholes = [counter.fetch(scene) for _ in range(max(asked.runs, 1))]
        number = max(whole.count for whole in wholes)
        for refused in range(1, number + 1):
            run = counter.fetch(scene, refused)
            how = ended(run, wholes, asked)
            ends[how or f"otherwise, with status {run.status}"] += 1
            if how is None:
                others += 1
                print(f"allocation {refused}: status {run.status}, {len(run.written)} bytes written")
    counts = ", ".join(f"{count} {how}" for how, count in sorted(ends.items()))
    print(f"{number} allocations refused: {counts or 'none'}; {others} ended otherwise")
    print(f"with none refused: at most {max(whole.most for whole in wholes)} bytes in use")
    return DIFFERENT if others else DONE
