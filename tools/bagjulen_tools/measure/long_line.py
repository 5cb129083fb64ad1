"""Fetches into a repository with a line of COUNT commits, of which the server has none, and shows the haves.

The haves of each request, by the engine's report, are held against those that the rules of negotiation give for a line,
and against real Git's where `--git` is said; Git ends with a request without haves, so such requests aren't compared.
The sizes of the windows are printed. With -o the scene is written, and nothing is run.
"""

import tempfile

from bagjulen_tools.engine import PROGRAM, Engine
from bagjulen_tools.trials.haves import (
    Client,
    asked_by_git,
    asked_of,
    line_of,
    scene_of_line,
    told,
    windows_of,
)
from bagjulen_tools.trouble import DIFFERENT, DONE, ToolParser, write_file


def words(given):
    """What the words say."""
    parser = ToolParser(__doc__, "some haves are others")
    parser.add_argument("count", metavar="COUNT", type=int, help="how many commits, 1 or more")
    parser.add_argument("--algorithm", choices=["consecutive", "skipping", "noop"], default="consecutive",
                        help="the negotiation algorithm (consecutive)")
    parser.add_argument("--git", action="store_true", help="ask real Git too")
    parser.add_argument("-o", dest="output", metavar="FILE", help="write the scene here, and run nothing")
    parser.add_argument("--engine", default=PROGRAM, metavar="PROGRAM", help="the engine (bagjulen beside tools/)")
    return parser.parse_args(given)


def main(arguments: list[str]) -> int:
    asked = words(arguments)
    line = line_of(asked.count)
    client = Client(line, {"refs/heads/line": line[-1].id}, asked.algorithm)
    windows = windows_of(told(line, asked.algorithm))
    scene = scene_of_line(client, windows).to_bytes()
    if asked.output is not None:
        write_file(asked.output, scene)
        return DONE
    report = Engine(asked.engine).fetch(scene)
    are_alike = report.refused is None and asked_of(report) == windows
    print("windows:", *map(len, windows))
    print("the engine:", "the same" if are_alike else report.refused or "others")
    if asked.git:
        with tempfile.TemporaryDirectory() as folder:
            real = [window for window in asked_by_git(folder, client) if window]
        is_alike = real == list(filter(None, windows))
        print("real Git:", "the same" if is_alike else f"others, by windows {' '.join(map(str, map(len, real)))}")
        are_alike = are_alike and is_alike
    return DONE if are_alike else DIFFERENT
