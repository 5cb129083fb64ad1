"""Mirrors random repositories by the engine and by `git clone --mirror`, and prints what is otherwise.

COUNT repositories are made from SEED, always the same ones, with branches, tags, symbolic references and
either hash; the first is mirrored by one worker, the next by two, and so on up to eight and again. Compared
is what mirror-git compares.
"""

import os
import tempfile

from bagjulen_tools.engine import PROGRAM, Engine
from bagjulen_tools.remote.mirror import Mirrored, differences, mirror, mirrored_by_git
from bagjulen_tools.repository.git import Repository
from bagjulen_tools.trials.pairs import Maker
from bagjulen_tools.trouble import DIFFERENT, DONE, ToolParser, Trouble

MOST_WORKERS = 8
# No configuration of this machine is to count.
ALONE = {"GIT_CONFIG_NOSYSTEM": "1", "GIT_CONFIG_GLOBAL": os.devnull}


def words(given):
    """What the words say."""
    parser = ToolParser(__doc__, "something is otherwise")
    parser.add_argument("count", metavar="COUNT", nargs="?", type=int, default=100, help="how many repositories (100)")
    parser.add_argument("seed", metavar="SEED", nargs="?", default="1", help="any text (1)")
    parser.add_argument("--engine", default=PROGRAM, metavar="PROGRAM", help="the engine (bagjulen beside tools/)")
    return parser.parse_intermixed_args(given)


def compared(number: int, seed: str, engine: Engine) -> tuple[list[str], Mirrored]:
    """What is otherwise in the mirrors of a repository, in words, and how many objects and references came."""
    with tempfile.TemporaryDirectory() as folder:
        server = Repository(Maker(folder, f"{seed}/{number}", "whole").pair().server)
        place = os.path.join(folder, "ours.git")
        came = mirror(server, place, number % MOST_WORKERS + 1, engine)
        theirs = mirrored_by_git(server, os.path.join(folder, "theirs.git"))
        return list(differences(Repository(place), theirs)), came


def main(arguments: list[str]) -> int:
    asked = words(arguments)
    os.environ.update(ALONE)
    engine = Engine(asked.engine)
    others, objects, references = 0, 0, 0
    for number in range(asked.count):
        try:
            found, came = compared(number, asked.seed, engine)
        except Trouble as trouble:
            raise Trouble(trouble.status, f"repository {number}: {trouble}") from None
        if found:
            print(f"repository {number}, {number % MOST_WORKERS + 1} workers:", *found, sep="\n    ", flush=True)
        others += bool(found)
        objects, references = objects + came.objects, references + came.references
    print(f"{asked.count} repositories of seed {asked.seed}, {objects} objects and {references} references: {others} otherwise")
    return DIFFERENT if others else DONE
