"""Mirrors a repository by the engine, and compares the mirror with that of `git clone --mirror`.

SERVER, on this machine, is read as it stands and isn't changed. At CLIENT a bare repository is made, with
SERVER as its remote and `HEAD` where SERVER has it, and what the engine's word `mirror` tells is written into
it as by apply-report. A mirror of SERVER that stands there is made alike with SERVER again: what SERVER hasn't
any more is removed, and then the others move.

Compared are the references under refs/, each as its id, the objects that they reach, and what `git fsck`
says. Git's own mirror is made aside and goes. It is a check of the engine: `git bagjulen clone --mirror`
mirrors from an address.
"""

import argparse
import os

from bagjulen_tools.engine import PROGRAM, Engine
from bagjulen_tools.files import temporary_folder
from bagjulen_tools.remote.mirror import differences, mirror, mirrored_by_git
from bagjulen_tools.repository.git import Repository
from bagjulen_tools.trouble import DIFFERENT, DONE, ToolParser


def words(given: list[str]) -> argparse.Namespace:
    """What the words say."""
    parser = ToolParser(__doc__, "the mirror was refused, or Git's is otherwise")
    parser.add_argument("server", metavar="SERVER", help="a repository on this machine")
    parser.add_argument("client", metavar="CLIENT", help="where the mirror is made, or stands")
    parser.add_argument("--workers", metavar="N", type=int, default=4,
                        help="how many workers fetch, 1 to 8 (4)")
    parser.add_argument("--no-compare", action="store_true", help="make the mirror alone")
    parser.add_argument("--engine", default=PROGRAM, metavar="PROGRAM", help="the engine (bagjulen beside tools/)")
    return parser.parse_intermixed_args(given)


def main(arguments: list[str]) -> int:
    """Makes the mirror, and returns 1 where Git's is otherwise."""
    asked = words(arguments)
    server = Repository(asked.server)
    came = mirror(server, asked.client, asked.workers, Engine(asked.engine))
    removed = f", {came.removed} removed" if came.removed else ""
    print(f"{came.objects} objects stored, {came.references} references made{removed}", flush=True)
    if asked.no_compare:
        return DONE
    with temporary_folder() as folder:
        theirs = mirrored_by_git(server, os.path.join(folder, "theirs.git"))
        found = list(differences(Repository(asked.client), theirs, came.ids_before))
    print(*found or ["Git's mirror is alike"], sep="\n")
    return DIFFERENT if found else DONE
