"""Writes what a report tells into a real repository: objects, border, references and reflog lines.

The objects' bytes are those of the scene whose report it is. REPOSITORY is the client that the scene was
made from; of another one a warning says so, and what is written is the same. Each reference that the report
moves, and the border where it moves that, has to be there as it was in the scene, or as the report leaves
it; else nothing is moved. What the report leaves as it was stays, wherever it stands.

Objects stand before anything moves, and then border and references move together: docs/REAL-GIT.md says what
is refused, and what a run leaves that is killed.
"""

import argparse
import os
import sys

from bagjulen_tools.formats.refusals import refusal_words
from bagjulen_tools.formats.report import read_report
from bagjulen_tools.formats.scene import read_scene
from bagjulen_tools.repository.apply import SCENES_COMMITTER, apply
from bagjulen_tools.repository.git import Repository
from bagjulen_tools.trouble import BAD_INPUT, DIFFERENT, DONE, ToolParser, Trouble, read_file


def words(given: list[str]) -> argparse.Namespace:
    """What the words say."""
    parser = ToolParser(__doc__, "the report is that of a refused fetch, and nothing was written")
    parser.add_argument("scene", metavar="SCENE", help="the scene")
    parser.add_argument("report", metavar="REPORT", help="what the engine wrote about it")
    parser.add_argument("repository", metavar="REPOSITORY", help="where it is written")
    parser.add_argument("--scenes-committer", action="store_true",
                        help="reflogs name the scene's committer, at the time 0 (else yours, now)")
    return parser.parse_intermixed_args(given)


def main(arguments: list[str]) -> int:
    """Writes the report, and returns 0."""
    asked = words(arguments)
    scene = read_scene(read_file(asked.scene))
    report = read_report(read_file(asked.report))
    repository = Repository(asked.repository)
    if report.refused is not None:
        raise Trouble(DIFFERENT, f"the fetch was refused: {refusal_words(report.refused)}")
    if repository.hash_name() != scene.hash_name:
        raise Trouble(BAD_INPUT, f"{asked.repository} has {repository.hash_name()}, and the scene {scene.hash_name}")
    objects, references = apply(repository, scene, report, SCENES_COMMITTER if asked.scenes_committer else None)
    if os.path.realpath(scene.git_dir) != os.path.realpath(repository.git_dir):
        print(f"apply-report: warning: the scene was made from {scene.git_dir}, and was written into "
              f"{repository.git_dir}", file=sys.stderr)
    print(f"{objects} objects stored, {references} references moved")
    return DONE
