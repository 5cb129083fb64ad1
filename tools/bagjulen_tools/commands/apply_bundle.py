"""Writes a bundle into a real repository: objects, border and references.

REPOSITORY may be empty, or have references, objects and a border of its own, which stay. A reference that
the bundle has too has to stand there as in the bundle, and else nothing is moved; so does HEAD, unless it
leads to an absent name. Neither may one border cut off a history that the other side has. With --force such
references move to where the bundle has them, unless a work tree has one checked out; those that the bundle
hasn't stay.

The text is checked whole before anything is written. Objects stand before anything moves, and then border
and references move together, as by apply-report: docs/REAL-GIT.md says what is refused, and what a run
leaves that is killed.
"""

import argparse

from bagjulen_tools.formats.bundle import read_bundle
from bagjulen_tools.repository.apply import apply_bundle
from bagjulen_tools.repository.git import Repository
from bagjulen_tools.trouble import BAD_INPUT, DONE, ToolParser, Trouble, read_file


def words(given: list[str]) -> argparse.Namespace:
    """What the words say."""
    parser = ToolParser(__doc__)
    parser.add_argument("bundle", metavar="BUNDLE", help="the bundle")
    parser.add_argument("repository", metavar="REPOSITORY", help="where it is written")
    parser.add_argument("-f", "--force", action="store_true",
                        help="move references that stand otherwise, too")
    return parser.parse_intermixed_args(given)


def main(arguments: list[str]) -> int:
    """Writes the bundle, and returns 0."""
    asked = words(arguments)
    bundle = read_bundle(read_file(asked.bundle))
    repository = Repository(asked.repository)
    if repository.hash_name() != bundle.hash_name:
        raise Trouble(BAD_INPUT, f"{asked.repository} has {repository.hash_name()}, and the bundle {bundle.hash_name}")
    objects, references = apply_bundle(repository, bundle, is_forced=asked.force)
    print(f"{objects} objects stored, {references} references moved")
    return DONE
