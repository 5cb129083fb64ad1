"""Writes the bundle of a real repository: references, border, and the objects that direct references reach.

Reflogs and objects that no reference reaches are left out. The repository isn't changed. The bundle is read
back before it is handed out, and a file takes the place of an older one only when it is whole and on the
disk.
"""

import argparse

from bagjulen_tools.formats.bundle import bundle_of, checked_text
from bagjulen_tools.repository.git import Repository
from bagjulen_tools.repository.reached import reached_state
from bagjulen_tools.trouble import DONE, ToolParser, write_file, write_output


def words(given: list[str]) -> argparse.Namespace:
    """What the words say."""
    parser = ToolParser(__doc__)
    parser.add_argument("repository", metavar="REPOSITORY", help="a repository")
    parser.add_argument("-o", "--output", metavar="FILE",
                        help="where the bundle is written (else standard output)")
    return parser.parse_intermixed_args(given)


def main(arguments: list[str]) -> int:
    """Writes the bundle, and returns 0."""
    asked = words(arguments)
    state = reached_state(Repository(asked.repository))
    text = checked_text(bundle_of(state.hash_name, state.references, state.border, state.objects))
    if asked.output is None:
        write_output(text)
    else:
        write_file(asked.output, text)
    return DONE
