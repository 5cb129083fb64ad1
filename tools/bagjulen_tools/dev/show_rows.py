"""Shows the scenes of crates/fetch_rows: each line of the scene, and then the report.

Shown are the rows whose name has each WORD, or all of them where there is none.
"""

from bagjulen_tools.formats.rows import scenes
from bagjulen_tools.protocol.lines import MalformedLine, Mark, placed_lines
from bagjulen_tools.trouble import DONE, ToolParser


def shown(scene):
    """The lines of a scene as texts, up to the first that is none."""
    try:
        for _, line in placed_lines(scene):
            yield line.value.decode() if isinstance(line, Mark) else repr(line)[2:-1]
    except MalformedLine as error:
        yield f"(no line at {error.place})"


def main(arguments: list[str]) -> int:
    parser = ToolParser(__doc__)
    parser.add_argument("words", metavar="WORD", nargs="*", help="a word of the name")
    words = parser.parse_args(arguments).words
    for name, scene, report in scenes():
        if all(word in name for word in words):
            print(f"== {name}", *shown(scene), report, sep="\n")
    return DONE
