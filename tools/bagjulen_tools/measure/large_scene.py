"""Writes a scene that is large in one way, to measure with. The repository is empty, and what comes is mapped and new.

commits COUNT: a branch at the end of a line of COUNT commits over one tree.
references COUNT: a pack of one commit, and COUNT branches at it.
blob BYTES: a pack of one blob of that many bytes, and a tag at it.
"""

from bagjulen_tools.formats.plainpack import Object, object_id, write_pack
from bagjulen_tools.formats.scene import Scene
from bagjulen_tools.protocol.lines import Mark, encoded, text_line
from bagjulen_tools.trouble import BAD_WORDS, DONE, ToolParser, Trouble, write_file

TREE = Object(object_id("sha1", "tree", b""), "tree", b"")
BAND = 65_000


def words(given):
    """What the words say."""
    parser = ToolParser(__doc__)
    parser.add_argument("kind", choices=["commits", "references", "blob"], help="what there is much of")
    parser.add_argument("count", metavar="COUNT", type=int, help="how much, 1 or more")
    parser.add_argument("-o", dest="output", metavar="FILE", required=True, help="the scene")
    asked = parser.parse_args(given)
    if asked.count < 1:
        raise Trouble(BAD_WORDS, "COUNT is 1 or more")
    return asked


def commit(number, parent):
    """The commit of a number in a line."""
    person = f"A <a@x> {number} +0000"
    lines = [f"tree {TREE.id}", *([f"parent {parent}"] if parent else []), f"author {person}", f"committer {person}", ""]
    data = "\n".join([*lines, f"{number}\n"]).encode()
    return Object(object_id("sha1", "commit", data), "commit", data)


def line_of(count):
    """That many commits, one after the other."""
    parent = None
    for number in range(1, count + 1):
        each = commit(number, parent)
        yield each
        parent = each.id


def commits(count):
    """The objects, the references and the refspec of a line."""
    objects = [TREE, *line_of(count)]
    return objects, [f"{objects[-1].id} refs/heads/main"], "+refs/heads/*:refs/remotes/origin/*"


def references(count):
    """The same of many references at one commit."""
    one = commit(1, None)
    return [TREE, one], [f"{one.id} refs/heads/b{i:07}" for i in range(count)], "+refs/heads/*:refs/remotes/origin/*"


def blob(count):
    """The same of one large blob."""
    data = (b"0123456789abcdef" * (count // 16 + 1))[:count]
    one = Object(object_id("sha1", "blob", data), "blob", data)
    return [one], [f"{one.id} refs/tags/large"], "+refs/tags/*:refs/tags/*"


def said(*lines):
    """Lines and a flush."""
    return b"".join(map(encoded, [*lines, Mark.FLUSH]))


def main(arguments: list[str]) -> int:
    asked = words(arguments)
    objects, listed, spec = {"commits": commits, "references": references, "blob": blob}[asked.kind](asked.count)
    pack = write_pack(objects, 1, "sha1")
    bands = [b"\1" + pack[i:i + BAND] for i in range(0, len(pack), BAND)]
    scene = Scene(
        hash_name="sha1", git_dir="/w/.git", work_tree="/w", config=["[fetch]", "negotiationAlgorithm = noop"],
        address="/srv/a.git", specs=[spec], tags="none",
        server=[
            said(*map(text_line, ["version 2", "ls-refs=unborn", "fetch=shallow plain-pack", "object-format=sha1"])),
            said(*map(text_line, listed)),
            said(b"packfile\n", *bands),
        ])
    write_file(asked.output, scene.to_bytes())
    return DONE
