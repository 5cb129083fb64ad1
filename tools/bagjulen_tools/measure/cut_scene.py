"""Fetches what a scene says with the server's bytes in other pieces, and compares the reports.

The bytes are cut into two pieces at each place in turn, and into pieces of each length up to all of them. Each report
has to be that of the scene as it is.
"""

from bagjulen_tools.engine import PROGRAM, Engine
from bagjulen_tools.formats.scene import read_scene
from bagjulen_tools.protocol.lines import MAX_PAYLOAD, Mark, encoded, pieces
from bagjulen_tools.trouble import BAD_INPUT, DIFFERENT, DONE, ToolParser, Trouble, read_file


def words(given):
    """What the words say."""
    parser = ToolParser(__doc__, "a report is another one")
    parser.add_argument("scene", metavar="SCENE", help="a scene")
    parser.add_argument("--engine", default=PROGRAM, metavar="PROGRAM", help="the engine (bagjulen beside tools/)")
    return parser.parse_args(given)


def ways(said):
    """Each way to cut the bytes, with what it is."""
    for place in range(1, len(said)):
        yield f"two pieces, cut at {place}", [said[:place], said[place:]]
    for length in range(1, len(said) + 1):
        yield f"pieces of {length} bytes", pieces(said, length)


def main(arguments: list[str]) -> int:
    asked = words(arguments)
    data, engine = read_file(asked.scene), Engine(asked.engine)
    server = read_scene(data).server
    said, front = b"".join(server), data.removesuffix(b"".join(map(encoded, [*server, Mark.FLUSH])))
    if len(said) > MAX_PAYLOAD or len(front) == len(data):
        raise Trouble(BAD_INPUT, f"the server's bytes in {asked.scene} don't fit into a payload")
    wanted, count, others = engine.fetch(data), 0, 0
    for about, cut in ways(said):
        count += 1
        if engine.fetch(front + b"".join(map(encoded, [*cut, Mark.FLUSH]))) != wanted:
            others += 1
            print(f"{about}: another report")
    print(f"{count} ways to cut {len(said)} bytes, {others} other reports")
    return DIFFERENT if others else DONE
