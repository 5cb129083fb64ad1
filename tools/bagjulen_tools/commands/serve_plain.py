"""Serves a repository to one peer that lives, over standard input and output, with plain packs in place of Git's own.

The peer says its first line, `git-upload-pack <address>` with what follows it, gets the greeting, and then asks: each
request ends with a flush, and gets the answer of real `git upload-pack`. The address is passed over. It ends where the
peer's bytes do between two requests.
"""

import sys
from collections.abc import Iterator
from typing import IO

from bagjulen_tools.protocol.connection import lines_from, local
from bagjulen_tools.protocol.lines import Line, MalformedLine, Mark, length_of, line_at, placed_lines
from bagjulen_tools.protocol.upload_pack import Server
from bagjulen_tools.repository.git import Repository
from bagjulen_tools.trouble import BAD_INPUT, DONE, GIT_REFUSED, ToolParser, Trouble, write_output

FIRST = b"git-upload-pack "


def first_line(reader: IO[bytes]) -> bytes:
    """The payload of the line that stands before all requests."""
    digits = reader.read(4)
    try:
        line, _ = line_at(digits + reader.read(max(length_of(digits) - 4, 0)), 0)
    except MalformedLine:
        return b""
    return b"" if isinstance(line, Mark) else line


def requests(reader: IO[bytes]) -> Iterator[list[Line]]:
    """The requests that come, each its lines without the flush."""
    while (came := lines_from(reader)).data:
        if came.problem is not None:
            raise Trouble(BAD_INPUT, "the peer's bytes end within a request, or are no lines")
        yield [line for _, line in placed_lines(came.data)][:-1]


def main(arguments: list[str]) -> int:
    parser = ToolParser(__doc__)
    parser.add_argument("repository", metavar="REPOSITORY", help="what is served")
    server = Server(local(Repository(parser.parse_args(arguments).repository).git_dir))
    reader = sys.stdin.buffer
    try:
        if not first_line(reader).startswith(FIRST):
            raise Trouble(BAD_INPUT, "the peer's first line isn't `git-upload-pack <address>`")
        write_output(server.greeting())
        for request in requests(reader):
            write_output(server.answer(request))
            if server.refusal is not None:
                raise Trouble(GIT_REFUSED, f"git upload-pack refused: {server.refusal}")
    finally:
        server.close()
    return DONE
