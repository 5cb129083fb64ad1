"""The server: what real `git upload-pack` says, with plain packs in place of Git's own."""

import os
from collections.abc import Iterable
from typing import Protocol

from bagjulen_tools.files import temporary_folder
from bagjulen_tools.formats.plainpack import Object, write_pack
from bagjulen_tools.protocol.connection import Connection, is_bundle
from bagjulen_tools.protocol.lines import MAX_PAYLOAD, Line, Mark, encoded, encoded_text, pieces, placed_lines, text_of
from bagjulen_tools.repository.git import git, objects_in
from bagjulen_tools.trouble import BAD_INPUT, Trouble

PACK_WORDS = {"plain-pack": 1, "plain-pack-2": 2}
FORMAT = "object-format="


class Listener(Protocol):
    """Who hears what a server says beside a reply, piece by piece, and then that the reply has ended."""

    def __call__(self, text: bytes) -> None: ...

    def end(self) -> None: ...


class Server:
    """A server that is fetched from over version 2 of the protocol.

    `told` hears what it says beside its replies; it is asked for its progress where `asks_progress` says so.
    `refusal` tells why it refused a request, or why its reply isn't whole, once that is so.
    """

    def __init__(self, connection: Connection, told: Listener | None = None,
                 asks_progress: bool = False, options: Iterable[str] = ()) -> None:
        self._connection, self._told, self._asks_progress = connection, told, asks_progress
        self.refusal: str | None = None
        self._greeting = connection.greeting()
        lines = [line for _, line in placed_lines(self._greeting) if isinstance(line, bytes)]
        texts = [text_of(line) for line in lines]
        self._options: list[Line] = [encoded_text(f"server-option={option}\n") for option in options]
        if self._options and "server-option" not in texts:
            connection.close()
            raise Trouble(BAD_INPUT, "server doesn't support 'server-option'")
        self.hash_name = next((text[len(FORMAT):] for text in texts if text.startswith(FORMAT)), "sha1")

    def greeting(self) -> bytes:
        """The real greeting, with plain packs among the features of `fetch`."""
        return b"".join(encoded(_with_plain_packs(line)) for _, line in placed_lines(self._greeting))

    def answer(self, request: list[Line]) -> bytes:
        """What answers a request, which is lines without their flush. Of a refused one, what came."""
        words = [text_of(line) for line in request if not isinstance(line, Mark)]
        version = next((PACK_WORDS[word] for word in words if word in PACK_WORDS), None)
        if version is None:
            return self._said(request)
        asked = [line for line in request if isinstance(line, Mark) or text_of(line) not in PACK_WORDS]
        said = self._said(asked if self._asks_progress else [*asked, b"no-progress\n"])
        return said if self.refusal is not None else self._with_plain_pack(said, version)

    def _said(self, request: list[Line]) -> bytes:
        """What real Git answers."""
        came = self._connection.ask([*request[:1], *self._options, *request[1:]], self._hear)
        if self._told is not None:
            self._told.end()
        if came.problem is not None:
            self.refusal = self._connection.why_ended(came.problem)
        return came.data

    def _hear(self, line: bytes) -> None:
        if self._told is not None and line[:1] == b"\2":
            self._told(line[1:])

    def close(self) -> None:
        """Ends the connection."""
        self._connection.close()

    def _with_plain_pack(self, said: bytes, version: int) -> bytes:
        """A reply of real Git, with the objects of its pack in a plain pack."""
        front, bands = _split_at_pack(said)
        if bands is None:
            return front
        others = [line for line in bands if line[:1] != b"\1"]
        pack = b"".join(line[1:] for line in bands if line[:1] == b"\1")
        return front + _in_bands(write_pack(self._unpacked(pack), version, self.hash_name), others)

    def _unpacked(self, pack: bytes) -> list[Object]:
        """The objects of one of Git's packs, in its order."""
        with temporary_folder() as folder:
            git(["init", "-q", "--bare", "--template=", f"--object-format={self.hash_name}", folder])
            git(["-C", folder, "index-pack", "--stdin", "--keep"], pack)
            batch = git(["-C", folder, "cat-file", "--batch-all-objects", "--unordered", "--batch"])
            return objects_in(batch)


def _with_plain_packs(line: Line) -> Line:
    if isinstance(line, bytes) and line.startswith(b"fetch="):
        return line.rstrip(b"\n") + b" plain-pack plain-pack-2\n"
    return line


def _split_at_pack(said: bytes) -> tuple[bytes, list[bytes] | None]:
    """The bytes up to the line `packfile` with it, and the band lines behind it, None where no pack comes."""
    front: list[bytes] = []
    bands: list[bytes] | None = None
    for _, line in placed_lines(said):
        if bands is None:
            front.append(encoded(line))
            bands = [] if line == b"packfile\n" else None
        elif not isinstance(line, Mark):
            bands.append(line)
    return b"".join(front), bands


def _in_bands(pack: bytes, others: list[bytes]) -> bytes:
    """Band lines with these ones of other bands first, then the pack, then the flush."""
    cut = [b"\1" + piece for piece in pieces(pack, MAX_PAYLOAD - 1)]
    lines: list[Line] = [*others, *cut, Mark.FLUSH]
    return b"".join(map(encoded, lines))


def unbundled(path: str, folder: str) -> str:
    """A repository with what a bundle has, below a folder."""
    if not is_bundle(path):
        raise Trouble(BAD_INPUT, f"{path} is no bundle")
    target = os.path.join(folder, "bundle.git")
    git(["clone", "-q", "--mirror", path, target])
    return target
