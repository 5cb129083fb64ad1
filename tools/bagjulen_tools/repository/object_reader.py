"""Objects of a repository, read one by one, also of a repository that is damaged."""

import os
import secrets
import subprocess
import tempfile
from collections.abc import Callable, Iterable, Iterator
from types import TracebackType
from typing import IO

from bagjulen_tools.formats.plainpack import KINDS, Object, object_id
from bagjulen_tools.processes import close_all, start_program, stop
from bagjulen_tools.protocol.lines import decoded_text
from bagjulen_tools.repository.git import Repository, environment

# How many ids are asked for at a time: they have room in a pipe.
COUNT = 500
PIECE = 1 << 20
OTHER_BYTES = "its bytes are others than its id says"


class ObjectReader:
    """One `git cat-file --batch`, which is started anew where an object has it fail. `damaged` has the ids
    of objects that are stored and can't be read, with Git's words.
    """

    def __init__(self, repository: Repository) -> None:
        self._words = ["git", "-C", repository.path, "cat-file", "--batch"]
        self._hash_name, self._stored = repository.hash_name(), repository.stored_ids()
        self._git: subprocess.Popen[bytes] | None = None
        self._messages: IO[bytes] = tempfile.TemporaryFile()
        self.damaged: dict[str, str] = {}

    def __enter__(self) -> "ObjectReader":
        return self

    def __exit__(self, kind: type[BaseException] | None, error: BaseException | None,
                 trace: TracebackType | None) -> None:
        self._end()
        close_all(self._messages)

    def all(self) -> Iterator[Object]:
        """All objects that are stored and can be read."""
        return self.read(sorted(self._stored))

    def read(self, ids: Iterable[str]) -> Iterator[Object]:
        """Those of these objects that are stored and can be read."""
        rest, count = [digits for digits in ids if digits in self._stored], COUNT
        while rest:
            asked, rest = rest[:count], rest[count:]
            found = self._first_of(asked)
            yield from found
            is_whole = len(found) == len(asked)
            if not is_whole and count > 1:
                rest = asked[len(found) :] + rest
            elif not is_whole:
                self.damaged[asked[0]] = self._why(asked[0])
            count = COUNT if is_whole or count == 1 else 1

    def reached(self, starts: Iterable[str], links_of: Callable[[Object], list[str]]) -> Iterator[Object]:
        """The objects that these ids and the links of objects lead to, each once."""
        known, rest = set(), list(dict.fromkeys(starts))
        while rest:
            known.update(rest)
            links: dict[str, None] = {}
            for each in self.read(rest):
                yield each
                links.update(dict.fromkeys(links_of(each)))
            rest = [digits for digits in links if digits not in known]

    def _first_of(self, ids: list[str]) -> list[Object]:
        """These objects up to the first that can't be read. A damaged one may have other bytes than its
        length tells.
        """
        text, found, place = self._answer(ids), [], 0
        for digits in ids:
            end = text.find(b"\n", place)
            words = text[place : max(end, place)].decode("ascii", "replace").split(" ")
            if len(words) != 3 or not words[2].isdecimal():
                break
            place = end + 1 + int(words[2]) + 1
            data = text[end + 1 : place - 1]
            if place > len(text) or words[1] not in KINDS:
                break
            if object_id(self._hash_name, words[1], data) != digits:
                break
            found.append(Object(digits, words[1], data))
        return found

    def _answer(self, ids: list[str]) -> bytes:
        """What Git tells of these ids, up to its answer to a name that nobody else has, or up to its end."""
        if self._git is None:
            self._git = start_program(self._words, self._messages, environment({}))
        assert self._git.stdin is not None and self._git.stdout is not None
        name = f"end-{secrets.token_hex(16)}"
        try:
            self._git.stdin.write("".join(f"{digits}\n" for digits in [*ids, name]).encode())
            self._git.stdin.flush()
        except BrokenPipeError:
            pass  # It failed, and says why.
        said, last = bytearray(), f"{name} missing\n".encode()
        while not said.endswith(last):
            piece = os.read(self._git.stdout.fileno(), PIECE)
            if not piece:
                self._end()
                break
            said += piece
        return bytes(said)

    def _why(self, digits: str) -> str:
        """What Git said of an object, or else what it said first."""
        messages = decoded_text(os.pread(self._messages.fileno(), PIECE, 0))
        return next((line for line in messages.splitlines() if digits in line), OTHER_BYTES)

    def _end(self) -> None:
        if self._git is not None:
            stop(self._git)
            self._git = None
