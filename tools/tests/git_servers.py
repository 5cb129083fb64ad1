"""Servers of Git's protocol on the loopback address whose replies are changed on their way."""

import contextlib
import os
import socket
import subprocess
import threading
from collections.abc import Callable, Iterator

from http_backend import Handler, served

from bagjulen_tools.protocol.connection import lines_from
from bagjulen_tools.protocol.lines import encoded

# What becomes of a reply: its number, 0 for the greeting, and its bytes. Behind a changed one the connection ends.
Change = Callable[[int, bytes], bytes]


def unchanged(_: int, said: bytes) -> bytes:
    return said


def cut(number: int, count: int) -> Change:
    """The reply with this number loses all but so many bytes."""
    return lambda each, said: said[:count] if each == number else said


def replaced(number: int, *lines: bytes) -> Change:
    """The lines that come in place of a reply."""
    return lambda each, said: b"".join(map(encoded, lines)) if each == number else said


def converse(stream: socket.socket, change: Change) -> None:
    """Serves one client by `git upload-pack`, over a stream of which the first line names the repository."""
    reader = stream.makefile("rb")
    first = reader.read(int(reader.read(4), 16) - 4)
    path = first.partition(b"\0")[0].removeprefix(b"git-upload-pack ").decode()
    more = {**os.environ, "GIT_PROTOCOL": "version=2"}
    with subprocess.Popen(["git", "upload-pack", path], stdin=subprocess.PIPE, stdout=subprocess.PIPE,
                          stderr=subprocess.DEVNULL, env=more) as real:
        assert real.stdin is not None and real.stdout is not None
        number, said = 0, lines_from(real.stdout).data
        while stream.send(changed := change(number, said)) and changed == said:
            request = lines_from(reader).data
            if not request:
                break
            real.stdin.write(request)
            real.stdin.flush()
            number, said = number + 1, lines_from(real.stdout).data
    reader.close()
    stream.close()


def _accept(listener: socket.socket, change: Change) -> None:
    with contextlib.suppress(OSError):
        while True:
            stream, _ = listener.accept()
            with contextlib.suppress(OSError, ValueError):
                converse(stream, change)


@contextlib.contextmanager
def over_socket(change: Change = unchanged) -> Iterator[str]:
    """The beginning of addresses `git://` of repositories on this machine."""
    with socket.create_server(("127.0.0.1", 0)) as listener:
        threading.Thread(target=_accept, args=(listener, change), daemon=True).start()
        yield f"git://127.0.0.1:{listener.getsockname()[1]}"
        with contextlib.suppress(OSError):
            listener.shutdown(socket.SHUT_RDWR)


@contextlib.contextmanager
def over_http(root: str, change: Change = unchanged, is_open: bool = True,
              is_new: bool = True) -> Iterator[str]:
    """The beginning of addresses `http://` of the repositories below a folder.

    Where it isn't open it asks for a password; where it isn't new it speaks no version 2.
    """

    numbers: list[int] = []

    class Changed(Handler):
        speaks_version_2 = is_new

        def body(self, said: bytes) -> bytes:
            numbers.append(numbers[-1] + 1 if self.command == "POST" else 0)
            return change(numbers[-1], said)

        def is_welcome(self) -> bool:
            return is_open or self.headers.get("Authorization") is not None

    server, address = served(root, Changed)
    try:
        yield address
    finally:
        server.shutdown()
        server.server_close()
