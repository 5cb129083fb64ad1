"""Connections with servers of version 2 of the protocol, and what comes over them line by line."""

import os
import re
import socket
import subprocess
import tempfile
from collections.abc import Callable
from dataclasses import dataclass
from typing import IO

from bagjulen_tools.processes import start_program, wait_or_stop
from bagjulen_tools.protocol.address import Address, parsed
from bagjulen_tools.protocol.allowed import Entries, check_allowed
from bagjulen_tools.protocol.lines import (
    MAX_PAYLOAD,
    Line,
    Mark,
    decoded_text,
    encoded,
    encoded_text,
    length_of,
)
from bagjulen_tools.repository.git import environment, why
from bagjulen_tools.trouble import BAD_INPUT, GIT_REFUSED, ToldTrouble, Trouble, one_line

PROTOCOL = {"GIT_PROTOCOL": "version=2"}
# Behind each reply of a connection that Git's helper of HTTP makes.
RESPONSE_END = b"0002"
BUNDLES = (b"# v2 git bundle\n", b"# v3 git bundle\n")
GIT_PORT = "9418"
ERROR, ERROR_BAND = b"ERR ", b"\3"
HUNG_UP = "the remote end hung up unexpectedly"
CUT_IN_PACK = "unexpected disconnect while reading sideband packet"
NOTHING_CAME = "Could not read from remote repository."
OTHER_VERSION = "the server doesn't speak version 2 of the protocol"
MAX_LENGTH = MAX_PAYLOAD + 4


@dataclass
class Received:
    """What came: its bytes, and why no flush ends them, or None where one does."""

    data: bytes
    problem: str | None


class Connection:
    """A connection: what is read from, what is written to, and the process behind it, if there is one."""

    def __init__(self, reader: IO[bytes], writer: IO[bytes], process: subprocess.Popen[bytes] | None = None,
                 messages: IO[bytes] | None = None, is_helper: bool = False) -> None:
        self._reader, self._writer, self._process, self._messages = reader, writer, process, messages
        self._is_helper = is_helper

    def greeting(self) -> bytes:
        """What the server says first, which tells version 2 of the protocol."""
        came = lines_from(self._reader)
        if came.problem is None and came.data.startswith(encoded(b"version 2\n")):
            return came.data
        if not came.data:
            raise self._refusal(NOTHING_CAME)
        if _is_of_other_version(came.data):
            raise Trouble(GIT_REFUSED, OTHER_VERSION)
        first = one_line(decoded_text(came.data[4 : length_of(came.data[:4])]))
        raise self._refusal(came.problem or f"protocol error: expected sha/ref, got '{first}'")

    def _refusal(self, problem: str) -> Trouble:
        """Why it can't be gone on: what the process behind says, or else the problem of what came."""
        return Trouble(GIT_REFUSED, self.why_ended(problem))

    def ask(self, request: list[Line], heard: Callable[[bytes], None]) -> Received:
        """What answers a request, which is lines without their flush. Each line is handed on as it comes."""
        self.write(b"".join(map(encoded, [*request, Mark.FLUSH])))
        came = lines_from(self._reader, heard)
        if self._is_helper and came.problem is None and self._reader.read(4) != RESPONSE_END:
            return Received(came.data, "git's helper of HTTP ended within a reply")
        return came

    def write(self, data: bytes) -> None:
        """Writes to the other side. Where that has ended, what it said before can still be read."""
        try:
            self._writer.write(data)
            self._writer.flush()
        except OSError:
            pass

    def line(self) -> bytes:
        """The text line that comes next, with its end."""
        return self._reader.readline()

    def why_ended(self, problem: str) -> str:
        """Why a reply isn't whole: what the process behind it said at its end, or else this problem."""
        return (self._why() if problem in (NOTHING_CAME, HUNG_UP, CUT_IN_PACK) else None) or problem

    def _why(self) -> str | None:
        """What the process behind it said of its end, or None."""
        if self._messages is None or self._process is None or self._process.wait() == 0:
            return None
        self._messages.seek(0)
        return why(decoded_text(self._messages.read()))

    def close(self) -> None:
        """Ends the connection, and waits for the process behind it."""
        for each in (self._writer, self._reader):
            try:
                each.close()
            except OSError:
                pass  # The other side ended first.
        if self._process is not None:
            wait_or_stop(self._process)
        if self._messages is not None:
            self._messages.close()


def _is_of_other_version(data: bytes) -> bool:
    """Whether a greeting announces another version: by its name, or by an id as the first word."""
    length = length_of(data[:4])
    line = data[4:length]
    if data == Mark.FLUSH.value:
        return True
    if length < 4 or len(data) < length or line == b"version 2\n":
        return False
    return re.match(rb"version \d|([0-9a-fA-F]{40}|[0-9a-fA-F]{64}) ", line) is not None


def lines_from(reader: IO[bytes], heard: Callable[[bytes], None] = lambda line: None) -> Received:
    """What comes up to a flush, an error of the server, or the end. Each line is handed on as it comes."""
    said: list[bytes] = []
    is_in_pack, error = False, None
    while True:
        data = _read(reader, 4)
        length = length_of(data)
        said.append(data)
        if data == Mark.FLUSH.value:
            return Received(b"".join(said), error)
        if len(data) == 4 and data != Mark.DELIMITER.value and not 4 <= length <= MAX_LENGTH:
            return Received(b"".join(said), error or _no_length(data, is_in_pack))
        line = _read(reader, max(length - 4, 0))
        said.append(line)
        if len(data) < 4 or len(line) < length - 4:
            return Received(b"".join(said), error or (CUT_IN_PACK if is_in_pack else HUNG_UP))
        if line.startswith(ERROR):
            return Received(b"".join(said), _remote_error(line[len(ERROR):]))
        if is_in_pack and line.startswith(ERROR_BAND):
            error = error or _remote_error(line[1:])
        is_in_pack = is_in_pack or line == b"packfile\n"
        heard(line)


def _no_length(digits: bytes, is_in_pack: bool) -> str:
    """What is wrong with digits that are the length of no line."""
    if digits == RESPONSE_END:
        return CUT_IN_PACK if is_in_pack else HUNG_UP
    length = length_of(digits)
    told = f" {length}" if length else f" character: {one_line(decoded_text(digits))}"
    return f"protocol error: bad line length{told}"


def _remote_error(text: bytes) -> str:
    return f"remote error: {one_line(decoded_text(text))}"


def _read(reader: IO[bytes], count: int) -> bytes:
    """So many bytes, or those that come before the end."""
    try:
        return reader.read(count)
    except OSError:
        return b""  # The connection was reset.


def is_bundle(path: str) -> bool:
    """Whether a bundle stands there."""
    if not os.path.isfile(path):
        return False
    with open(path, "rb") as file:
        return file.readline(64) in BUNDLES


def connect(text: str, name: str = "", entries: Entries = (), program: str | None = None,
            family: str | None = None) -> Connection:
    """The connection with the server of an address, as `git fetch` takes addresses.

    A name is that of the remote, and the entries are those of the configuration, which says what is allowed.
    `program` is what is run there in place of `git-upload-pack`, and `family` 4 or 6 for that version of IP alone.
    """
    if text.startswith("-"):
        raise Trouble(BAD_INPUT, f"strange pathname '{text}' blocked")
    address, entries = parsed(text), list(entries)
    check_allowed(address.transport, entries)
    if address.transport not in WAYS or text.startswith(f"{address.transport}::"):
        raise Trouble(BAD_INPUT, f"the transport '{address.transport}' isn't supported")
    if is_bundle(text):
        raise Trouble(BAD_INPUT, f"'{text}' is a bundle, which git bagjulen doesn't fetch from")
    for kind, word in (("hostname", address.host), ("pathname", address.path)):
        if word.startswith("-"):
            raise Trouble(BAD_INPUT, f"strange {kind} '{word}' blocked")
    return WAYS[address.transport](address, Way(name, dict(entries), program, family))


@dataclass
class Way:
    """How a server is reached: the name of its remote, the last value of each key of the configuration, the program
    there where it isn't `git-upload-pack`, and the version of IP where it has to be one.
    """

    name: str
    last: dict[str, str | None]
    program: str | None
    family: str | None


def _by_process(words: list[str], is_heard: bool = True, is_helper: bool = False) -> Connection:
    """A connection with a process. Where it is heard its messages are kept, and else they are shown."""
    messages = tempfile.TemporaryFile() if is_heard else None
    try:
        process = start_program(words, messages, environment(PROTOCOL))
    except OSError as error:
        raise Trouble(GIT_REFUSED, f"can't run {words[0]}: {error.strerror}") from None
    assert process.stdin is not None and process.stdout is not None
    return Connection(process.stdout, process.stdin, process, messages, is_helper)


def local(path: str, program: str | None = None) -> Connection:
    """The connection with a repository on this machine."""
    if program is not None:
        return _by_process(["sh", "-c", f'{program} "$@"', program, path], is_heard=False)
    return _by_process(["git", "upload-pack", path])


def _file(address: Address, way: Way) -> Connection:
    return local(address.path, way.program)


def _http(address: Address, way: Way) -> Connection:
    """The connection that Git's helper makes. It begins with the helper's own lines."""
    words = ["git", f"remote-{address.transport}", way.name or address.text, address.text]
    connection = _by_process(words, is_heard=False, is_helper=True)
    if way.family is not None:
        connection.write(f"option family ipv{way.family}\n".encode())
        connection.line()
    connection.write(b"stateless-connect git-upload-pack\n")
    answer = connection.line()
    if answer != b"\n":
        connection.close()
        raise Trouble(GIT_REFUSED, OTHER_VERSION) if answer else ToldTrouble(GIT_REFUSED)
    return connection


def _ssh(address: Address, way: Way) -> Connection:
    """The connection by what GIT_SSH_COMMAND, `core.sshCommand` or GIT_SSH says, or else by `ssh`."""
    variant = os.environ.get("GIT_SSH_VARIANT") or way.last.get("ssh.variant")
    if variant not in (None, "auto", "ssh"):
        raise Trouble(BAD_INPUT, f"the variant '{variant}' of ssh isn't supported by git bagjulen")
    command = os.environ.get("GIT_SSH_COMMAND") or way.last.get("core.sshcommand")
    quoted = "'" + address.path.replace("'", "'\\''").replace("!", "'\\!'") + "'"
    port = ["-p", address.port] if address.port else []
    family = [f"-{way.family}"] if way.family else []
    program = way.program or "git-upload-pack"
    rest = ["-o", "SendEnv=GIT_PROTOCOL", *family, *port, address.host, f"{program} {quoted}"]
    if command:
        return _by_process(["sh", "-c", f'{command} "$@"', "ssh", *rest], is_heard=False)
    return _by_process([os.environ.get("GIT_SSH", "ssh"), *rest], is_heard=False)


def _git(address: Address, way: Way) -> Connection:
    """The connection with a daemon of Git."""
    if os.environ.get("GIT_PROXY_COMMAND") or way.last.get("core.gitproxy"):
        raise Trouble(BAD_INPUT, "core.gitProxy and GIT_PROXY_COMMAND aren't supported by git bagjulen")
    if {"\n", "\0"} & set(address.authority + address.path):
        raise Trouble(BAD_INPUT, "newline is forbidden in git:// hosts and repo paths")
    port, host = address.port or GIT_PORT, address.host.rpartition("@")[2]
    try:
        made = _socket(address.host, int(port), way.family)
    except socket.gaierror as error:
        raise Trouble(GIT_REFUSED, f"unable to look up {host} (port {port}) ({error.strerror})") from None
    except OSError as error:
        raise Trouble(GIT_REFUSED, f"unable to connect to {host}: {error.strerror or error}") from None
    reader, writer = made.makefile("rb"), made.makefile("wb")
    made.close()
    connection = Connection(reader, writer)
    first = f"{way.program or 'git-upload-pack'} {address.path}\0host={address.authority}\0\0version=2\0"
    connection.write(encoded(encoded_text(first)))
    return connection


def _socket(host: str, port: int, family: str | None) -> socket.socket:
    """A connection with a port, by the first of the host's addresses that takes it."""
    if family is None:
        return socket.create_connection((host, port))
    kind = socket.AF_INET if family == "4" else socket.AF_INET6
    places = [found[4][:2] for found in socket.getaddrinfo(host, port, kind, socket.SOCK_STREAM)]
    for place in places[:-1]:
        try:
            return socket.create_connection(place)
        except OSError:
            continue
    return socket.create_connection(places[-1])


WAYS: dict[str, Callable[[Address, Way], Connection]] = {
    "file": _file, "http": _http, "https": _http, "ssh": _ssh, "git": _git}
