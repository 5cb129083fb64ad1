"""Addresses as Git takes them apart, and as they are told."""

import re
from dataclasses import dataclass

from bagjulen_tools.protocol.lines import decoded_text, encoded_text
from bagjulen_tools.trouble import BAD_INPUT, Trouble

SCHEME = re.compile(r"([A-Za-z0-9][A-Za-z0-9+.-]*)://")
HELPER = re.compile(r"([A-Za-z0-9][A-Za-z0-9+.-]*)::")
ESCAPED = re.compile(rb"%([0-9A-Fa-f]{2})")
SECURE_SHELL = ("ssh", "git+ssh", "ssh+git")
# What Git takes apart by itself; of others its helpers are handed the whole.
OWN = ("file", "git", *SECURE_SHELL)
PORT = 65535


@dataclass(frozen=True)
class Address:
    """An address: its transport, its host with the user before it, its port and its path.

    The transport is named as the configuration names it. `text` is the address as it was given, and `authority` the
    host and the port as they are written in it. Of a transport by a helper of Git's there is the text alone.
    """

    text: str
    transport: str
    authority: str = ""
    host: str = ""
    port: str | None = None
    path: str = ""


def parsed(text: str) -> Address:
    """An address taken apart: a path, `<host>:<path>`, or `<scheme>://<rest>`.

    The rest is decoded; `#` and `?` stand in it as any other letter. Without a path it is a trouble.
    """
    helper, scheme = HELPER.match(text), SCHEME.match(text)
    if helper is not None:
        return Address(text, helper[1])
    if scheme is None:
        return Address(text, "file", path=text) if is_local(text) else _of_host(text, "ssh", text, ":")
    if scheme[1] not in OWN:
        return Address(text, scheme[1])
    rest = _decoded(text[scheme.end() :])
    if scheme[1] != "file":
        return _of_host(text, "git" if scheme[1] == "git" else "ssh", rest, "/")
    if "/" not in rest:
        raise _no_path()
    return Address(text, "file", path=rest[rest.index("/") :])


def is_local(text: str) -> bool:
    """Whether an address without a scheme is a path: no colon stands before its first slash."""
    return ":" not in text.partition("/")[0]


def _of_host(text: str, transport: str, rest: str, separator: str) -> Address:
    """An address whose rest is a host, a separator and a path."""
    bracket = rest.rfind("@[") + 1
    end = rest.find("]", bracket) if rest.startswith("[", bracket) else 0
    place = rest.find(separator, max(end, 0))
    if place < 0:
        raise _no_path()
    path = rest[place:] if separator == "/" else rest[place + 1 :]
    host, port = _host_and_port(rest[:place])
    return Address(text, transport, rest[:place], host, port, path[1:] if path.startswith("/~") else path)


def _host_and_port(text: str) -> tuple[str, str | None]:
    """A host without its brackets and its port. Brackets may also stand around both."""
    user, at, host = text.rpartition("@")
    match = re.fullmatch(r"\[([^]:]*):(\d+)\]|\[([^]]*)\](?::(\d*))?|([^:]*)(?::(\d*))?", host)
    if match is None:
        return text, None
    inside, port_inside, bracketed, port_behind, bare, port = match.groups()
    port = port_inside or port_behind or port or None
    if port is not None and int(port) > PORT:
        return text, None
    return user + at + next(each for each in (inside, bracketed, bare) if each is not None), port


def _decoded(text: str) -> str:
    """A text with the bytes that `%` and two digits stand for, but for the byte 0."""
    return decoded_text(ESCAPED.sub(_byte_of, encoded_text(text)))


def _byte_of(escaped: re.Match[bytes]) -> bytes:
    return escaped[0] if escaped[1] == b"00" else bytes.fromhex(escaped[1].decode())


def _no_path() -> Trouble:
    return Trouble(BAD_INPUT, "no path specified; see 'git help pull' for valid url syntax")


def anonymous(text: str) -> str:
    """An address without the user's name and password. Of several `@` before the path the last ends them."""
    scheme = SCHEME.match(text)
    if scheme is not None:
        authority, slash, path = text[scheme.end() :].partition("/")
        return scheme[0] + authority.rpartition("@")[2] + slash + path
    _, at, rest = text.partition("@")
    return rest if at and ":" in rest and not is_local(text) else text
