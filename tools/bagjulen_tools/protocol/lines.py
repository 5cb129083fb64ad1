"""Lines: four hexadecimal digits that count themselves, and the payload after them."""

import re
from collections.abc import Iterator
from enum import Enum

from bagjulen_tools.trouble import BAD_INPUT, Trouble

MAX_PAYLOAD = 65516
LENGTH = re.compile(rb"[0-9a-fA-F]{4}")


class Mark(Enum):
    """A line without payload."""

    FLUSH = b"0000"
    DELIMITER = b"0001"


Line = Mark | bytes


class MalformedLine(Trouble):
    """Bytes that are no lines, at the place of the first that is none."""

    def __init__(self, place: int) -> None:
        super().__init__(BAD_INPUT, f"what comes is no line at {place}")
        self.place = place


def encoded(line: Line) -> bytes:
    """The bytes of a line, which is a mark or a payload."""
    if isinstance(line, Mark):
        return line.value
    if len(line) > MAX_PAYLOAD:
        raise ValueError(f"a payload of {len(line)} bytes")
    return b"%04x%s" % (len(line) + 4, line)


def text_line(text: str) -> bytes:
    """The payload of a text line."""
    return encoded_text(text) + b"\n"


def encoded_text(text: str) -> bytes:
    """The bytes of a text. What isn't UTF-8 came from bytes and becomes these again."""
    return text.encode("utf-8", "surrogateescape")


def decoded_text(data: bytes) -> str:
    """The text of bytes, with a way back also where they aren't UTF-8."""
    return data.decode("utf-8", "surrogateescape")


def text_of(payload: bytes) -> str:
    """The text of a text line: its payload without the last line feed."""
    return decoded_text(payload.removesuffix(b"\n"))


def placed_lines(data: bytes) -> Iterator[tuple[int, Line]]:
    """Each line with its place."""
    place = 0
    while place < len(data):
        line, end = line_at(data, place)
        yield place, line
        place = end


def line_at(data: bytes, place: int) -> tuple[Line, int]:
    """The line that begins at a place, and the place after it."""
    digits = data[place : place + 4]
    for mark in Mark:
        if digits == mark.value:
            return mark, place + 4
    length = length_of(digits)
    if not 4 <= length <= MAX_PAYLOAD + 4 or place + length > len(data):
        raise MalformedLine(place)
    return data[place + 4 : place + length], place + length


def length_of(digits: bytes) -> int:
    """The length that a line's digits tell, hexadecimal ones in either case, or 0 where they are none."""
    return int(digits, 16) if LENGTH.fullmatch(digits) else 0


def pieces(data: bytes, size: int = MAX_PAYLOAD) -> list[bytes]:
    """The bytes, cut into pieces that fit into payloads."""
    return [data[at : at + size] for at in range(0, len(data), size)]
