"""What a server is asked, read by docs/FORMATS.md: requests line by line, and where they break."""

import re
from dataclasses import dataclass, field

from bagjulen_tools.formats.grammar import DIGITS, is_name
from bagjulen_tools.protocol.depth import Depth
from bagjulen_tools.protocol.lines import Mark, decoded_text

BOUND = 1 << 28
PACKS = {b"plain-pack": 1, b"plain-pack-2": 2}
DIGITS_OF_A_LINE = re.compile(rb"[0-9a-fA-F]{0,4}")
FIRST_LINE = re.compile(rb"git-upload-pack [^\0\n]*\0\0version=2\0(?:[^\n]*\0)?")


class IncompleteRequest(Exception):
    """A text that is the beginning of a request."""


class RefusedRequest(Exception):
    """A request that can't be read. Its arguments are the name of the refusal and the place or the bound."""


@dataclass
class FirstLine:
    """What a conversation begins with."""


@dataclass
class ListingRequest:
    """What is asked of the references."""

    unborn: bool = False
    prefixes: list[bytes] = field(default_factory=list)


@dataclass
class FetchRequest:
    """What is asked of the objects."""

    version: int = 1
    include_tag: bool = False
    border: list[str] = field(default_factory=list)
    depth: Depth | None = None
    wants: list[str] = field(default_factory=list)
    haves: list[str] = field(default_factory=list)
    done: bool = False


def request_at(text, hash_name, begun):
    """The request that a text begins with, and what is behind it."""
    lines = Lines(text)
    asked = _command(lines, hash_name) if begun else _first_line(lines)
    return asked, text[lines.place :]


class Lines:
    """The lines of one request. A place counts from its first byte."""

    def __init__(self, text):
        self.text, self.place, self.at = text, 0, 0

    def next(self):
        """The next line, a mark or a payload. Its digits are judged first, then the bound, and then whether it is whole."""
        self.at = self.place
        digits = self.text[self.at : self.at + 4]
        if not DIGITS_OF_A_LINE.fullmatch(digits):
            raise self.broken()
        if len(digits) < 4:
            raise IncompleteRequest
        length = int(digits, 16)
        if length in (2, 3) or length > 0xFFF0:
            raise self.broken()
        self.place += max(length, 4)
        if self.place > BOUND:
            raise RefusedRequest("RequestTooLong", BOUND)
        if self.place > len(self.text):
            raise IncompleteRequest
        if length < 2:
            return Mark.DELIMITER if length else Mark.FLUSH
        return self.text[self.at + 4 : self.place]

    def text_or(self, *marks):
        """The next line, which has to be a text or one of these marks. A last line feed is taken off."""
        line = self.next()
        if isinstance(line, Mark) and line not in marks:
            raise self.broken()
        return line if isinstance(line, Mark) else line.removesuffix(b"\n")

    def expect(self, *wanted):
        """Lines that have to be these."""
        for each in wanted:
            if self.text_or(Mark.DELIMITER) != each:
                raise self.broken()

    def broken(self):
        """That the line that was read last may not stand there."""
        return RefusedRequest("Malformed", self.at)


def _first_line(lines):
    line = lines.next()
    if isinstance(line, Mark) or not FIRST_LINE.fullmatch(line):
        raise lines.broken()
    return FirstLine()


def _command(lines, hash_name):
    command = lines.text_or()
    if command not in (b"command=ls-refs", b"command=fetch"):
        raise lines.broken()
    lines.expect(b"object-format=" + hash_name.encode(), Mark.DELIMITER)
    return _listing(lines) if command == b"command=ls-refs" else _fetch(lines, DIGITS[hash_name])


def _listing(lines):
    lines.expect(b"symrefs", b"peel")
    asked, is_first = ListingRequest(), True
    while (line := lines.text_or(Mark.FLUSH)) is not Mark.FLUSH:
        if is_first and line == b"unborn":
            asked.unborn = True
        else:
            prefix = line.removeprefix(b"ref-prefix ")
            if prefix == line or prefix <= (asked.prefixes or [b""])[-1]:
                raise lines.broken()
            asked.prefixes.append(prefix)
        is_first = False
    return asked


FRONT = b"", b"include-tag", b"shallow"
LIMITS = b"deepen-since", b"deepen-not"
NONE = b"deepen 0"
# The words of a fetch request, and behind which of them each may stand. A depth of 0 has to be relative.
BEHIND = {
    b"include-tag": FRONT[:1], b"shallow": FRONT,
    b"deepen": FRONT, NONE: FRONT, b"deepen-relative": (b"deepen", NONE), b"deepen-since": FRONT, b"deepen-not": (*FRONT, *LIMITS),
    b"want": (*FRONT, b"deepen", b"deepen-relative", *LIMITS, b"want"),
    b"have": (b"want", b"have"), b"done": (b"want", b"have"),
}
# Behind which of them a request may end.
ENDS = b"want", b"have", b"done"


def _fetch(lines, count):
    """The lines of each kind stand together, in their order, and one want has to stand."""
    word = lines.text_or()
    if word not in PACKS:
        raise lines.broken()
    asked, last = FetchRequest(PACKS[word]), b""
    while (line := lines.text_or(Mark.FLUSH)) is not Mark.FLUSH:
        word, _, value = (line, b"", line[7:]) if line == NONE else line.partition(b" ")
        if last not in BEHIND.get(word, ()) or not _take(asked, word, line, value, count):
            raise lines.broken()
        last = word
    if last not in ENDS:
        raise lines.broken()
    return asked


def _take(asked, word, line, value, count):
    """Takes what a line says. Whether it may say so."""
    if word in (b"include-tag", b"done"):
        asked.include_tag, asked.done = asked.include_tag or word == b"include-tag", word == b"done"
        return line == word
    if word.startswith(b"deepen"):
        return _take_depth(asked, word, line, value)
    if not re.fullmatch(rb"[0-9a-fA-F]{%d}" % count, value):
        return False
    digits = value.decode().lower()
    ids = {b"shallow": asked.border, b"want": asked.wants, b"have": asked.haves}[word]
    if word == b"shallow" and ids and digits <= ids[-1] or digits in ids:
        return False
    ids.append(digits)
    return True


def _take_depth(asked, word, line, value):
    """Takes what a line of a depth says. Whether it may say so."""
    depth = asked.depth = asked.depth or Depth()
    if word == b"deepen-relative":
        depth.relative = True
        return line == word
    if word == b"deepen-not":
        depth.excluded.append(decoded_text(value))
        return is_name(value)
    if not re.fullmatch(rb"0|[1-9][0-9]*", value):
        return False
    if word == b"deepen-since":
        depth.since = int(value)
        return depth.since < 1 << 64
    depth.deepen = int(value)
    return depth.deepen < 1 << 32
