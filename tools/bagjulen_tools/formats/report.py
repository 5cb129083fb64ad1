"""A report: what the engine writes about the fetch of a scene."""

import re
from dataclasses import dataclass, field

from bagjulen_tools.protocol.lines import Line, Mark, decoded_text
from bagjulen_tools.trouble import BAD_INPUT, Trouble

MAPPING = re.compile(r"(\d+) (.+?) -> (\(none\)|\S+): (.*?)( \[symbolic-to-direct\])?")
ESCAPE = re.compile(rb'\\(n|"|\\|x[0-9a-f]{2})')
PLAIN = {b"n": b"\n", b'"': b'"', b"\\": b"\\"}


@dataclass(frozen=True)
class Mapping:
    """What became of a mapping."""

    index: int
    source: str
    destination: str | None
    mode: str
    becomes_direct: bool


@dataclass(frozen=True)
class LogLine:
    """A line of a reference's log."""

    name: str
    old: str
    new: str
    message: str


@dataclass
class Report:
    """What a report says."""

    sent: list[Line] = field(default_factory=list)
    mappings: list[Mapping] = field(default_factory=list)
    references: dict[str, str] = field(default_factory=dict)
    logs: list[LogLine] = field(default_factory=list)
    border: list[str] = field(default_factory=list)
    ids: list[str] = field(default_factory=list)
    refused: str | None = None

    def requests(self) -> list[list[Line]]:
        """The requests after the first line, each a list of lines that ends before its flush."""
        found: list[list[Line]] = []
        request: list[Line] = []
        for line in self.sent[1:]:
            if line is Mark.FLUSH:
                found.append(request)
                request = []
            else:
                request.append(line)
        return found


def read_report(data: bytes) -> Report:
    """The report that the bytes are. A refused one is read to its first `refused` line, which others follow."""
    report, ended = Report(), False
    for line in decoded_text(data).removesuffix("\n").split("\n"):
        word, _, value = line.partition(" ")
        if word == "refused" and not ended:
            report.refused = value
            return report
        if ended or word not in READERS:
            raise _no_report(line)
        ended = word == "ok"
        try:
            READERS[word](report, value)
        except ValueError:
            raise _no_report(line) from None
    if not ended:
        raise Trouble(BAD_INPUT, "no whole report: neither `ok` nor a refusal stands in it")
    return report


def _no_report(line: str) -> Trouble:
    return Trouble(BAD_INPUT, f"no report: {line[:100]!r}")


def _read_sent(report, value):
    marks = {mark.value.decode(): mark for mark in Mark}
    report.sent.append(marks[value] if value in marks else _payload(value))


def _payload(value):
    if len(value) < 2 or value[0] + value[-1] != '""':
        raise ValueError(value)
    return ESCAPE.sub(_plain, value[1:-1].encode())


def _plain(escape):
    text = escape[1]
    return PLAIN[text] if text in PLAIN else bytes.fromhex(text[1:].decode())


def _read_mapping(report, value):
    match = MAPPING.fullmatch(value)
    if match is None:
        raise ValueError(value)
    index, source, destination, mode, direct = match.groups()
    destination = None if destination == "(none)" else destination
    report.mappings.append(Mapping(int(index), source, destination, mode, direct is not None))


def _read_reference(report, value):
    target, name = value.split(" ", 1)
    report.references[name] = target


def _read_log(report, value):
    name, old, new, message = value.split(" ", 3)
    report.logs.append(LogLine(name, old, new, message))


READERS = {
    ">": _read_sent,
    "map": _read_mapping,
    "ref": _read_reference,
    "log": _read_log,
    "border": lambda report, value: report.border.append(value),
    "id": lambda report, value: report.ids.append(value),
    "keep": lambda report, value: None,
    "ok": lambda report, value: None,
}
