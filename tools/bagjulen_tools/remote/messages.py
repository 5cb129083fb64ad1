"""The lines of `git fetch` on standard error, and the lines of FETCH_HEAD."""

import os
import re
import shutil
import sys
from collections.abc import Iterable, Mapping
from dataclasses import dataclass

from bagjulen_tools.protocol.address import anonymous
from bagjulen_tools.protocol.lines import decoded_text

MERGE, NOT_FOR_MERGE, IGNORED = range(3)
ABBREVIATED = 7
KINDS = {"refs/heads/": "branch", "refs/tags/": "tag", "refs/remotes/": "remote-tracking branch"}
NEW = {"refs/tags/": "[new tag]", "refs/heads/": "[new branch]"}
WHY = {"rejected (would overwrite existing tag)": "would clobber existing tag"}
NO_TAG = "unrelated tag on remote"


@dataclass(frozen=True)
class RefUpdate:
    """A mapping that is told: its names, the ids before and after, what became of it, and whether it is for a merge."""

    source: str
    destination: str | None
    old: str | None
    new: str
    mode: str
    is_for: int
    trouble: str | None = None

    def is_rejected(self) -> bool:
        """Whether it wasn't done: as a rule forbids it, or as the reference couldn't be written, which `trouble` says."""
        return self.trouble is not None or self.mode.startswith("rejected")


def front_of(name, fronts):
    return next((front for front in fronts if name.startswith(front)), None)


def shown(name):
    """A name of a reference as Git shows it."""
    front = front_of(name, KINDS)
    return name[len(front):] if front else name


def trimmed(address: str) -> str:
    """An address as Git shows it: without slashes at the end, and without `.git`."""
    address = anonymous(address).rstrip("/")
    return address[:-4] if len(address) > 5 and address.endswith(".git") else address


def fetch_head_line(told, address):
    """The line of FETCH_HEAD for a mapping."""
    front = front_of(told.source, KINDS)
    name = "" if told.source == "HEAD" else f"{KINDS[front]} '{shown(told.source)}' of " if front else f"'{told.source}' of "
    return f"{told.new}\t{'' if told.is_for == MERGE else 'not-for-merge'}\t{name}{trimmed(address)}\n"


def pruned_lines(pruned: Mapping[str, str], references: Mapping[str, str], abbreviated: Mapping[str, str],
                 is_dry: bool) -> list[str]:
    """The lines about references that were pruned, of which the ids are told, and symbolic ones that led to them."""
    summary = _summary(pruned.values(), abbreviated)
    verb = "will become" if is_dry else "has become"
    found = []
    for name in pruned:
        found.append(f" - {'[deleted]':{summary}} {'(none)':10} -> {shown(name)}")
        found += [f"   ({each} {verb} dangling)" for each, value in sorted(references.items())
                  if value == f"@{name}" and each != "HEAD"]
    return found


def _summary(ids: Iterable[str], abbreviated: Mapping[str, str]) -> int:
    """The width of the column of ids."""
    return 2 * max([ABBREVIATED, *(len(abbreviated.get(digits, "")) for digits in ids)]) + 3


def lines(told, address, abbreviated, is_verbose, tells_head, pruned=()):
    """The lines about these mappings behind those about what was pruned, `From` first where there is any.

    `tells_head` says whether FETCH_HEAD is told of. Why one couldn't be written stands before its line.
    """
    told = sorted(told, key=lambda each: each.is_for)
    columns = shutil.get_terminal_size().columns
    width = max([10, *(len(shown(each.source)) for each in told if _counts(each, is_verbose, columns))])
    ids = [digits for each in told for digits in (each.old, each.new) if digits]
    summary = _summary(ids, abbreviated)
    front = f"From {trimmed(address)}"
    found = [front, *pruned] if pruned else []
    for each in told:
        if is_verbose or each.mode != "up-to-date" if each.destination else tells_head and each.is_for != IGNORED:
            found += [] if each.trouble is None else [each.trouble]
            found += [] if front in found else [front]
            found.append(_line(each, abbreviated, width, summary))
    return found


def _counts(told, is_verbose, columns):
    """Whether a mapping's source counts for the width of the column."""
    if told.destination is None or told.source == "HEAD" or not is_verbose and told.old == told.new:
        return False
    return 25 + len(shown(told.source)) + len(shown(told.destination)) < columns


def _line(told, abbreviated, width, summary):
    flag, text, why = _told(told, abbreviated)
    if told.trouble is not None:
        flag, why = "!", "unable to update local ref"
    source = shown(told.source)
    to = "FETCH_HEAD" if told.destination is None else shown(told.destination)
    return f" {flag} {text:{summary}} {source:{width}} -> {to}" + (f"  ({why})" if why else "")


def _told(told, abbreviated):
    """The flag of a line, its summary, and its reason."""
    if told.destination is None:
        return "*", KINDS.get(front_of(told.source, KINDS), "branch"), None
    old, new = (abbreviated.get(digits, (digits or "")[:ABBREVIATED]) for digits in (told.old, told.new))
    if told.mode.startswith("rejected"):
        return "!", "[rejected]", WHY.get(told.mode, told.mode.removeprefix("rejected (").removesuffix(")"))
    if told.mode == "up-to-date":
        return "=", "[up to date]", None
    if told.mode == "fast-forward":
        return " ", f"{old}..{new}", None
    if told.mode == "forced-update" and told.destination.startswith("refs/tags/"):
        return "t", "[tag update]", None
    if told.mode == "forced-update":
        return "+", f"{old}...{new}", "forced update"
    return "*", NEW.get(front_of(told.source, NEW), "[new ref]"), None


class Progress:
    """What the server says beside its replies, each line behind `remote: `, with what wipes out the one before."""

    def __init__(self) -> None:
        self._rest = b""
        is_terminal = sys.stderr.isatty() and os.environ.get("TERM", "dumb") != "dumb"
        self._wipe = "\033[K" if is_terminal else " " * 8

    def __call__(self, text: bytes) -> None:
        self._rest += text
        *whole, self._rest = re.split(rb"(?<=[\r\n])", self._rest)
        for line in whole:
            self._tell(line[:-1], decoded_text(line[-1:]))

    def end(self) -> None:
        """Tells what came without the end of a line."""
        if self._rest:
            self._tell(self._rest, "\n")
            self._rest = b""

    def _tell(self, line: bytes, end: str) -> None:
        sys.stderr.write(f"remote: {decoded_text(line)}{self._wipe if line else ''}{end}")
        sys.stderr.flush()
