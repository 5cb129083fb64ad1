"""References as Git's files have them: loose, packed, and `HEAD`; and what of them can't be read."""

import os
import re
import stat
from collections.abc import Iterator
from dataclasses import dataclass, field

from bagjulen_tools.formats.grammar import DIGITS, is_full_name
from bagjulen_tools.protocol.lines import decoded_text, encoded_text

LOCK = ".lock"
# What Git takes for blanks.
BLANKS = b" \t\n\r"
# Below these each work tree has references of its own.
OWN_OF_WORK_TREES = ("refs/bisect", "refs/rewritten", "refs/worktree")


@dataclass
class ReferenceFiles:
    """References, each an id in hex or `@` and a name, and by name why others can't be read."""

    references: dict[str, str] = field(default_factory=dict)
    unread: dict[str, str] = field(default_factory=dict)

    def put(self, name: str, target: str) -> None:
        """A reference with what stands behind it, which may be no name."""
        self.references.pop(name, None)
        self.unread.pop(name, None)
        trouble = _trouble_with(name, target)
        if trouble is None:
            self.references[name] = target
        else:
            self.unread[name] = trouble


def read_references(git_dir: str, common_dir: str, hash_name: str) -> ReferenceFiles:
    """What stands in the files of a repository, or of one of its work trees. Loose ones count before packed
    ones.
    """
    found = ReferenceFiles()
    for name, target in _packed(os.path.join(common_dir, "packed-refs"), DIGITS[hash_name]):
        found.put(name, target)
    places = [("refs", common_dir)]
    if os.path.realpath(git_dir) != os.path.realpath(common_dir):
        places += [(front, git_dir) for front in OWN_OF_WORK_TREES]
    for front, folder in places:
        skipped = OWN_OF_WORK_TREES if folder is common_dir and len(places) > 1 else ()
        for name in _loose_names(folder, front, skipped):
            found.put(name, _target(os.path.join(folder, name), DIGITS[hash_name]))
    found.put("HEAD", _target(os.path.join(git_dir, "HEAD"), DIGITS[hash_name]))
    return found


def _packed(path: str, count: int) -> Iterator[tuple[str, str]]:
    """Names and targets of packed references. Of a line that can't be read what stands at the place of the
    name.
    """
    try:
        with open(path, "rb") as file:
            lines = file.read().split(b"\n")
    except FileNotFoundError:
        return
    last = lines.pop()
    for line in [*lines, *([last] if last else [])]:
        match = re.fullmatch(rb"([0-9a-fA-F]{%d})[ \t\r](.*)" % count, line, re.DOTALL)
        if match is not None and line is not last:
            yield decoded_text(match[2]), decoded_text(match[1]).lower()
        elif line[:1] not in (b"#", b"^"):
            yield decoded_text(line.partition(b" ")[2] or line), ""


def _loose_names(folder: str, front: str, skipped: tuple[str, ...]) -> Iterator[str]:
    """The names of the files below a folder, but those that Git passes over: locks, and what begins with a
    dot.
    """
    try:
        entries = sorted(os.listdir(os.path.join(folder, front)))
    except FileNotFoundError:
        return
    for entry in entries:
        name = f"{front}/{entry}"
        if entry.startswith(".") or entry.endswith(LOCK) or name in skipped:
            continue
        if os.path.isdir(os.path.join(folder, name)):
            yield from _loose_names(folder, name, skipped)
        else:
            yield name


def _target(path: str, count: int) -> str:
    """What a file says: an id, or `@` and what it stands for; an empty text where it says neither.

    A link to a name of a reference, as old versions of Git made them, stands for that.
    """
    try:
        if stat.S_ISLNK(os.lstat(path).st_mode):
            linked = os.readlink(path)
            if linked.startswith("refs/") and is_full_name(encoded_text(linked)):
                return f"@{linked}"
        with open(path, "rb") as file:
            data = file.read().rstrip(BLANKS)
    except OSError:
        return ""
    if data.startswith(b"ref:"):
        return f"@{decoded_text(data[4:].lstrip(BLANKS))}"
    match = re.match(rb"([0-9a-fA-F]{%d})(?:[ \t\n\r]|\Z)" % count, data)
    return "" if match is None else decoded_text(match[1]).lower()


def _trouble_with(name: str, target: str) -> str | None:
    """Why a reference can't be taken, or None."""
    if not is_full_name(encoded_text(name)):
        return "its name is none that Git takes"
    if target.startswith("@"):
        end = target[1:]
        if end == "HEAD" or end.startswith("refs/") and is_full_name(encoded_text(end)):
            return None
        return f"it stands for '{end}', which is neither HEAD nor a name below refs/"
    return None if target.strip("0") else "its file has no id"
