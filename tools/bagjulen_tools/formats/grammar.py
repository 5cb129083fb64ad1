"""The grammar of objects and of names: what an object links to, and which texts are full names."""

import re
from dataclasses import dataclass, field

DIGITS = {"sha1": 40, "sha256": 64}
SECONDS = 1 << 63
SUBMODULE = b"160000"
CAPITALS = re.compile(rb"[A-Z_]+")
COMPONENT = re.compile(rb"(?!\.)[^\x00-\x20\x7f~^:?*\[\\]+")


class MalformedObject(Exception):
    """An object whose bytes break the grammar of its kind."""


@dataclass
class Links:
    """The ids that an object names: a commit's parents, and all others; and the time of a commit."""

    parents: list[str] = field(default_factory=list)
    others: list[str] = field(default_factory=list)
    seconds: int | None = None


def links_in(each, hash_name):
    """What an object links to."""
    return READERS[each.kind](each.data, DIGITS[hash_name])


def _in_commit(data, count):
    digits = rb"[0-9a-fA-F]{%d}" % count
    form = rb"tree (%b)\n((?:parent %b\n)*)author [^\n]*\ncommitter [^\n]* ([0-9]{1,19}) [+-][0-9]+\n" % (digits, digits)
    match = re.match(form, data)
    if match is None or int(match[3]) >= SECONDS:
        raise MalformedObject
    parents = [line.removeprefix(b"parent ") for line in match[2].splitlines()]
    return Links([_id(parent) for parent in parents], [_id(match[1])], int(match[3]))


def _in_tree(data, count):
    entry = re.compile(rb"([0-7]{1,6}) [^\0]+\0(.{%d})" % (count // 2), re.DOTALL)
    found, place = [], 0
    while place < len(data):
        match = entry.match(data, place)
        if match is None:
            raise MalformedObject
        found += [match[2].hex()] if match[1] != SUBMODULE else []
        place = match.end()
    return Links(others=found)


def _in_tag(data, count):
    match = re.match(rb"object ([0-9a-fA-F]{%d})\ntype (?:commit|tree|blob|tag)\n" % count, data)
    if match is None:
        raise MalformedObject
    return Links(others=[_id(match[1])])


def _id(digits):
    return digits.decode("ascii").lower()


READERS = {"commit": _in_commit, "tree": _in_tree, "blob": lambda data, count: Links(), "tag": _in_tag}


def is_full_name(name):
    """Whether bytes are a full name: one that begins with `refs/`, or one of capitals."""
    return is_name(name) and (name.startswith(b"refs/") or CAPITALS.fullmatch(name) is not None)


def is_name(name):
    """Whether bytes are a name, whole or short."""
    return all(map(_is_component, name.split(b"/"))) and not name.endswith(b".") and name != b"@"


def _is_component(part):
    return (COMPONENT.fullmatch(part) is not None and b".." not in part and b"@{" not in part
            and not part.endswith(b".lock"))
