"""A bundle: one text for one whole repository. docs/FORMATS.md has its form."""

import re
from collections.abc import Iterable
from dataclasses import dataclass, field

from bagjulen_tools.formats.ancestry import reached
from bagjulen_tools.formats.grammar import DIGITS, Links, MalformedObject, is_full_name, links_in
from bagjulen_tools.formats.plainpack import MalformedPack, Object, read_records, write_pack
from bagjulen_tools.protocol.lines import (
    MAX_PAYLOAD,
    MalformedLine,
    Mark,
    decoded_text,
    encoded,
    encoded_text,
    line_at,
    pieces,
    text_line,
)
from bagjulen_tools.trouble import BAD_INPUT, Trouble

PIECE = 65_000
PACK_VERSION = 2
# How many names a symbolic reference may lead along, itself among them.
NAMES = 5
REFERENCE = re.compile(rb"ref ([^ ]*) (.*)\n", re.DOTALL)
BORDER = re.compile(rb"border (.*)\n", re.DOTALL)


@dataclass
class Bundle:
    """What a bundle says. A reference is an id in hex, or `@` and a name. The border and the objects ascend."""

    hash_name: str
    references: dict[str, str] = field(default_factory=dict)
    border: list[str] = field(default_factory=list)
    objects: list[Object] = field(default_factory=list)

    def to_bytes(self):
        """The text."""
        names = sorted(self.references, key=encoded_text)
        texts = ["bundle 1", f"hash {self.hash_name}", *(_reference_text(self, name) for name in names),
                 *(f"border {digits}" for digits in self.border)]
        pack = pieces(write_pack(self.objects, PACK_VERSION, self.hash_name), PIECE)
        return b"".join(map(encoded, [*map(text_line, texts), Mark.DELIMITER, *pack, Mark.FLUSH]))


def _reference_text(bundle: Bundle, name: str) -> str:
    """The line that tells a reference."""
    return f"ref {bundle.references[name]} {name}"


class NotWhole(Exception):
    """A pack whose objects are no whole repository. Its argument is the place of the pack's first line."""


class OtherId(Exception):
    """A pack before one of whose objects an id stands that isn't its own. Its argument is that id."""


REASONS = {
    "MalformedLine": "malformed at {}",
    "NotWhole": "malformed at {}: its pack holds no whole repository",
    "OtherDigest": "the digest of its pack isn't that of its bytes",
    "MalformedPack": "its pack is malformed at {}",
    "OtherId": "an object of its pack has another id than {}, which is written",
}


def read_bundle(data):
    """The bundle that the bytes are."""
    bundle, *why = judged(data)
    if bundle is None:
        raise Trouble(BAD_INPUT, f"no bundle: {REASONS[why[0]].format(why[1])}")
    return bundle


def judged(data):
    """The bundle that the bytes are and two times None; or None, the name of why they are none, and its
    detail.
    """
    try:
        return _bundle(data), None, None
    except MalformedLine as error:
        return None, type(error).__name__, error.place
    except (NotWhole, MalformedPack, OtherId) as error:
        return None, type(error).__name__, error.args[0]


def _bundle(data):
    hash_name, place = _hash(data)
    count = DIGITS[hash_name]
    references, place = _told(data, place, lambda payload: _reference(payload, count))
    border, place = _told(data, place, lambda payload: _border(payload, count))
    pack_place = _behind(data, place, Mark.DELIMITER.value)
    pack, place = _joined(data, pack_place)
    place = _behind(data, place, Mark.FLUSH.value)
    if place < len(data):
        raise MalformedLine(place)
    references = {decoded_text(name): decoded_text(target) for name, target in references}
    objects, links = _opened(pack, hash_name)
    bundle = Bundle(hash_name, references, [decoded_text(digits) for (digits,) in border], objects)
    if not _is_whole(bundle, links):
        raise NotWhole(pack_place)
    return bundle


def _behind(data, place, text):
    """The place behind a text, which has to stand at a place."""
    if not data.startswith(text, place):
        raise MalformedLine(place)
    return place + len(text)


def _hash(data):
    """The hash that the first two lines tell, and the place behind them."""
    place = _behind(data, 0, encoded(b"bundle 1\n"))
    for hash_name in DIGITS:
        line = encoded(text_line(f"hash {hash_name}"))
        if data.startswith(line, place):
            return hash_name, place + len(line)
    raise MalformedLine(place)


def _payload_at(data, place):
    """The payload of the line at a place, and the place behind it. None where no line with a payload stands
    there.
    """
    digits = data[place : place + 4]
    try:
        line, end = line_at(data, place)
    except MalformedLine:
        return None, place
    return (None, place) if isinstance(line, Mark) or digits != digits.lower() else (line, end)


def _told(data, place, read):
    """What the lines from a place on tell, each above the one before, and the place behind them."""
    found = []
    while True:
        payload, end = _payload_at(data, place)
        entry = None if payload is None else read(payload)
        if entry is None or found and entry[0] <= found[-1][0]:
            return found, place
        found.append(entry)
        place = end


def _reference(payload, count):
    """The name and the target that a payload tells, or None."""
    match = REFERENCE.fullmatch(payload)
    if match is None or not is_full_name(match[2]):
        return None
    is_target = is_full_name(match[1][1:]) if match[1][:1] == b"@" else _is_id(match[1], count)
    return (match[2], match[1]) if is_target else None


def _border(payload, count):
    """The id that a payload tells, or None."""
    match = BORDER.fullmatch(payload)
    return (match[1],) if match is not None and _is_id(match[1], count) else None


def _is_id(digits, count):
    return re.fullmatch(rb"[0-9a-f]{%d}" % count, digits) is not None


def _joined(data, place):
    """What the pieces from a place on have, of which the last alone may be shorter, and the place behind
    them.
    """
    found, is_last = [], False
    while not is_last:
        payload, end = _payload_at(data, place)
        if payload is None or not 0 < len(payload) <= PIECE:
            break
        found.append(payload)
        place, is_last = end, len(payload) < PIECE
    return b"".join(found), place


def _opened(pack, hash_name):
    """The objects of a pack of version 2, and what each links to."""
    if pack.startswith(b"PLNP\0\0\0\1"):
        raise MalformedPack(4)
    records, links = read_records(pack, hash_name), []
    for each in records:
        try:
            links.append(links_in(each.object, hash_name))
        except MalformedObject:
            raise MalformedPack(each.place) from None
    for each in records:
        if each.written != each.object.id:
            raise OtherId(each.written)
    return [each.object for each in records], links


def _is_whole(bundle, links):
    """Whether ids ascend, nothing is missing, no reference is broken, and the direct ones reach all objects."""
    ids, kinds = [each.id for each in bundle.objects], {each.id: each.kind for each in bundle.objects}
    if any(one >= other for one, other in zip(ids, ids[1:])):
        return False
    if any(kinds.get(digits) != "commit" for digits in bundle.border):
        return False
    within = _links_within(bundle, links)
    if not all(digits in kinds for named in within.values() for digits in named):
        return False
    ends = [followed(bundle.references, name) for name in bundle.references]
    if not all(end is None or end in kinds for end in ends):
        return False
    return reached(within, direct_ids(bundle.references)) == kinds.keys()


def bundle_of(hash_name: str, references: dict[str, str], border: list[str],
              objects: Iterable[Object]) -> Bundle:
    """The bundle of a repository with these objects. What its direct references don't reach is passed over.

    It is refused where what they reach isn't there, one leads to no object, or a bundle has no room for its
    name.
    """
    stored, cut, rest = {each.id: each for each in objects}, set(border), direct_ids(references)
    links: dict[str, Links] = {}
    while rest:
        digits = rest.pop()
        if digits in stored and digits not in links:
            links[digits] = links_within_grammar(stored[digits], hash_name)
            rest += links[digits].others + ([] if digits in cut else links[digits].parents)
    kept = sorted(links)
    bundle = Bundle(hash_name, references, sorted(cut & links.keys()), [stored[each] for each in kept])
    for name in references:
        is_too_long = len(text_line(_reference_text(bundle, name))) > MAX_PAYLOAD
        if is_too_long or not is_full_name(encoded_text(name)):
            why = "its name is too long" if is_too_long else "its name is none that Git takes"
            raise Trouble(BAD_INPUT, f"the reference {name[:100]} has no place in a bundle: {why}")
    if not _is_whole(bundle, [links[digits] for digits in kept]):
        raise Trouble(BAD_INPUT, "a reference leads to no object, or to one from which something is missing")
    return bundle


def links_within_grammar(each: Object, hash_name: str) -> Links:
    """What an object links to. One that breaks the grammar of its kind is refused by its id."""
    try:
        return links_in(each, hash_name)
    except MalformedObject:
        raise Trouble(BAD_INPUT, f"the {each.kind} {each.id} breaks the grammar of its kind") from None


def checked_text(bundle: Bundle) -> bytes:
    """The text of a bundle, when that was read back."""
    text = bundle.to_bytes()
    if read_bundle(text) != bundle:
        raise Trouble(BAD_INPUT, "the text of the bundle is read back as another one")
    return text


def _links_within(bundle, links):
    """What each object links to, parents of border commits aside."""
    border = set(bundle.border)
    return {each.id: found.others + ([] if each.id in border else found.parents)
            for each, found in zip(bundle.objects, links)}


def direct_ids(references: dict[str, str]) -> list[str]:
    """The ids of the direct references."""
    return [target for target in references.values() if target[0] != "@"]


def followed(references, name):
    """The id that a reference leads to by names; None where it leads to an absent one, and a name where
    there are too many.
    """
    for _ in range(NAMES):
        target = references.get(name)
        if target is None or target[0] != "@":
            return target
        name = target[1:]
    return f"@{name}"
