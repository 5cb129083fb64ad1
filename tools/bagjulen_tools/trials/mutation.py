"""Scenes that are changed at random: their bytes, lines, lengths, counts and order; and races that are made of such scenes.

A change is made anywhere in a scene, in one of its ids, in what its server says, in the server's pack, or in the pack of
the repository. What is around the place is written anew, so that the program reads up to the change.
"""

import hashlib
import re
from dataclasses import dataclass
from random import Random

from bagjulen_tools.protocol.lines import MAX_PAYLOAD, Mark, encoded, pieces

JOBS = (0, 1, 1, 2, 2, 2, 2, 3, 3, 4, 5, 8, 9)
HOW_MANY = (1, 1, 1, 1, 1, 1, 2, 2, 3, 6)
BYTES = (0, 1, 4, 9, 10, 13, 32, 47, 48, 58, 64, 94, 127, 128, 255)
DIGITS = (b"0000", b"0001", b"0002", b"0003", b"0004", b"0005", b"fff0", b"fff1", b"ffff", b"000G", b"FFF0", b"    ")
NUMBERS = (0, 1, 2, 3, 15, 16, 255, 2**31 - 1, 2**31, 2**32 - 1, 2**32, 2**63 - 1, 2**63, 2**64 - 1, 2**64, 10**30)
FIELDS = (0, 1, 2, 3, 255, 2**16, 2**31 - 1, 2**31, 2**32 - 1)
NUMBER = re.compile(rb"(?<![0-9a-f])\d{1,20}(?![0-9a-f])")
ID = re.compile(rb"(?<![0-9a-f])(?:[0-9a-f]{40}|[0-9a-f]{64})(?![0-9a-f])")
DIVIDERS = (Mark.DELIMITER.value, Mark.FLUSH.value)


class Mutator:
    """Makes scenes of these ones. The scene of a seed and a number is always the same."""

    def __init__(self, scenes):
        self.scenes = scenes

    def scene(self, seed, number):
        random = Random(f"{seed} {number}")
        scene = random.choice(self.scenes)
        for _ in range(random.choice(HOW_MANY)):
            scene = self._changed(random, scene)
        return scene

    def race(self, seed, number):
        """A race in the repository of a scene, whose jobs are those of this scene and of others, some of them changed."""
        random = Random(f"race {seed} {number}")
        first = random.choice(self.scenes)
        scenes = [first if random.random() < 0.6 else random.choice(self.scenes) for _ in range(random.choice(JOBS))]
        race = raced([first, *(self._changed(random, each) if random.random() < 0.4 else each for each in scenes)])
        for _ in range(random.choice((0, 0, 0, 1, 1, 2))):
            race = random.choice((in_bytes, in_lines, in_lines, _id))(random, race, random.choice(self.scenes))
        return race

    def _changed(self, random, scene):
        return random.choice(PLACES)(random, scene, random.choice(self.scenes))


def raced(scenes):
    """The scene of a race in the first one's repository, whose jobs are those of the others."""
    first, jobs = split_lines(scenes[0]), [_job_of(scene) for scene in scenes[1:]]
    return b"".join((*first[: _part(first, 2) or len(first)][:-1], *(line for job in jobs for line in job), Mark.FLUSH.value))


def _job_of(scene):
    """The lines of a scene that make its job, from the delimiter before the remote on."""
    lines = split_lines(scene)
    begin = _part(lines, 2)
    return [] if begin is None else lines[begin - 1 : -1]


# ---- changes of bytes


def in_bytes(random, data, other):
    """The bytes with one change."""
    return random.choice(BYTE_CHANGES)(random, data, other)


def _span(random, data):
    """A beginning and an end in the bytes, mostly near to each other."""
    begin = random.randint(0, len(data))
    return begin, min(len(data), begin + random.choice((1, 1, 1, 2, 4, 20, 100, 1000)))


def _set(random, data, _):
    begin, end = _span(random, data)
    return data[:begin] + bytes([random.choice(BYTES)]) * (end - begin) + data[end:]


def _flip(random, data, _):
    begin = random.randrange(len(data)) if data else 0
    return data[:begin] + bytes(each ^ 1 << random.randrange(8) for each in data[begin : begin + 1]) + data[begin + 1 :]


def _put(random, data, _):
    begin, _ = _span(random, data)
    return data[:begin] + bytes([random.choice(BYTES)]) * random.choice((1, 1, 2, 4, 70, 3000)) + data[begin:]


def _drop(random, data, _):
    begin, end = _span(random, data)
    return data[:begin] + data[end:]


def _double(random, data, _):
    begin, end = _span(random, data)
    return data[:end] + data[begin:end] * random.choice((1, 1, 2, 50)) + data[end:]


def _cut(random, data, _):
    return data[: random.randint(0, len(data))]


def _splice(random, data, other):
    """The bytes up to a place, and those of another scene from a place on."""
    return data[: random.randint(0, len(data))] + other[random.randint(0, len(other)) :]


def _number(random, data, _):
    """One decimal number is another."""
    found = list(NUMBER.finditer(data))
    if not found:
        return data
    each = random.choice(found)
    value = random.choice((*NUMBERS, int(each[0]) + 1, max(0, int(each[0]) - 1)))
    digits = b"%d" % value if random.random() < 0.9 else b"0%d" % value
    return data[: each.start()] + digits + data[each.end() :]


def _id(random, data, _):
    """One id is another, mostly one that stands elsewhere."""
    found = list(ID.finditer(data))
    if not found:
        return data
    each = random.choice(found)
    wanted = random.choice((random.choice(found)[0], random.choice(found)[0], b"0" * len(each[0]), b"f" * len(each[0])))
    return data[: each.start()] + wanted + data[each.end() :]


BYTE_CHANGES = (_set, _flip, _put, _drop, _double, _cut, _splice, _number, _number, _id, _id, _id)


# ---- changes of lines


def split_lines(data):
    """The lines as they are written, and at the end what is no line."""
    found, place = [], 0
    while place < len(data):
        end = place + _length(data[place : place + 4], len(data))
        found.append(data[place:end])
        place = end
    return found


def _length(digits, otherwise):
    """The length that digits tell, and another one where they tell none."""
    try:
        length = int(digits, 16)
    except ValueError:
        return otherwise
    return 4 if 0 <= length < 2 else length if length >= 4 else otherwise


def in_lines(random, data, other):
    """The lines with one change: of one of them, of a length, or of their order."""
    lines = split_lines(data)
    if not lines:
        return in_bytes(random, data, other)
    return b"".join(random.choice(LINE_CHANGES)(random, lines, other))


def _change_line(random, lines, other):
    """One payload is another, with the right length."""
    at = random.randrange(len(lines))
    if lines[at] in DIVIDERS:
        return _set_digits(random, lines, other)
    payload = in_bytes(random, lines[at][4:], b"")[:MAX_PAYLOAD]
    return [*lines[:at], encoded(payload), *lines[at + 1 :]]


def _set_digits(random, lines, _):
    """One line tells another length."""
    at = random.randrange(len(lines))
    near = b"%04x" % max(0, len(lines[at]) + random.choice((-1, 1)))
    return [*lines[:at], random.choice((*DIGITS, near, near)) + lines[at][4:], *lines[at + 1 :]]


def _drop_lines(random, lines, _):
    begin, end = _span(random, lines)
    return lines[:begin] + lines[end:]


def _double_lines(random, lines, _):
    begin, end = _span(random, lines)
    return lines[:end] + lines[begin:end] * random.choice((1, 1, 1, 2, 40)) + lines[end:]


def _move_lines(random, lines, _):
    begin, end = _span(random, lines)
    rest = lines[:begin] + lines[end:]
    at = random.randint(0, len(rest))
    return rest[:at] + lines[begin:end] + rest[at:]


def _turn_lines(random, lines, _):
    begin, end = _span(random, lines)
    return lines[:begin] + lines[begin:end][::-1] + lines[end:]


def _take_line(random, lines, other):
    """A line of another scene stands among these, beside one of them or in its place."""
    at = random.randrange(len(lines))
    taken = random.choice(split_lines(other) or lines)
    return [*lines[:at], taken, *lines[at + random.randrange(2) :]]


LINE_CHANGES = (_change_line, _change_line, _change_line, _set_digits, _drop_lines, _double_lines, _move_lines,
                _turn_lines, _take_line, _take_line)


# ---- changes in what the server says


def in_server(random, scene, other):
    """One change in what the server says. Its bytes are cut into pieces anew."""
    front, said = _server_of(scene)
    if said is None:
        return in_lines(random, scene, other)
    told = _server_of(other)[1] or b""
    return _with_server(random, front, random.choice((in_bytes, in_lines, in_lines, in_lines))(random, said, told))


def _server_of(scene):
    """The lines of a scene in front of what its server says, and what it says, or None where it has no such part."""
    lines = split_lines(scene)
    begin = _part(lines, 3)
    if begin is None or lines[-1] != Mark.FLUSH.value:
        return lines, None
    return lines[:begin], b"".join(line[4:] for line in lines[begin:-1])


def _with_server(random, lines, said):
    """The scene with these lines in front of what the server says."""
    size = random.choice((MAX_PAYLOAD, MAX_PAYLOAD, MAX_PAYLOAD, 1 if len(said) < 1000 else 100, 7, 64, 1000))
    return b"".join((*lines, *map(encoded, pieces(said, size)), Mark.FLUSH.value))


def _part(lines, number):
    """The place among the lines of a scene where one of its parts begins."""
    places = [at for at, line in enumerate(lines) if line == Mark.DELIMITER.value]
    return places[number - 1] + 1 if len(places) >= number else None


# ---- changes of packs


@dataclass
class Record:
    """An object in a pack: its kind, how many bytes it says that it has, its id in version 2, and its bytes."""

    kind: bytes
    length: int
    id: bytes
    data: bytes

    def text(self, wide):
        """What stands in the pack, with this many bytes for the number."""
        return self.kind + (self.length % 2 ** (8 * wide)).to_bytes(wide, "big") + self.id + self.data


def _records(pack, wide, id_size):
    """The records of a pack, as far as they can be read."""
    found, place = [], 12
    while place < len(pack):
        begin = place + 1 + wide + id_size
        length = int.from_bytes(pack[place + 1 : place + 1 + wide], "big")
        data = pack[begin : begin + length]
        found.append(Record(pack[place : place + 1], length, pack[begin - id_size : begin], data))
        place = begin + length
    return found


def in_pack(random, pack, hash_name):
    """The pack with one change, and mostly with its digest written anew."""
    digest_size = hashlib.new(hash_name).digest_size
    text, is_second = pack[: max(0, len(pack) - digest_size)], pack[7:8] == b"\2"
    wide = 8 if is_second else 4
    records, count = _records(text, wide, digest_size if is_second else 0), pack[8:12]
    if random.random() < 0.2:
        count = random.choice((*FIELDS, len(records) + 1, max(0, len(records) - 1))).to_bytes(4, "big")
    elif random.random() < 0.2:
        text = in_bytes(random, text, b"")
        return text + (hashlib.new(hash_name, text).digest() if random.random() < 0.9 else pack[-digest_size:])
    elif records:
        before = len(records)
        records = random.choice(RECORD_CHANGES)(random, records, None)
        count = len(records).to_bytes(4, "big") if len(records) != before else count
    text = b"".join((pack[:8], count, *(each.text(wide) for each in records)))
    return text + hashlib.new(hash_name, text).digest()


def _change_record(random, records, _):
    """One object has other bytes, or says another length, kind or id."""
    each = random.choice(records)
    what = random.randrange(5)
    if what == 0:
        each.length = random.choice((*FIELDS, each.length + 1, max(0, each.length - 1), 2**63, 2**64 - 1))
    elif what == 1:
        each.kind = bytes([random.choice((0, 1, 2, 3, 4, 5, 255))])
    elif what == 2:
        each.id = _flip(random, each.id, b"")
    else:
        each.data = in_bytes(random, each.data, b"")
        each.length = len(each.data)
    return records


RECORD_CHANGES = (_change_record, _change_record, _change_record, _drop_lines, _double_lines, _move_lines)


def _hash_of(scene):
    return "sha256" if b"hash sha256" in scene[:100] else "sha1"


def in_own_pack(random, scene, other):
    """One change in the repository's pack."""
    lines = split_lines(scene)
    begin, end = _part(lines, 1), _part(lines, 2)
    if end is None:
        return in_lines(random, scene, other)
    pack = in_pack(random, b"".join(line[4:] for line in lines[begin : end - 1]), _hash_of(scene))
    return b"".join((*lines[:begin], *map(encoded, pieces(pack)), *lines[end - 1 :]))


def in_sent_pack(random, scene, other):
    """One change in a pack of the server, which is cut into bands anew."""
    front, said = _server_of(scene)
    if said is None:
        return in_lines(random, scene, other)
    said = split_lines(said)
    heads = [at for at, line in enumerate(said) if line[4:].startswith(b"packfile")]
    if not heads:
        return in_server(random, scene, other)
    head = random.choice(heads) + 1
    end = head
    while end < len(said) and said[end][4:5] in (b"\1", b"\2"):
        end += 1
    pack = in_pack(random, b"".join(line[5:] for line in said[head:end] if line[4:5] == b"\1"), _hash_of(scene))
    bands = [encoded(b"\1" + piece) for piece in pieces(pack, random.choice((MAX_PAYLOAD - 1, 1, 40, 1000)))]
    return _with_server(random, front, b"".join((*said[:head], *bands, *said[end:])))


PLACES = (in_bytes, in_lines, _id, _id, in_server, in_server, in_server, in_server, in_sent_pack, in_sent_pack, in_sent_pack,
          in_own_pack)
