"""The plain pack: whole objects one after the other, uncompressed, with a digest at the end."""

import hashlib
import struct
from dataclasses import dataclass

KINDS = {"commit": 1, "tree": 2, "blob": 3, "tag": 4}
NAMES = {code: kind for kind, code in KINDS.items()}
LENGTH = {1: ">I", 2: ">Q"}
TOO_LONG = 1 << 63


class MalformedPack(Exception):
    """Bytes that are no plain pack. Its argument is the place where they break the grammar."""


class OtherDigest(MalformedPack):
    """A pack that is right up to its digest, which is another. Its argument is the place of the digest."""


@dataclass(frozen=True)
class Object:
    """An object: its id in hex, its kind and its bytes."""

    id: str
    kind: str
    data: bytes


@dataclass(frozen=True)
class Record:
    """An object of a pack: where it begins, and the id that is written before its bytes, which version 1 has none of."""

    place: int
    written: str
    object: Object


def object_id(hash_name, kind, data):
    """The id of an object in hex."""
    text = f"{kind} {len(data)}\0".encode() + data
    return hashlib.new(hash_name, text).hexdigest()


def write_pack(objects, version, hash_name):
    """The plain pack of these objects, in version 1 or 2."""
    parts = [b"PLNP", struct.pack(">II", version, len(objects))]
    for each in objects:
        parts.append(bytes([KINDS[each.kind]]))
        parts.append(struct.pack(LENGTH[version], len(each.data)))
        if version == 2:
            parts.append(bytes.fromhex(each.id))
        parts.append(each.data)
    text = b"".join(parts)
    return text + hashlib.new(hash_name, text).digest()


def read_pack(data, hash_name):
    """The objects of a plain pack of either version."""
    return [record.object for record in read_records(data, hash_name)]


def read_records(data, hash_name):
    """The records of a plain pack of either version."""
    version, count = _head(data)
    id_size = hashlib.new(hash_name).digest_size
    spans, end = _spans(data, version, count, id_size)
    if len(data) - end != id_size:
        raise MalformedPack(end)
    if hashlib.new(hash_name, data[:end]).digest() != data[end:]:
        raise OtherDigest(end)
    return [_record(data, *span, hash_name) for span in spans]


def _head(data):
    """The version and the count."""
    if data[:4] != b"PLNP":
        raise MalformedPack(0)
    version = int.from_bytes(data[4:8], "big")
    if len(data) < 8 or version not in LENGTH:
        raise MalformedPack(4)
    if len(data) < 12:
        raise MalformedPack(8)
    return version, int.from_bytes(data[8:12], "big")


def _spans(data, version, count, digest_size):
    """Of each record where it begins, where its id does and where its bytes do, and where it ends; and the end of all."""
    head = struct.calcsize(LENGTH[version]) + 1
    id_size = digest_size if version == 2 else 0
    spans, place = [], 12
    for _ in range(count):
        begin = place + head + id_size
        if begin > len(data) or data[place] not in NAMES:
            raise MalformedPack(place)
        (length,) = struct.unpack_from(LENGTH[version], data, place + 1)
        if length >= TOO_LONG or begin + length > len(data):
            raise MalformedPack(place)
        spans.append((place, place + head, begin, begin + length))
        place = begin + length
    return spans, place


def _record(data, place, id_place, begin, end, hash_name):
    kind, payload = NAMES[data[place]], data[begin:end]
    return Record(place, data[id_place:begin].hex(), Object(object_id(hash_name, kind, payload), kind, payload))
