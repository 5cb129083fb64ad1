"""The digest and the length of the packs that text_rows writes, in versions 1 and 2."""

import hashlib
import struct

COMMIT = b"tree 4b825dc642cb6eb9a060e54bf8d69288fbee4904\nauthor A <a@x> 1 +0000\ncommitter A <a@x> 1 +0000\n\none\n"


def name(hash_, kind, data):
    """The raw id of an object."""
    return hashlib.new(hash_, b"%s %d\0" % (kind, len(data)) + data).digest()


def pack(hash_, version, records):
    """The text of a pack, without its digest. A record is its code, its kind and its bytes."""
    text = b"PLNP" + struct.pack(">II", version, len(records))
    for code, kind, data in records:
        text += bytes([code]) + struct.pack(">I" if version == 1 else ">Q", len(data))
        text += (b"" if version == 1 else name(hash_, kind, data)) + data
    return text


def main(arguments: list[str]) -> int:
    tree, commit = (2, b"tree", b""), (1, b"commit", COMMIT)
    for version, records in ((1, [commit, tree]), (2, [tree, commit])):
        for hash_ in ("sha1", "sha256"):
            text = pack(hash_, version, records)
            digest = hashlib.new(hash_, text).digest()
            print(version, hash_, digest.hex(), len(text) + len(digest))
    return 0
