"""Git's own pack, written with whole objects, and its way into a repository."""

import hashlib
import struct
import zlib

CODES = {"commit": 1, "tree": 2, "blob": 3, "tag": 4}
SEVERITIES = ("error", "warn", "ignore")


def write_git_pack(objects, hash_name):
    """A pack of version 2 with these objects, each compressed by itself."""
    parts = [b"PACK", struct.pack(">II", 2, len(objects))]
    for each in objects:
        parts += [_head(CODES[each.kind], len(each.data)), zlib.compress(each.data)]
    text = b"".join(parts)
    return text + hashlib.new(hash_name, text).digest()


def _head(code, length):
    """The kind of an object and its length: four bits of it in the first byte, and then seven bits a byte."""
    last, rest = code << 4 | length & 15, length >> 4
    head = []
    while rest:
        head.append(last | 128)
        last, rest = rest & 127, rest >> 7
    return bytes([*head, last])


def store(repository, objects, shallow=None):
    """Stores objects as one pack, and checks them where the repository asks its fetches to do so.

    `shallow` is the file with the border that will hold, where it isn't the one that holds.
    """
    if objects:
        words = [] if shallow is None else ["--shallow-file", shallow]
        pack = write_git_pack(objects, repository.hash_name())
        repository.git(*words, "index-pack", "--stdin", *_checking(repository), given=pack)


def _checking(repository):
    """The words by which Git's own fetch has objects checked: none, unless the configuration asks for it."""
    asked = [repository.truth(key) for key in ("fetch.fsckObjects", "transfer.fsckObjects")]
    if not next((each for each in asked if each is not None), False):
        return []
    front = "fetch.fsck."
    told = [(key.removeprefix(front), value) for key, value in repository.entries() if key.startswith(front)]
    told = [f"{name}={value}" for name, value in told if name == "skiplist" or value in SEVERITIES]
    return [f"--strict={','.join(told)}" if told else "--strict"]
