"""Writes a scene: a server sends a line of as many commits as the one argument says, over the empty tree, into an empty repository."""

import hashlib
import struct
import sys


def line(payload):
    return b"%04x" % (len(payload) + 4) + payload


def lines(*payloads):
    return b"".join(map(line, payloads))


def pieces(text):
    return [text[i : i + 65000] for i in range(0, len(text), 65000)]


def name(kind, text):
    return hashlib.sha1(b"%s %d\0" % (kind, len(text)) + text).hexdigest().encode()


def pack(records):
    text = b"PLNP" + struct.pack(">II", 1, len(records))
    text += b"".join(bytes([code]) + struct.pack(">I", len(bytes_)) + bytes_ for code, bytes_ in records)
    return text + hashlib.sha1(text).digest()


def main(arguments: list[str]) -> int:
    records, parent = [(2, b"")], b""
    for i in range(int(arguments[0])):
        commit = b"tree " + name(b"tree", b"") + b"\n" + (b"parent " + parent + b"\n" if parent else b"")
        commit += b"author A <a@x> 1 +0000\ncommitter A <a@x> %d +0000\n\nm%d\n" % (1000000000 + i, i)
        parent = name(b"commit", commit)
        records.append((1, commit))

    greeting = lines(b"version 2\n", b"ls-refs=unborn\n", b"fetch=shallow plain-pack\n", b"object-format=sha1\n") + b"0000"
    listing = line(parent + b" refs/heads/main\n") + b"0000"
    reply = line(b"packfile\n") + b"".join(line(b"\x01" + piece) for piece in pieces(pack(records))) + b"0000"
    scene = lines(b"scene 1\n", b"hash sha1\n", b"git-dir /w/.git\n", b"workdir /w\n")
    scene += lines(b"config [fetch]\n", b"config negotiationAlgorithm = noop\n") + b"0001" + line(pack([])) + b"0001"
    scene += lines(b"remote /srv/a.git\n", b"fetch +refs/heads/main:refs/remotes/origin/main\n", b"tags none\n") + b"0001"
    sys.stdout.buffer.write(scene + lines(greeting, listing, *pieces(reply)) + b"0000")
    return 0
