"""Input of a size that is given, with much of one kind: what servers say, and what is asked of a server or of a check.

Each attack is made for a size, and tells which program it is for: the words of the program, or rows of crates/serve_rows.
"""

import hashlib
import struct

from bagjulen_tools.formats.plainpack import Object, object_id, write_pack
from bagjulen_tools.formats.scene import Scene
from bagjulen_tools.protocol.lines import MAX_PAYLOAD, Mark, encoded, pieces, text_line
from bagjulen_tools.trials.plain_server import State
from bagjulen_tools.trials.races import TREE, commit
from bagjulen_tools.trials.random_input import row, scene_of
from bagjulen_tools.trials.row_server import escaped
from bagjulen_tools.trials.served import front

HASH = "sha1"
TIP = b"bc6e39d85183dbf480419262896d4ffa452774ab"
GREETING = [b"version 2\n", b"ls-refs=unborn\n", b"fetch=shallow plain-pack plain-pack-2\n", b"object-format=sha1\n"]
EMPTY_PACK = write_pack([], 1, HASH)
ONE, STAR = "+refs/heads/main:refs/remotes/origin/main", "+refs/heads/*:refs/remotes/origin/*"
FIRST_LINE = encoded(b"git-upload-pack /srv/a.git\0\0version=2\0")


def lines(*payloads):
    """These lines, and a flush."""
    return b"".join(map(encoded, [*payloads, Mark.FLUSH]))


LISTED = lines(TIP + b" refs/heads/main\n")


def banded(pack, *before):
    """A reply with these lines before its pack."""
    return lines(*before, b"packfile\n", *(b"\1" + piece for piece in pieces(pack, MAX_PAYLOAD - 1)))


def with_digest(text):
    """A pack with its digest."""
    return text + hashlib.new(HASH, text).digest()


def of_count(version, count):
    """A pack of no objects that says this count."""
    return with_digest(b"PLNP" + struct.pack(">II", version, count))


def of_length(version, length):
    """A pack of one blob that says this length and has one byte."""
    head = struct.pack(">4sIIB", b"PLNP", version, 1, 3)
    return with_digest(head + (struct.pack(">I", length) if version == 1 else struct.pack(">Q20x", length)) + b"x")


def ids(count):
    """So many ids, ascending."""
    return [f"{number * (2**160 // (count + 1)):040x}" for number in range(1, count + 1)]


def scene_with(listing, *replies, spec=ONE, tags="none", options=(), objects=(), references=None, algorithm="noop"):
    """The scene of a repository, and of a server that says this after its greeting."""
    return Scene(HASH, "/w/.git", "/w", config=["[fetch]", f"negotiationAlgorithm = {algorithm}"], address="/srv/a.git",
                 specs=[spec], tags=tags, options=list(options), objects=list(objects), references=references or {},
                 server=[lines(*GREETING), listing, *replies])


# ---- announced, and not sent: these are of one size


def announced():
    """What is announced, with the words of the program, and the input. No more is to be held than was sent."""
    scenes = {
        "an empty pack": banded(EMPTY_PACK),
        "a count of ffffffff": banded(of_count(1, 2**32 - 1)),
        "a record of length ffffffff": banded(of_length(1, 2**32 - 1)),
        "a record of length 7fffffffffffffff": banded(of_length(2, 2**63 - 1)),
        "a line of length fff0 without its bytes, as a band of the pack": lines(b"packfile\n")[:-4] + b"fff0\1",
    }
    for about, reply in scenes.items():
        yield about, ["fetch"], scene_with(LISTED, reply).to_bytes()
    yield "a line of length fff0 without its bytes, as listing", ["fetch"], scene_with(b"fff0", b"").to_bytes()
    head = b"".join(map(encoded, [b"bundle 1\n", b"hash sha1\n", Mark.DELIMITER]))
    bundles = {
        "a bundle with a count of ffffffff": head + lines(of_count(2, 2**32 - 1)),
        "a bundle with a record of length 7fffffffffffffff": head + lines(of_length(2, 2**63 - 1)),
        "a bundle with a line of length fff0 without its bytes": head + b"fff0PLNP",
    }
    for about, text in bundles.items():
        yield about, None, row(b"bundle", State(), [b"read " + escaped(text)])
    yield "a request with a line of length fff0 without its bytes", None, _asked(FIRST_LINE + b"fff0command")


# ---- of a size


def names_unasked(size):
    """A listing of names, none of them asked for."""
    return ["fetch"], scene_with(_names(size), b"").to_bytes()


def names_mapped(size):
    """A listing of names, each of them mapped and wanted."""
    return ["fetch"], scene_with(_names(size), banded(EMPTY_PACK), spec=STAR).to_bytes()


def _names(size):
    each = zip(ids(size), (f"refs/heads/team{number % 100:02}/branch-{number:07}" for number in range(size)))
    return lines(*(text_line(f"{digits} {name}") for digits, name in each))


def shallow_lines(size):
    """Shallow lines of a reply."""
    shallow = [text_line(f"shallow {digits}") for digits in ids(size)]
    return ["fetch"], scene_with(LISTED, banded(EMPTY_PACK, b"shallow-info\n", *shallow, Mark.DELIMITER)).to_bytes()


def repeated_acks(size):
    """`ACK`s of the sixteen commits of one round, again and again. Each commit is a root, so that none hides another."""
    roots = sorted((commit(number, None) for number in range(1, 18)), key=lambda each: each.id)
    names = {f"refs/heads/{number:02}": each.id for number, each in enumerate(roots)}
    told = [each for each in roots if each.id != commit(1, None).id]
    acks = [text_line(f"ACK {told[number % 16].id}") for number in range(size)]
    scene = scene_with(lines(text_line(f"{'f' * 40} refs/heads/main")), lines(b"acknowledgments\n", *acks), banded(EMPTY_PACK),
                       objects=[TREE, *roots], references=names, algorithm="consecutive")
    return ["fetch"], scene.to_bytes()


def acks_of_rounds(size):
    """`ACK`s of the sixteen commits of the first window, so many in each of eight rounds. Each commit is a root."""
    windows = [16, 32, 64, 128, 256, 512, 1024, 1024]
    roots = [commit(number, None) for number in range(1, sum(windows) + 2)]
    acks = [text_line(f"ACK {roots[-1 - number % 16].id}") for number in range(size)]
    names = {f"refs/heads/{number:04}": each.id for number, each in enumerate(roots)}
    scene = scene_with(lines(text_line(f"{'f' * 40} refs/heads/main")), *[lines(b"acknowledgments\n", *acks)] * len(windows),
                       banded(EMPTY_PACK), objects=[TREE, *roots], references=names, algorithm="consecutive")
    return ["fetch"], scene.to_bytes()


def local_borders(size):
    """A border of a repository, each commit of it there."""
    roots = [commit(number, None) for number in range(1, size + 1)]
    scene = scene_with(LISTED, banded(EMPTY_PACK), objects=[TREE, *roots])
    scene.border = sorted(each.id for each in roots)
    return ["fetch"], scene.to_bytes()


def names_not_to_deepen(size):
    """Names from which the history isn't to come."""
    options = [f"not refs/heads/{number:07}" for number in range(size)]
    return ["fetch"], scene_with(LISTED, banded(EMPTY_PACK), options=options).to_bytes()


def _asked(text):
    """The row in which a server of one commit is asked so."""
    root = commit(1, None)
    state = State(HASH, {each.id: each for each in (TREE, root)}, {"refs/heads/main": root.id})
    return row(b"serve", state, [b"feed " + escaped(text), b"give 1000000000"])


def _fetch(wants=None, border=(), haves=(), depth=()):
    wants = [commit(1, None).id] if wants is None else wants
    words = ["plain-pack-2", *(f"shallow {each}" for each in border), *depth, *(f"want {each}" for each in wants),
             *(f"have {each}" for each in haves), "done"]
    return None, _asked(FIRST_LINE + lines(*front("fetch", HASH), *map(text_line, words)))


def haves(size):
    """Haves that are told to a server."""
    return _fetch(haves=ids(size))


def wants(size):
    """Wants of a server's client, the first one offered."""
    return _fetch(wants=[commit(1, None).id, *ids(size)])


def borders(size):
    """A border of a server's client."""
    return _fetch(border=ids(size))


def names_not_to_serve(size):
    """`deepen-not` lines."""
    return _fetch(depth=[f"deepen-not refs/heads/{number:07}" for number in range(size)])


def prefixes(size):
    """Prefixes of a listing request."""
    words = ["symrefs", "peel", *(f"ref-prefix refs/heads/{number:07}" for number in range(size))]
    return None, _asked(FIRST_LINE + lines(*front("ls-refs", HASH), *map(text_line, words)))


def missing_blobs(size):
    """A tree that names blobs that aren't stored."""
    data = b"".join(b"100644 %07d\0%b" % (number, bytes.fromhex(digits)) for number, digits in enumerate(ids(size)))
    tree = Object(object_id(HASH, "tree", data), "tree", data)
    return ["check"], scene_of(State(HASH, {tree.id: tree}, {"refs/tags/t": tree.id}))


def chained_names(size):
    """Symbolic references, each to the next."""
    names = [f"refs/heads/{number:07}" for number in range(size)]
    return ["check"], scene_of(State(HASH, {}, {name: f"@{after}" for name, after in zip(names, [*names[1:], names[0]])}))


def _chain(size):
    """The empty tree, and tags, each of the one before."""
    made = [TREE]
    for number in range(size):
        data = f"object {made[-1].id}\ntype {made[-1].kind}\ntag {number}\ntagger A <a@x> 1 +0000\n\n".encode()
        made.append(Object(object_id(HASH, "tag", data), "tag", data))
    return made


def chained_tags(size):
    """Tags, each of the one before, each with a reference and a symbolic one to that."""
    made = _chain(size)
    names = {f"refs/tags/{number:07}": each.id for number, each in enumerate(made)}
    symbolic = {f"refs/to/{number:07}": f"@refs/tags/{number:07}" for number in range(size)}
    return ["check"], scene_of(State(HASH, {each.id: each for each in made}, names | symbolic))


def served_tags(size):
    """The same tags, served and listed."""
    made = _chain(size)
    names = {f"refs/tags/{number:07}": each.id for number, each in enumerate(made)}
    text = FIRST_LINE + lines(*front("ls-refs", HASH), b"symrefs\n", b"peel\n")
    state = State(HASH, {each.id: each for each in made}, names)
    return None, row(b"serve", state, [b"feed " + escaped(text), b"give 1000000000"])


OF_A_SIZE = (names_unasked, names_mapped, shallow_lines, repeated_acks, acks_of_rounds, local_borders, names_not_to_deepen, haves,
             wants, borders, names_not_to_serve, prefixes, missing_blobs, chained_names, chained_tags, served_tags)
