"""Writes the rows of bundles of serve_rows: `bundles in` for its stdin, `bundles out` for its stdout."""

import hashlib
import re
import struct
import sys
from random import Random

CODES = {"commit": 1, "tree": 2, "blob": 3, "tag": 4}
DIGITS = {"sha1": 40, "sha256": 64}
PIECE = 65000
HEAD = {hash_: b"bundle 1\n|hash %s\n" % hash_.encode() for hash_ in DIGITS}


def line(payload):
    return b"%04x" % (len(payload) + 4) + payload


def escaped(data):
    return "".join(chr(b) if 32 <= b < 127 and b != 37 else "%%%02X" % b for b in data)


def name_of(hash_, kind, data):
    return hashlib.new(hash_, b"%s %d\0" % (kind.encode(), len(data)) + data).hexdigest()


def pack_of(hash_, objects, version=2):
    text = b"PLNP" + struct.pack(">II", version, len(objects))
    for id_, kind, data in objects:
        text += bytes([CODES[kind]]) + struct.pack(">I" if version == 1 else ">Q", len(data))
        text += (b"" if version == 1 else bytes.fromhex(id_)) + data
    return text + hashlib.new(hash_, text).digest()


def text_of(hash_, refs, border, pack, piece=PIECE):
    """A bundle's text of these lines, whatever they say."""
    text = line(b"bundle 1\n") + line(b"hash %s\n" % hash_.encode())
    for name, target in refs:
        target = target if re.fullmatch("[0-9a-f]+", target) else "@" + target
        text += line(b"ref %s %s\n" % (target.encode(), name.encode()))
    text += b"".join(line(b"border %s\n" % id_.encode()) for id_ in border) + b"0001"
    return text + b"".join(line(pack[i : i + piece]) for i in range(0, len(pack), piece)) + b"0000"


def tag_of(name, target, kind):
    return ("object %s\ntype %s\ntag %s\ntagger A <a@x> 1 +0000\n\n%s\n" % (target, kind, name, name)).encode()


class Repository:
    """Objects, references and a border of one hash."""

    def __init__(self, hash_="sha1", tree=True):
        self.hash, self.objects, self.refs, self.border = hash_, {}, {}, []
        self.lines = [] if hash_ == "sha1" else ["hash " + hash_]
        self.tree = name_of(hash_, "tree", b"")
        if tree:
            self.add("tree", b"")

    def add(self, kind, data):
        id_ = name_of(self.hash, kind, data)
        self.objects[id_] = (kind, data)
        self.lines.append("object %s %s" % (kind, escaped(data)))
        return id_

    def commit(self, message, *parents, tree=None):
        text = "tree %s\n" % (tree or self.tree) + "".join("parent %s\n" % parent for parent in parents)
        text += "author A <a@x> 1 +0000\ncommitter A <a@x> 1 +0000\n\n%s\n" % message
        return self.add("commit", text.encode())

    def tag(self, name, target):
        return self.add("tag", tag_of(name, target, "commit"))

    def under(self, id_, kind, data):
        """An object under an id that isn't its own."""
        self.objects[id_] = (kind, data)
        self.lines.append("under %s %s %s" % (id_, kind, escaped(data)))

    def ref(self, name, target):
        self.refs[name] = target
        self.lines.append("ref %s %s" % (name, target))

    def shallow(self, id_):
        self.border = [id_]
        self.lines.append("border " + id_)

    def links(self, id_):
        return links_of(self.hash, *self.objects[id_], id_ in self.border)

    def reached(self):
        found, left = set(), [target for target in self.refs.values() if target in self.objects]
        while left:
            id_ = left.pop()
            if id_ not in found and id_ in self.objects:
                found.add(id_)
                left += self.links(id_)
        return sorted(found)

    def text(self):
        ids = self.reached()
        objects = [(id_, *self.objects[id_]) for id_ in ids]
        border = [id_ for id_ in sorted(self.border) if id_ in ids]
        return text_of(self.hash, sorted(self.refs.items()), border, pack_of(self.hash, objects))

    def told(self):
        """The lines of what is read."""
        ids = self.reached()
        lines = ["hash " + self.hash] + ["ref %s %s" % entry for entry in sorted(self.refs.items())]
        lines += ["border " + id_ for id_ in sorted(self.border) if id_ in ids]
        return lines + ["object %s %s %d" % (id_, self.objects[id_][0], len(self.objects[id_][1])) for id_ in ids]


def links_of(hash_, kind, data, in_border):
    if kind == "tree":
        found, size = [], DIGITS[hash_] // 2
        while data:
            end = data.index(b"\0") + 1
            found.append(data[end : end + size].hex())
            data = data[end + size :]
        return found
    if kind == "blob":
        return []
    words = ("tree", "object") if in_border else ("tree", "object", "parent")
    heads = [head.split(" ") for head in data.decode().split("\n\n")[0].split("\n")]
    return [head[1] for head in heads if head[0] in words]


def malformed(place):
    return "refused malformed bundle at byte %d" % place


NO_PACK = "refused a bundle's pack isn't read"


def since(cause):
    return [NO_PACK, "since " + cause]


def lines_in(text):
    """Where each line of a whole bundle begins, and the last one's end."""
    places, place = [], 0
    while place < len(text):
        places.append(place)
        place += max(int(text[place : place + 4], 16), 4)
    return places + [place]


class Rows:
    """Rows, and their answers."""

    def __init__(self):
        self.asked, self.answered = [], []

    def row(self, about, repository=None):
        self.asked += ["= bundle " + about] + (repository.lines if repository else [])
        self.answered.append("= bundle " + about)

    def ask(self, question, *answers):
        self.asked.append("? " + question)
        self.answered += ["? " + question, *answers]

    def reads(self, text, repository):
        self.ask("read " + escaped(text), *repository.told(), "ok", "same")

    def refuses(self, about, text, *answers):
        self.row(about)
        self.ask("read " + escaped(text), *answers)

    # the repository is whole: it is written, kept and read
    def whole(self, about, repository, count=None):
        text = repository.text()
        assert count in (None, len(text)), len(text)
        self.row(about, repository)
        unreached = sorted(set(repository.objects) - set(repository.reached()))
        end = ["found %d" % len(unreached), "status 1"] if unreached else ["ok", "status 0"]
        self.ask("check", *("unreached " + id_ for id_ in unreached), *end)
        self.ask("write", "gives %d %s" % (len(text), escaped(text)))
        self.reads(text, repository)
        self.ask("load", "nothing")
        self.ask("save", "saved")
        self.ask("files", "file a.bundle")
        self.ask("load", *repository.told())

    # the repository isn't: what is found, and why it isn't written
    def broken(self, about, repository, findings, *refusal):
        self.row(about, repository)
        self.ask("check", *findings, "found %d" % len(findings), "status 1")
        self.ask("write", *refusal)
        self.ask("save", *refusal)
        self.ask("load", "nothing")


def first():
    """What the first scene leaves."""
    r = Repository()
    c1 = r.commit("one")
    assert c1 == "bc6e39d85183dbf480419262896d4ffa452774ab"
    r.ref("refs/remotes/origin/main", c1)
    return r, c1


def wholes(rows):
    r, c1 = first()
    assert r.text().count(b"004aref ") == 1 and b"000100c2PLNP" in r.text()
    rows.whole("what the first scene leaves", r, 303)
    rows.whole("no references", Repository(tree=False), 71)
    r = Repository(tree=False)
    r.ref("HEAD", "refs/heads/main")
    assert b"001eref @refs/heads/main HEAD\n" in r.text()
    rows.whole("an unborn HEAD", r, 101)
    r, c1 = first()
    r.add("blob", b"lost")
    rows.whole("an object that isn't reached stays out", r, 303)
    r, c1 = first()
    for name in ("refs/heads/main", "refs/tags/light"):
        r.ref(name, c1)
    r.ref("refs/tags/v1", r.tag("v1", c1))
    r.ref("HEAD", "refs/heads/main")
    r.ref("refs/remotes/origin/HEAD", "refs/remotes/origin/main")
    rows.whole("a clone", r)
    r = Repository()
    lost = "f" * 40
    c2 = r.commit("two", lost)
    r.ref("refs/heads/main", c2)
    r.shallow(c2)
    rows.whole("a border", r)
    r, c1 = first()
    aside = r.commit("aside", lost)
    r.shallow(aside)
    rows.whole("a border that isn't reached stays out", r, 303)
    r = Repository("sha256")
    r.ref("refs/heads/main", r.commit("one"))
    rows.whole("ids of SHA-256", r)
    for about, size in (("a pack of one full payload", 0), ("a pack of two payloads", 500)):
        r = Repository(tree=False)
        # 12 bytes of head, 29 before the blob, 20 of digest
        r.ref("refs/tags/full", r.add("blob", b"f" * (PIECE - 61 + size)))
        assert b"fdecPLNP" in r.text() and len(lines_in(r.text())) == (7 if size == 0 else 8)
        rows.row(about)
        rows.reads(r.text(), r)


def unwritable(rows):
    lost, empty = "f" * 40, "4b825dc642cb6eb9a060e54bf8d69288fbee4904"
    closed = "refused the repository isn't closed"
    r = Repository(tree=False)
    c1 = r.commit("one")
    r.ref("refs/heads/x", lost)
    findings = ["missing %s %s" % (c1, empty), "broken refs/heads/x MissingObject " + lost, "unreached " + c1]
    rows.broken("a commit without its tree", r, findings, closed, "from " + c1, "to " + empty)
    r, c1 = first()
    r.shallow(lost)
    rows.broken("a border of what isn't stored", r, ["missing %s %s" % (lost, lost)], closed, "from " + lost, "to " + lost)
    broken = "refused a reference is broken"
    r, c1 = first()
    r.ref("refs/heads/x", lost)
    rows.broken("a reference to what isn't stored", r, ["broken refs/heads/x MissingObject " + lost], broken, "at refs/heads/x", "since MissingObject")
    r, c1 = first()
    r.ref("refs/a/one", "refs/a/two")
    r.ref("refs/a/two", "refs/a/one")
    findings = ["broken refs/a/%s Cycle" % name for name in ("one", "two")]
    rows.broken("names in a circle", r, findings, broken, "at refs/a/one", "since Cycle")
    r, c1 = first()
    for i in range(1, 6):
        r.ref("refs/n/%d" % i, "refs/n/%d" % (i + 1))
    r.ref("refs/n/6", c1)
    rows.broken("six names", r, ["broken refs/n/1 Depth"], broken, "at refs/n/1", "since Depth")
    # two tags, each of the other: no ids of theirs
    one, two = "1" * 40, "2" * 40
    r = Repository(tree=False)
    r.under(one, "tag", tag_of("one", two, "tag"))
    r.under(two, "tag", tag_of("two", one, "tag"))
    r.ref("refs/tags/one", one)
    r.ref("refs/heads/a", "refs/tags/one")
    rows.row("tags in a circle", r)
    rows.ask("check", "broken refs/heads/a TagCycle " + one, "found 1", "status 1")
    r, c1 = first()
    # a line has 65,520 bytes at most
    name = "refs/heads/" + "n" * (65516 - 4 - 40 - 1 - 11 - 1)
    r.ref(name, c1)
    rows.row("the longest name")
    rows.reads(r.text(), r)
    r.ref(name + "n", c1)
    rows.row("a name that is too long", r)
    rows.ask("check", "ok", "status 0")
    rows.ask("write", "refused a reference's line is too long", "at %sn" % name)


def refusals(rows):
    r, c1 = first()
    two = [("refs/heads/a", c1)]
    objects = [(id_, *r.objects[id_]) for id_ in r.reached()]
    pack, none = pack_of("sha1", objects), pack_of("sha1", [])
    text = r.text()

    def told(about, refs, data, *answers, border=()):
        rows.refuses(about, text_of("sha1", refs, border, data), *answers)

    told("names that fall", [("refs/heads/b", c1), *two], pack, malformed(89))
    told("a name that comes twice", two * 2, pack, malformed(89))
    told("a pack of version 1", two, pack_of("sha1", objects, 1), *since("malformed pack at byte 4"))
    told("no payload", two, b"", *since("malformed pack at byte 0"))
    told("another digest", two, pack[:-1] + b"?", *since("the pack's digest is not that of its bytes"))
    named = [("1" * 40, "tree", b""), objects[1]]
    told("another id", two, pack_of("sha1", named), *since("an object of the pack has another id than the one written"))
    place = malformed(27 + 62 + 4)
    told("objects that fall", two, pack_of("sha1", objects[::-1]), place)
    told("an object twice", two, pack_of("sha1", [objects[0], *objects]), place)
    blob = (name_of("sha1", "blob", b"x"), "blob", b"x")
    told("an object that isn't reached", two, pack_of("sha1", sorted([*objects, blob])), place)
    told("a reference to what isn't there", two, none, place)
    told("a commit without its tree", two, pack_of("sha1", objects[1:]), place)
    told("a border of what isn't there", two, pack, malformed(27 + 62 + 52 + 4), border=["f" * 40])
    told("a border that falls", two, pack, malformed(27 + 62 + 52), border=[c1, "0" * 40])
    circle = [("refs/a/one", "refs/a/two"), ("refs/a/two", "refs/a/one"), *two]
    told("names in a circle in a text", circle, pack, malformed(27 + 31 + 31 + 62 + 4))
    big = Repository(tree=False)
    big.ref("refs/tags/b", big.add("blob", b"y" * 65000))
    data = pack_of("sha1", [(id_, *big.objects[id_]) for id_ in big.reached()])
    place = 27 + 61 + 4 + 60004
    rows.refuses("payloads of other lengths", text_of("sha1", big.refs.items(), [], data, 60000), malformed(place))
    rows.refuses("a payload that is longer", text_of("sha1", big.refs.items(), [], data, PIECE + 1), malformed(27 + 61 + 4))
    full = Repository(tree=False)
    full.ref("refs/tags/b", full.add("blob", b"y" * (PIECE - 61)))
    full = full.text()
    rows.refuses("an empty payload behind a full one", full[:-4] + b"0004" + full[-4:], malformed(len(full) - 4))
    rows.refuses("no text", b"", malformed(0))
    rows.refuses("a byte behind", text + b"0", malformed(303))
    rows.refuses("a flush behind", text + b"0000", malformed(303))
    rows.refuses("no flush", text[:-4], malformed(299))
    rows.refuses("ids of another hash", text.replace(b"000ehash sha1\n", b"0010hash sha256\n"), malformed(29))
    rows.refuses("digits of upper case in a length", text.replace(b"000dbundle", b"000Dbundle"), malformed(0))
    rows.refuses("digits of upper case in an id", text.replace(c1.encode(), c1.upper().encode()), malformed(27))
    whole = line(b"ref %s refs/remotes/origin/main\n" % c1.encode())
    rows.refuses("no line feed", text.replace(whole, line(whole[4:-1])), malformed(27))
    rows.refuses("a name that isn't full", text.replace(b"004aref ", b"0041ref ").replace(b" refs/remotes/", b" refs.."), malformed(27))
    rows.refuses("another version", text.replace(b"bundle 1", b"bundle 2"), malformed(0))
    empty = text_of("sha1", [], [], none)
    assert len(empty) == 71
    rows.refuses("an empty payload", empty[:31] + b"0004" + empty[31:], malformed(31))
    rows.refuses("an empty payload behind the pack", empty[:-4] + b"0004" + empty[-4:], malformed(67))
    rows.refuses("two delimiters", empty[:31] + b"0001" + empty[31:], malformed(31))
    rows.refuses("an end in place of the delimiter", empty[:27] + b"0002" + empty[31:], malformed(27))
    rows.refuses("a flush in place of the delimiter", empty[:27] + b"0000" + empty[31:], malformed(27))
    target = line(b"ref @refs..heads HEAD\n")
    rows.refuses("a target that isn't full", empty[:27] + target + empty[27:], malformed(27))
    shallow = line(b"border %s\n" % (b"F" * 40))
    rows.refuses("digits of upper case in a border", empty[:27] + shallow + empty[27:], malformed(27))
    long = line(b"ref %s refs/heads/%s\n" % (c1.encode(), b"n" * (65516 - 4 - 40 - 1 - 11)))
    assert long[:4] == b"fff1"
    rows.refuses("a line that is too long", empty[:27] + long + empty[27:], malformed(27))


def pieces(rows):
    r, _ = first()
    text = r.text()
    places = lines_in(text)
    assert places == [0, 13, 27, 101, 105, 299, 303]
    spans = list(zip(places, places[1:]))
    rows.row("each cut")
    rows.ask("cuts " + escaped(text), *("%d %s" % (end - start, malformed(start)) for start, end in spans))
    rows.row("each byte changed")
    for bits in (1, 32, 128):
        rows.ask("changes %d %s" % (bits, escaped(text)), *counted(changed(text, bits)))


def counted(answers):
    lines, count = [], 0
    for answer, after in zip(answers, [*answers[1:], None]):
        count += 1
        if answer != after:
            lines.append("%d %s" % (count, answer))
            count = 0
    return lines


def changed(text, bits):
    """What is told of the text with other bits in the byte at each place, from the format."""
    places = lines_in(text)
    answers = []
    for place in range(len(text)):
        data = bytearray(text)
        data[place] ^= bits
        start = max(p for p in places[:-1] if p <= place)
        answers.append(answer(bytes(data), start, place - start))
    return answers


def is_full(name):
    parts = name.split(b"/")
    if parts[0] != b"refs" or len(parts) < 2 or b".." in name or b"@{" in name or name.endswith(b"."):
        return False
    if any(not part or part.startswith(b".") or part.endswith(b".lock") for part in parts):
        return False
    return not re.search(rb"[\x00-\x20\x7f~^:?*\[\\]", name)


def answer(data, start, place):
    """What is told of the first scene's bundle with another byte at a place of the line that begins at `start`."""
    if start == 27 and 8 <= place < 48:
        # a digit of the id: none, or that of another object, which isn't there
        return malformed(105 if re.fullmatch(rb"[0-9a-f]{40}", data[35:75]) else 27)
    if start == 27 and 49 <= place < 73:
        return "reads" if is_full(data[76:100]) else malformed(27)
    if start == 105 and place < 4 and re.fullmatch(rb"[0-9a-f]{4}", data[105:109]):
        # a payload of another length, behind which no flush stands
        end = 105 + int(data[105:109], 16)
        return malformed(end if end <= len(data) else 105)
    if start == 105 and place >= 4:
        return NO_PACK
    return malformed(start)


# how many bundles have a line moved
MOVED = 30


def drawn(random):
    """Some commits, tags, names and border commits, all of them reached."""
    r = Repository(random.choice(("sha1", "sha1", "sha256")))
    commits = []
    for number in range(random.randint(1, 5)):
        shallow = random.random() < 0.3
        parents = ["f" * DIGITS[r.hash]] if shallow else random.sample(commits, min(len(commits), random.randint(0, 2)))
        commits.append(r.commit("c%d" % number, *parents))
        r.border += [commits[-1]] if shallow else []
    for number, commit in enumerate(commits):
        r.ref("refs/heads/%s%d" % (random.choice("abxy"), number), commit)
    for number in range(random.randint(0, 2)):
        r.ref("refs/tags/v%d" % number, r.tag("v%d" % number, random.choice(commits)))
    for name in random.sample(("HEAD", "refs/remotes/o/HEAD", "refs/heads/Z"), random.randint(0, 3)):
        r.ref(name, random.choice(sorted(r.refs)) if random.random() < 0.7 else "refs/heads/absent")
    return r


def misplaced(lines):
    """Where the first line stands that may not come next, or the length where one is missing; None where all may stand."""
    state, last, place = "bundle", b"", 0
    for text in lines:
        words = text[4:].split(b" ")
        if state == "bundle" and text[4:] == b"bundle 1\n":
            state = "hash"
        elif state == "hash" and words[0] == b"hash":
            state = "ref"
        elif state == "ref" and words[0] == b"ref" and words[2] > last:
            last = words[2]
        elif state in ("ref", "border") and words[0] == b"border" and (state == "ref" or words[1] > last):
            state, last = "border", words[1]
        elif state in ("ref", "border") and text == b"0001":
            state = "pack"
        elif state == "pack" and text not in (b"0000", b"0001"):
            # whatever it says; behind one that is shorter than a whole piece only the flush may stand
            state = "pack" if len(text) == PIECE + 4 else "flush"
        elif state in ("pack", "flush") and text == b"0000":
            state = "end"
        else:
            return place
        place += len(text)
    return None if state == "end" else place


def moves(rows):
    """Bundles of which one line goes to another place, or to its own."""
    for number in range(MOVED):
        random = Random("moved %d" % number)
        r = drawn(random)
        assert r.reached() == sorted(r.objects)
        text = r.text()
        places = lines_in(text)
        lines = [text[start:end] for start, end in zip(places, places[1:])]
        assert misplaced(lines) is None and places[-1] == len(text)
        at, to = random.randrange(len(lines)), random.randrange(len(lines))
        lines.insert(to, lines.pop(at))
        rows.row("random bundle %d, line %d at %d of %d" % (number, at, to, len(lines)))
        place = misplaced(lines)
        assert (place is None) == (b"".join(lines) == text)
        if place is None:
            rows.reads(text, r)
        else:
            rows.ask("read " + escaped(b"".join(lines)), malformed(place))


def files(rows):
    r, _ = first()
    old = Repository(tree=False)
    for call, told, names in ((1, old, ["a.bundle"]), (2, old, ["a.bundle", "a.bundle.lock"])):
        rows.row("call %d of the files fails" % call, r)
        rows.ask("fail %d" % call)
        rows.ask("put " + escaped(old.text()))
        rows.ask("save", "refused a call of the files failed")
        rows.ask("files", *("file " + name for name in names))
        rows.ask("load", *told.told())
        rows.ask("save", "saved")
        rows.ask("files", "file a.bundle")
        rows.ask("load", *r.told())
    rows.row("a loading fails", r)
    rows.ask("fail 2")
    rows.ask("save", "saved")
    rows.ask("load", "refused a call of the files failed")
    rows.ask("load", *r.told())
    rows.row("a file that is no bundle")
    rows.ask("put " + escaped(r.text()[:-4]))
    rows.ask("load", malformed(299))


def main(arguments: list[str]) -> int:
    rows = Rows()
    for part in (wholes, unwritable, refusals, pieces, moves, files):
        part(rows)
    lines = rows.asked if arguments == ["in"] else rows.answered
    sys.stdout.write("".join(text + "\n" for text in lines))
    return 0
