"""Writes the rows of serve_rows: `served-replies in` its stdin, `served-replies out` its stdout."""

import hashlib
import struct
import sys

CODES = {"commit": 1, "tree": 2, "blob": 3, "tag": 4}
LISTING = ("command=ls-refs", "symrefs", "peel")


def line(payload):
    return b"%04x" % (len(payload) + 4) + payload


def texts(*words):
    return b"".join(line(word.encode() + b"\n") for word in words)


def escaped(data):
    return "".join(chr(b) if 32 <= b < 127 and b != 37 else "%%%02X" % b for b in data)


FIRST = line(b"git-upload-pack /srv/a.git\0\0version=2\0")


class Repository:
    """Objects and references of one hash."""

    def __init__(self, hash_="sha1"):
        self.hash, self.objects, self.refs, self.lines = hash_, {}, {}, []
        if hash_ != "sha1":
            self.lines.append("hash " + hash_)
        self.tree = self.add("tree", b"")

    def name(self, kind, data):
        return hashlib.new(self.hash, b"%s %d\0" % (kind.encode(), len(data)) + data).hexdigest()

    def add(self, kind, data):
        id_ = self.name(kind, data)
        self.objects[id_] = (kind, data)
        self.lines.append("object %s %s" % (kind, escaped(data)))
        return id_

    def commit(self, message, seconds, *parents):
        text = "tree %s\n" % self.tree + "".join("parent %s\n" % parent for parent in parents)
        text += "author A <a@x> %d +0000\ncommitter A <a@x> %d +0000\n\n%s\n" % (seconds, seconds, message)
        return self.add("commit", text.encode())

    def line_of(self, count):
        ids = []
        for i in range(1, count + 1):
            ids.append(self.commit(str(i), i, *ids[-1:]))
        return ids

    def tag(self, name, target, kind="commit"):
        text = "object %s\ntype %s\ntag %s\ntagger A <a@x> 1 +0000\n\n%s\n" % (target, kind, name, name)
        return self.add("tag", text.encode())

    def ref(self, name, target):
        self.refs[name] = target
        self.lines.append("ref %s %s" % (name, target))

    # what an object leads to, without the parents of a commit of the border
    def links(self, id_, border):
        kind, data = self.objects[id_]
        if kind not in ("commit", "tag"):
            return []
        heads = [l.split(" ") for l in data.decode().split("\n\n")[0].split("\n")]
        words = ("tree", "object") if id_ in border else ("tree", "object", "parent")
        return [head[1] for head in heads if head[0] in words]

    def reached(self, starts, border):
        found, left = set(), [id_ for id_ in starts if id_ in self.objects]
        while left:
            id_ = left.pop()
            if id_ not in found:
                found.add(id_)
                left += self.links(id_, border)
        return found

    def peeled(self, id_):
        way = []
        while self.objects[id_][0] == "tag":
            way.append(id_)
            id_ = self.links(id_, ())[0]
        return id_, way

    def resolved(self, name):
        while name in self.refs and self.refs[name] in self.refs or self.refs.get(name, "").startswith("refs/"):
            name = self.refs[name]
        return self.refs.get(name)

    def heads(self, id_, word):
        lines = self.objects[id_][1].decode().split("\n\n")[0].split("\n")
        return [line_[len(word) + 1 :] for line_ in lines if line_.startswith(word + " ")]

    def parents(self, id_):
        return self.heads(id_, "parent")

    # the commits to which at most so many steps lead
    def led(self, starts, steps, limit=None):
        found, level = set(), [id_ for id_ in starts if self.objects[id_][0] == "commit"]
        while level and (limit is None or limit >= 0):
            found |= set(level)
            level = [to for id_ in level for to in steps(id_) if to not in found]
            limit = None if limit is None else limit - 1
        return found

    # what depth lines keep
    def kept(self, words, wants, border):
        asked = [word.split(" ") for word in words]
        roots, count = [self.peeled(id_)[0] for id_ in wants], dict(word for word in asked if len(word) == 2).get("deepen")
        if ["deepen-relative"] in asked:
            near = self.led(roots, lambda id_: [] if id_ in border else self.parents(id_))
            return near | self.led(near & set(border), self.parents, int(count))
        if count is not None:
            return self.led(roots, self.parents, int(count) - 1)
        since = max([0, *(int(word[1]) for word in asked if word[0] == "deepen-since")])
        rules = ("%s", "refs/%s", "refs/tags/%s", "refs/heads/%s", "refs/remotes/%s", "refs/remotes/%s/HEAD")
        full = {name if name.startswith("refs/") else rule % name for word, name in
                (word for word in asked if word[0] == "deepen-not") for rule in rules}
        left = self.led([self.peeled(self.resolved(name))[0] for name in full & set(self.offered())], self.parents)
        late = lambda id_: int(self.heads(id_, "committer")[0].split(" ")[-2]) >= since
        return self.led(roots, lambda id_: [to for to in self.parents(id_) if to not in left and late(to)])

    # the commits that come to the border, and those that leave it
    def moves(self, kept, border):
        whole = {id_ for id_ in kept if kept.issuperset(self.parents(id_))}
        return kept - whole - set(border), whole & set(border)

    # the reply to a request with depth lines
    def deepened(self, words, wants, haves=(), border=(), tags=False):
        kept = self.kept(words, wants, border)
        come, leave = self.moves(kept, border)
        starts = [*wants, *kept, *(to for id_ in leave for to in self.parents(id_))]
        needed = self.reached(starts, (set(border) | come) - leave) - self.reached(haves, border)
        lines = ["shallow " + id_ for id_ in sorted(come)] + ["unshallow " + id_ for id_ in sorted(leave)]
        return texts("shallow-info", *lines) + b"0001" + self.reply(needed | self.along(needed, tags))

    # ---- replies

    def greeting(self):
        return texts("version 2", "ls-refs=unborn", "fetch=shallow plain-pack plain-pack-2", "object-format=" + self.hash) + b"0000"

    def offered(self):
        names = sorted(name for name in self.refs if name.startswith("refs/"))
        return (["HEAD"] if "HEAD" in self.refs else []) + names

    def listing(self, unborn=False, prefixes=()):
        text = b""
        for name in self.offered():
            if prefixes and not any(name.startswith(prefix) for prefix in prefixes):
                continue
            id_, target = self.resolved(name), self.refs[name]
            words = [id_ or "unborn", name]
            if id_ is None and not (unborn and name == "HEAD"):
                continue
            if target != id_:
                words.append("symref-target:" + target)
            if id_ and self.peeled(id_)[1]:
                words.append("peeled:" + self.peeled(id_)[0])
            text += texts(" ".join(words))
        return text + b"0000"

    def pack(self, ids, version=2):
        text = b"PLNP" + struct.pack(">II", version, len(ids))
        for id_ in sorted(ids):
            kind, data = self.objects[id_]
            text += bytes([CODES[kind]]) + struct.pack(">I" if version == 1 else ">Q", len(data))
            text += (b"" if version == 1 else bytes.fromhex(id_)) + data
        return text + hashlib.new(self.hash, text).digest()

    def served(self, wants, haves=(), border=(), tags=False):
        needed = self.reached(wants, border) - self.reached(haves, border)
        return needed | self.along(needed, tags)

    def along(self, needed, tags):
        along = set()
        if tags:
            for name in self.offered():
                if name.startswith("refs/tags/") and self.resolved(name):
                    last, way = self.peeled(self.resolved(name))
                    along |= set(way) if last in needed else set()
        return along

    def reply(self, ids, version=2):
        text = self.pack(ids, version)
        bands = [text[i : i + 65515] for i in range(0, len(text), 65515)]
        return texts("packfile") + b"".join(line(b"\x01" + band) for band in bands) + b"0000"

    def round(self, haves):
        known = ["ACK " + id_ for id_ in haves if id_ in self.objects]
        return texts("acknowledgments", *(known or ["NAK"])) + b"0000"

    # ---- requests

    def ask_refs(self, *words):
        return texts("command=ls-refs", "object-format=" + self.hash) + b"0001" + texts("symrefs", "peel", *words) + b"0000"

    def ask_pack(self, wants, haves=(), border=(), tags=False, done=True, version=2, depth=()):
        words = ["plain-pack-2" if version == 2 else "plain-pack"] + ["include-tag"] * tags
        words += ["shallow " + id_ for id_ in sorted(border)] + [*depth] + ["want " + id_ for id_ in wants]
        words += ["have " + id_ for id_ in haves] + ["done"] * done
        return texts("command=fetch", "object-format=" + self.hash) + b"0001" + texts(*words) + b"0000"


class Rows:
    """Rows, and their answers."""

    def __init__(self):
        self.asked, self.answered = [], []

    def row(self, about, repository, *more):
        self.asked += ["= serve " + about, *repository.lines, *more]
        self.answered.append("= serve " + about)

    def answer(self, *lines):
        self.answered += lines

    def ask(self, question, *answers):
        self.asked.append("? " + question)
        self.answer("? " + question, *answers)

    def gives(self, data):
        return "gives %d %s" % (len(data), escaped(data))

    def give(self, data, count=100000):
        self.ask("give %d" % count, self.gives(data))

    # a request, and the whole reply
    def talk(self, request, reply):
        self.ask("feed " + escaped(request), "turn Send")
        self.give(reply)

    def broken(self, request, place):
        self.ask("feed " + escaped(request), malformed(place), "turn Failed")


def malformed(place):
    return "refused malformed line at byte %d of the request" % place


def bytes_in(data):
    return "[%s]" % ", ".join(str(b) for b in data)


def id_in(id_):
    return "Sha%s(%s)" % ("1" if len(id_) == 40 else "256", bytes_in(bytes.fromhex(id_)))


def name_in(name):
    return "FullName { text: Text { bytes: %s } }" % bytes_in(name.encode())


def with_branch():
    """The empty tree, a commit, a branch and HEAD."""
    r = Repository()
    c1 = r.commit("one", 1)
    assert c1 == "bc6e39d85183dbf480419262896d4ffa452774ab"
    r.ref("refs/heads/main", c1)
    r.ref("HEAD", "refs/heads/main")
    return r, c1


def conversations(rows):
    r, c1 = with_branch()
    fetch, reply = r.ask_pack([c1]), r.reply(r.served([c1]))
    assert len(r.greeting()) == 102 and len(r.listing(prefixes=["refs/heads/"])) == 65
    assert len(fetch) == 125 and len(reply) == 212
    rows.row("a greeting, a listing and a pack", r)
    rows.talk(FIRST, r.greeting())
    rows.ask("feed ", "turn Receive")
    rows.talk(r.ask_refs("unborn", "ref-prefix refs/heads/"), r.listing(True, ["refs/heads/"]))
    rows.talk(fetch, reply)
    rows.row("requests in one piece, and bytes that are sent a few at a time", r)
    rows.ask("feed " + escaped(FIRST + r.ask_refs() + fetch[:40]), "turn Send")
    rows.give(r.greeting()[:100], 100)
    rows.ask("copy")
    rows.give(r.greeting()[100:] + r.listing())
    rows.ask("feed " + escaped(fetch[40:]), "turn Send")
    rows.give(b"", 0)
    rows.give(reply)
    rows.ask("fresh")
    rows.talk(FIRST, r.greeting())
    rows.row("a version of the pack without ids", r)
    rows.talk(FIRST + r.ask_pack([c1], version=1), r.greeting() + r.reply(r.served([c1]), 1))
    whole, given = FIRST + r.ask_refs("unborn") + fetch, r.greeting() + r.listing(True) + reply
    rows.row("any cut gives the same", r)
    rows.ask("bytes " + escaped(whole), rows.gives(given), "turn Receive")
    ends = [len(FIRST), len(FIRST) + len(r.ask_refs("unborn")), len(whole)]
    answers, before = [], 0
    answers = ["%d turn Receive" % ends[0], "%d turn Send" % (ends[2] + 1 - ends[0])]
    rows.ask("cuts " + escaped(whole), *answers, rows.gives(given))
    rows.ask("cuts " + escaped(FIRST), "%d turn Receive" % len(FIRST), "1 turn Send", rows.gives(r.greeting()))
    s = Repository("sha256")
    d1 = s.commit("one", 1)
    s.ref("refs/heads/main", d1)
    rows.row("ids of SHA-256", s)
    rows.talk(FIRST + s.ask_refs(), s.greeting() + s.listing())
    rows.talk(s.ask_pack([d1]), s.reply(s.served([d1])))
    rows.broken(s.ask_refs().replace(b"0019object-format=sha256", b"0017object-format=sha1"), 20)


def listings(rows):
    r, c1 = with_branch()
    rows.row("a symbolic reference", r)
    assert r.listing().startswith(b"0050%s HEAD symref-target:refs/heads/main\n003d" % c1.encode())
    rows.talk(FIRST + r.ask_refs(), r.greeting() + r.listing())
    rows.talk(r.ask_refs("ref-prefix HEAD", "ref-prefix refs/tags/"), r.listing(prefixes=["HEAD"]))
    rows.talk(r.ask_refs("ref-prefix refs/heads/z"), b"0000")
    r = Repository()
    r.ref("HEAD", "refs/heads/main")
    r.ref("refs/heads/other", "refs/heads/main")
    rows.row("an unborn HEAD", r)
    assert r.listing(True) == b"002eunborn HEAD symref-target:refs/heads/main\n0000"
    rows.talk(FIRST + r.ask_refs("unborn"), r.greeting() + r.listing(True))
    rows.talk(r.ask_refs(), b"0000")
    r, c1 = with_branch()
    v1 = r.tag("v1", c1)
    assert v1 == "e4b1957200d6af9735e74358ccde67fb1a0d6bc5" and len(r.objects[v1][1]) == 94
    r.ref("refs/tags/v1", v1)
    v2 = r.tag("v2", v1, "tag")
    r.ref("refs/tags/v2", v2)
    r.ref("refs/tags/newest", "refs/tags/v2")
    r.ref("ORIG_HEAD", c1)
    rows.row("tags are peeled, and names outside refs/ aren't offered", r)
    assert b"006a%s refs/tags/v1 peeled:%s\n" % (v1.encode(), c1.encode()) in r.listing()
    rows.talk(FIRST + r.ask_refs(), r.greeting() + r.listing())


def packs(rows):
    r, c1 = with_branch()
    v1 = r.tag("v1", c1)
    r.ref("refs/tags/v1", v1)
    reply = r.reply(r.served([c1], tags=True))
    assert b"013e\x01PLNP" in reply and len(r.pack(r.served([c1], tags=True))) == 313
    rows.row("a tag that leads into the pack", r)
    rows.talk(FIRST + r.ask_pack([c1], tags=True), r.greeting() + reply)
    rows.talk(r.ask_pack([c1]), r.reply([r.tree, c1]))
    rows.talk(r.ask_pack([v1]), r.reply([r.tree, c1, v1]))
    rows.talk(r.ask_pack([v1], [c1], tags=True), r.reply([v1]))
    c2 = r.commit("two", 2, c1)
    r.ref("refs/heads/main", c2)
    rows.row("a tag that leads to what the client has", r)
    rows.talk(FIRST + r.ask_pack([c2], [c1], tags=True), r.greeting() + r.reply([c2]))
    other = "f" * 40
    rows.row("a want that isn't offered", r)
    refusal = texts("ERR want %s not offered" % other)
    assert refusal[:4] == b"0042"
    rows.talk(FIRST + r.ask_pack([other]), r.greeting() + refusal)
    rows.talk(r.ask_pack([c2, other], done=False), refusal)
    rows.talk(r.ask_pack([r.tree]), texts("ERR want %s not offered" % r.tree))
    rows.talk(r.ask_pack([c2, c1, v1]), r.reply([r.tree, c1, c2, v1]))
    r = Repository()
    c = r.line_of(20)
    assert c[4] == "dff3357db54cedd33248fd85de3ee6e038bff66e"
    r.ref("refs/heads/main", c[19])
    window = [c[i] for i in range(9, -1, -1)]
    reply = r.reply(r.served([c[19]], window))
    assert r.served([c[19]], window) == set(c[10:]) and b"0719\x01" in reply and len(r.pack(c[10:])) == 1812
    rows.row("what the client has stays out", r)
    rows.talk(FIRST + r.ask_pack([c[19]], window), r.greeting() + reply)
    haves = [c[4], other, c[9]]
    rows.talk(r.ask_pack([c[19]], haves, done=False), r.round(haves))
    rows.talk(r.ask_pack([c[19]], [other], done=False), texts("acknowledgments", "NAK") + b"0000")
    rows.talk(r.ask_pack([c[19]], done=False), texts("acknowledgments", "NAK") + b"0000")
    rows.talk(r.ask_pack([c[19]], [c[19]]), r.reply([]))


def borders(rows):
    r = Repository()
    c = r.line_of(5)
    side = r.commit("side", 6, c[1])
    r.ref("refs/heads/main", c[4])
    r.ref("refs/heads/side", side)
    rows.row("what lies behind the client's border is needed", r)
    rows.talk(FIRST + r.ask_pack([c[4]], [c[3]], [c[2]]), r.greeting() + r.reply([c[4]]))
    assert r.served([side], [c[3]], [c[2]]) == {side, c[1], c[0]}
    rows.talk(r.ask_pack([side], [c[3]], [c[2]]), r.reply([side, c[1], c[0]]))
    rows.talk(r.ask_pack([c[4]], [], [c[2]]), r.reply([c[4], c[3], c[2], r.tree]))


def depths(rows):
    r = Repository()
    c = r.line_of(5)
    assert c[3] == "2a3a2b1a0f866cf1ed79e2d4f8b8c0e71f708e66"
    r.ref("refs/heads/main", c[4])
    r.ref("refs/heads/old", c[1])
    r.ref("refs/remotes/origin/HEAD", c[2])

    def talk(about, words, expected, haves=(), border=(), wants=(c[4],), tags=False):
        rows.row(about, r)
        assert r.moves(r.kept(words, wants, border), border) == tuple(map(set, expected)), about
        rows.talk(FIRST + r.ask_pack(wants, haves, border, tags, depth=words), r.greeting() + r.deepened(words, wants, haves, border, tags))

    two = texts("shallow-info", "shallow " + c[3]) + b"0001"
    assert two.startswith(b"0011shallow-info\n0035shallow ") and r.deepened(["deepen 2"], [c[4]]) == two + r.reply([c[3], c[4], r.tree])
    assert b"01a0\x01" in r.deepened(["deepen 2"], [c[4]]) and len(r.pack([c[3], c[4], r.tree])) == 411
    talk("a clone of two commits", ["deepen 2"], ([c[3]], []))
    talk("a clone of one commit", ["deepen 1"], ([c[4]], []))
    talk("a clone deeper than the history", ["deepen 9"], ([], []))
    talk("a clone of all but the first commit's parents", ["deepen 5"], ([], []))
    shallow = dict(haves=[c[4]], border=[c[3]])
    talk("a history that is deepened", ["deepen 4"], ([c[1]], [c[3]]), **shallow)
    talk("a history that is as deep", ["deepen 2"], ([], []), **shallow)
    talk("a history that is made shorter", ["deepen 1"], ([c[4]], []), **shallow)
    talk("a history that is made whole", ["deepen 2147483647"], ([], [c[3]]), **shallow)
    talk("a history that is deepened by one commit", ["deepen 1", "deepen-relative"], ([c[2]], [c[3]]), **shallow)
    talk("a history that is deepened by none", ["deepen 0", "deepen-relative"], ([], []), **shallow)
    talk("a history that is deepened to its beginning", ["deepen 3", "deepen-relative"], ([], [c[3]]), **shallow)
    talk("a depth from a border that the wants don't lead to", ["deepen 1", "deepen-relative"], ([], []), [], [c[4]], [c[1]])
    talk("a time that a commit has", ["deepen-since 4"], ([c[3]], []))
    talk("a time later than all commits", ["deepen-since 6"], ([c[4]], []))
    talk("the greatest time", ["deepen-since 18446744073709551615"], ([c[4]], []))
    talk("no time", ["deepen-since 0"], ([], []))
    talk("a time for a border", ["deepen-since 3"], ([c[2]], [c[3]]), **shallow)
    talk("a name whose history is left out", ["deepen-not refs/heads/old"], ([c[2]], []))
    talk("a short name", ["deepen-not old"], ([c[2]], []))
    talk("a short name of a remote", ["deepen-not origin"], ([c[3]], []))
    talk("two names", ["deepen-not old", "deepen-not remotes/origin/HEAD"], ([c[3]], []))
    talk("a name of nothing", ["deepen-not none"], ([], []))
    talk("a name that the want has", ["deepen-not main"], ([c[4]], []))
    talk("a time and a name", ["deepen-since 2", "deepen-not origin"], ([c[3]], []))
    rows.row("a depth before the client is done", r)
    rows.talk(FIRST + r.ask_pack([c[4]], [c[0]], done=False, depth=["deepen 2"]), r.greeting() + r.round([c[0]]))
    rows.talk(r.ask_pack(["f" * 40], depth=["deepen 2"]), texts("ERR want %s not offered" % ("f" * 40)))
    rows.row("a border without depth lines", r)
    rows.talk(FIRST + r.ask_pack([c[4]], [c[4]], [c[3]]), r.greeting() + r.reply([]))
    v1 = r.tag("v1", c[4])
    r.ref("refs/tags/v1", v1)
    talk("a tag at a depth", ["deepen 1"], ([c[4]], []), wants=[v1])
    talk("a tag that comes along at a depth", ["deepen 1"], ([c[4]], []), tags=True)
    talk("a name of a tag", ["deepen-not v1"], ([c[4]], []))
    side = r.commit("side", 3, c[1])
    top = r.commit("top", 9, c[4], side)
    r.ref("refs/heads/top", top)
    talk("a merge at a depth", ["deepen 3"], ([c[3], c[1]], []), wants=[top])
    r.ref("refs/heads/side", side)
    talk("two parts of a history", ["deepen 1"], ([c[4], side], []), wants=[c[4], side])


def depth_lines(rows):
    r, c1 = with_branch()
    fetch = texts("command=fetch", "object-format=sha1") + b"0001" + texts("plain-pack-2")
    want = "want " + c1
    for words in (
        ["deepen 01"], ["deepen "], ["deepen -1"], ["deepen 4294967296"], ["deepen 1", "deepen 2"], ["deepen-relative"],
        ["deepen 0", want], ["deepen 1", "deepen-relative", "deepen-relative"], ["deepen 1", "deepen-since 1"],
        ["deepen-since 01"], ["deepen-since 18446744073709551616"], ["deepen-since 1", "deepen-since 1"],
        ["deepen-not a", "deepen-since 1"], ["deepen-not a..b"], ["deepen-not "], ["deepen-not a", "deepen 1"],
        ["deepen-not a", "include-tag"], ["deepen 1", "shallow " + c1], [want, "deepen 1"],
    ):
        rows.row("behind %s may stand no %s" % (words[:-1] or "the version", words[-1]), r)
        rows.talk(FIRST, r.greeting())
        rows.broken(fetch + texts(*words), len(fetch) + len(texts(*words[:-1])))
    rows.row("a depth is no whole request", r)
    rows.talk(FIRST, r.greeting())
    rows.broken(fetch + texts("deepen 1") + b"0000", len(fetch) + len(texts("deepen 1")))


def bands(rows):
    r = Repository()
    blob = r.add("blob", b"b" * 70000)
    r.ref("refs/tags/blob", blob)
    rows.row("a pack in two bands", r)
    rows.talk(FIRST + r.ask_pack([blob]), r.greeting() + r.reply([blob]))


def refusals(rows):
    r, c1 = with_branch()
    rows.row("what may never stand", r)
    rows.broken(b"0003", 0)
    rows.broken(FIRST, 0)
    rows.ask("copy")
    rows.broken(b"", 0)
    rows.give(b"")
    rows.row("a flush is no request", r)
    rows.broken(b"0000", 0)
    rows.row("a first line without its version", r)
    rows.broken(line(b"git-upload-pack /srv/a.git\0"), 0)
    rows.row("a second first line", r)
    rows.ask("feed " + escaped(FIRST), "turn Send")
    rows.broken(FIRST, 0)
    rows.give(r.greeting())
    rows.row("a request before the first line", r)
    rows.broken(r.ask_refs(), 0)
    request = r.ask_refs("unborn", "ref-prefix refs/heads/")
    places = (0, 20, 43, 47, 59, 68, 79)
    for place in places:
        rows.row("a line that may not stand at %d" % place, r)
        rows.talk(FIRST + r.ask_refs(), r.greeting() + r.listing())
        rows.ask("feed " + escaped(request[:place]), "turn Receive")
        rows.broken(request[place : place + 2] + b"zz", place)
    rows.row("a delimiter in place of a word", r)
    rows.talk(FIRST, r.greeting())
    rows.broken(request[:20] + b"0001" + request[43:], 20)
    fetch = texts("command=fetch", "object-format=sha1") + b"0001" + texts("plain-pack-2")
    want = texts("want " + c1)
    for about, words in (
        ("an agent", texts("agent=a")),
        ("no want", b"0000"),
        ("a have before the wants", texts("have " + c1)),
        ("a want that comes twice", want + want),
        ("a have that comes twice", want + texts("have " + c1) * 2),
        ("a border that falls", texts("shallow " + c1, "shallow " + "0" * 40)),
        ("an id of another hash", texts("want " + "0" * 64)),
        ("something behind done", want + texts("done", "done")),
        ("a tag word behind the wants", want + texts("include-tag")),
    ):
        rows.row(about + " is refused", r)
        ends = [i for i in range(len(words)) if words[i : i + 2] == b"00" and words[:i].endswith(b"\n")]
        rows.talk(FIRST, r.greeting())
        rows.broken(fetch + words, len(fetch) + (ends[-1] if ends else 0))
    listing = texts("command=ls-refs", "object-format=sha1") + b"0001" + texts("symrefs", "peel")
    rows.row("prefixes that fall are refused", r)
    rows.talk(FIRST, r.greeting())
    rows.broken(listing + texts("ref-prefix b", "ref-prefix a"), len(listing) + 17)
    rows.row("an empty prefix is refused", r)
    rows.talk(FIRST, r.greeting())
    rows.broken(listing + texts("ref-prefix "), len(listing))


def unservable(rows):
    r, c1 = with_branch()
    rows.row("a repository with a border", r, "border " + c1, "ref refs/heads/lost " + "1" * 40)
    rows.answer("refused a repository with a shallow border isn't served")
    other = "1" * 40
    rows.row("a wrong id", r, "under %s blob other" % other)
    rows.answer("refused the stored id %s isn't its object's hash" % id_in(other), "at " + other)
    r = Repository()
    c1 = r.commit("one", 1)
    tree = r.lines[0]
    r.lines = r.lines[1:]
    assert tree.startswith("object tree")
    rows.row("a link to what isn't stored", r)
    rows.answer("refused the stored object %s links to %s, which isn't stored" % (id_in(c1), id_in(r.tree)), "from " + c1, "to " + r.tree)
    r, c1 = with_branch()
    for about, name, more in (
        ("an id that isn't stored", "refs/heads/lost", ["ref refs/heads/lost " + other]),
        ("names in a circle", "refs/a/one", ["ref refs/a/one refs/a/two", "ref refs/a/two refs/a/one"]),
        ("six names", "refs/n/1", ["ref refs/n/%d refs/n/%d" % (i, i + 1) for i in range(1, 6)] + ["ref refs/n/6 " + c1]),
        ("an id that isn't stored, at a name that isn't offered", "LOST_HEAD", ["ref LOST_HEAD " + other]),
    ):
        rows.row(about, r, *more)
        rows.answer("refused the reference %s can't be served" % name_in(name), "at " + name)
    long = "refs/heads/" + "n" * (30000 - 11)
    r.ref(long, c1)
    rows.row("a name of 30,000 bytes", r)
    rows.talk(FIRST + r.ask_refs("ref-prefix refs/heads/n"), r.greeting() + r.listing(prefixes=["refs/heads/n"]))
    rows.row("a name of 30,001 bytes", r, "ref %sn %s" % (long, c1))
    rows.answer("refused the reference %s can't be served" % name_in(long + "n"), "at " + long + "n")


def peers(rows):
    r, c1 = with_branch()
    fetch, reply = r.ask_pack([c1]), r.reply(r.served([c1]))
    rows.row("a peer", r)
    rows.ask("receive 10", rows.gives(b""))
    rows.ask("send " + escaped(FIRST), "sent")
    rows.ask("receive 100", rows.gives(r.greeting()[:100]))
    rows.ask("receive 0", rows.gives(b""))
    rows.ask("receive 100", rows.gives(r.greeting()[100:]))
    rows.ask("send " + escaped(fetch[:50]), "sent")
    rows.ask("receive 100", rows.gives(b""))
    rows.ask("send " + escaped(fetch[50:]), "sent")
    rows.ask("receive 1000", rows.gives(reply))
    rows.ask("fresh")
    rows.ask("send " + escaped(FIRST + r.ask_refs() + b"zzzz" + fetch), "failed")
    rows.ask("receive 1000", rows.gives(r.greeting() + r.listing()))
    rows.ask("send " + escaped(fetch), "failed")
    rows.ask("receive 1000", rows.gives(b""))


def main(arguments: list[str]) -> int:
    rows = Rows()
    for part in (conversations, listings, packs, borders, depths, depth_lines, bands, refusals, unservable, peers):
        part(rows)
    lines = rows.asked if arguments == ["in"] else rows.answered
    sys.stdout.write("".join(text + "\n" for text in lines))
    return 0
