"""Writes the rows of mirror_rows that are fetched from a server in memory: `served-fetches in` for its stdin, `served-fetches
out` for its stdout. What the server's script says is put together as the rows of serve_rows are, by `served-replies`; each
answer is written by hand from docs/SCENES.md.
"""

import sys

from bagjulen_tools.vectors.served_replies import Repository, escaped, line, texts, with_branch

MAIN, ORIGIN = "refs/heads/main", "refs/remotes/origin/main"
ALL = "+refs/heads/*:refs/remotes/origin/*"
NO_ID = "f" * 40


def payloads(text):
    """A text in pieces, a line each."""
    return b"".join(line(text[i : i + 65000]) for i in range(0, len(text), 65000))


def repository(r, directory, *more, border=()):
    """The lines of a repository and its objects, whose names are told in their order."""
    refs = ["ref %s %s" % ("@" + target if target.startswith("refs/") else target, name) for name, target in r.refs.items()]
    refs += ["border " + id_ for id_ in border]
    return texts("scene 1", "hash " + r.hash, "git-dir " + directory, *more[:1], *refs, *more[1:]) + b"0001" + payloads(r.pack(r.objects))


class Client:
    """A repository, and what it fetches."""

    def __init__(self, repository_=None, algorithm="noop", tags="none", spec=ALL, hash_="sha1", border=(), options=()):
        self.repository = repository_ or bare(hash_)
        self.algorithm, self.tags, self.spec = algorithm, tags, spec
        self.border, self.options = border, options

    def scene(self, *replies):
        config = ("config [fetch]", "config negotiationAlgorithm = " + self.algorithm)
        text = repository(self.repository, "/w/.git", "workdir /w", *config, border=self.border)
        options = ["option " + each for each in self.options]
        text += b"0001" + texts("remote /srv/a.git", "fetch " + self.spec, "tags " + self.tags, *options)
        return text + b"0001" + b"".join(payloads(reply) for reply in replies) + b"0000"


def bare(hash_="sha1"):
    """Nothing at all."""
    r = Repository(hash_)
    r.objects = {}
    return r


ROWS = []


def row(about, server, client, replies, *answer):
    """A row: what is fetched from, who fetches, what the server says, and what is told."""
    scene = client.scene(server.greeting(), *replies)
    given = b"= served %s\nscene %d\n%s\n" % (about.encode(), len(scene), scene)
    given += b"server %s\n" % escaped(repository(server, "/s.git") + b"0000").encode()
    ROWS.append((given, "= served %s\n%s" % (about, "".join(each + "\n" for each in answer))))


def ids(*objects):
    return ["id " + each for each in sorted(objects)]


def new(id_, zeros=40):
    """What is told of a branch that is new."""
    log = "log %s %s %s fetch: storing ref" % (ORIGIN, "0" * zeros, id_)
    return ["map 0 %s -> %s: new" % (MAIN, ORIGIN), "ref %s %s" % (id_, ORIGIN), log]


def wholes():
    r, c1 = with_branch()
    spec = "+%s:%s" % (MAIN, ORIGIN)
    replies = [r.listing(prefixes=["refs/heads/"]), r.reply(r.served([c1]))]
    assert [len(each) for each in replies] == [65, 212]
    row("one commit", r, Client(spec=spec), replies, *new(c1), *ids(r.tree, c1), "ok")
    s = Repository("sha256")
    d1 = s.commit("one", 1)
    s.ref(MAIN, d1)
    row("ids of SHA-256", s, Client(hash_="sha256"), [s.listing(), s.reply(s.served([d1]))], *new(d1, 64), *ids(s.tree, d1), "ok")
    row("a server of another hash", s, Client(), [s.listing()], "refused IncompatibleObjectHash sha1 sha256")
    held = Repository()
    held.commit("one", 1)
    held.ref(ORIGIN, c1)
    row("nothing is new", r, Client(held), [r.listing(prefixes=["refs/heads/"])], "map 0 %s -> %s: up-to-date" % (MAIN, ORIGIN),
        "ref %s %s" % (c1, ORIGIN), *ids(r.tree, c1), "ok")
    refusal = texts("ERR want %s not offered" % NO_ID)
    row("a want that isn't offered", r, Client(spec=NO_ID + ":refs/heads/lost"), [r.listing(), refusal],
        "refused ServerError want %s not offered" % NO_ID)


def tags():
    r, c1 = with_branch()
    v1 = r.tag("v1", c1)
    r.ref("refs/tags/v1", v1)
    replies = [r.listing(prefixes=["refs/heads/", "refs/tags/"]), r.reply(r.served([c1], tags=True))]
    row("a tag that leads into the pack", r, Client(tags="included"), replies, "map 0 %s -> %s: new" % (MAIN, ORIGIN),
        "map 1 refs/tags/v1 -> refs/tags/v1: new", *new(c1)[1:2], "ref %s refs/tags/v1" % v1, *new(c1)[2:], *ids(r.tree, c1, v1), "ok")
    row("all tags", r, Client(tags="all"), replies, "map 0 %s -> %s: new" % (MAIN, ORIGIN),
        "map 1 refs/tags/v1 -> refs/tags/v1: new", *new(c1)[1:2], "ref %s refs/tags/v1" % v1, *new(c1)[2:], *ids(r.tree, c1, v1), "ok")


def rounds():
    r, held = Repository(), Repository()
    c = r.line_of(20)
    r.ref(MAIN, c[19])
    held.line_of(10)
    held.ref(ORIGIN, c[9])
    replies = [r.listing(), r.reply(r.served([c[19]], c[:10]))]
    row("ten of twenty commits are held", r, Client(held, "consecutive"), replies, "map 0 %s -> %s: fast-forward" % (MAIN, ORIGIN),
        "ref %s %s" % (c[19], ORIGIN), "log %s %s %s fetch: fast-forward" % (ORIGIN, c[9], c[19]), *ids(r.tree, *c), "ok")
    r, held = Repository(), Repository()
    c = r.line_of(3)
    r.ref(MAIN, c[2])
    held.line_of(1)
    own = c[:1]
    for i in range(2, 22):
        own.append(held.commit("own %d" % i, i, own[-1]))
    held.ref("refs/heads/own", own[20])
    replies = [r.listing(), r.round([]), r.reply(r.served([c[2]], c[:1]))]
    row("a window of commits that the server doesn't have", r, Client(held, "consecutive"), replies, new(c[2])[0],
        "ref %s refs/heads/own" % own[20], *new(c[2])[1:], *ids(r.tree, *c, *own[1:]), "ok")
    r, held = Repository(), Repository()
    c = held.line_of(20)
    held.ref("refs/heads/own", c[19])
    r.line_of(10)
    other = r.commit("other", 11, c[9])
    r.ref(MAIN, other)
    window = c[:3:-1]
    assert len(window) == 16
    replies = [r.listing(), r.round(window), r.reply(r.served([other], c[4:10]))]
    row("a window in which the server has six", r, Client(held, "consecutive"), replies, new(other)[0],
        "ref %s refs/heads/own" % c[19], *new(other)[1:], *ids(r.tree, *c, other), "ok")


def depths():
    r, shallow = Repository(), Repository()
    c = r.line_of(5)
    r.ref(MAIN, c[4])
    r.ref("refs/heads/old", c[1])
    only_main = "+%s:%s" % (MAIN, ORIGIN)

    def cloned(about, option, words, border):
        come = c[c.index(border) :]
        replies = [r.listing(prefixes=["refs/heads/"]), r.deepened(words, [c[4]])]
        row(about, r, Client(spec=only_main, options=[option]), replies, *new(c[4]), "border " + border, *ids(r.tree, *come), "ok")

    cloned("a clone of two commits", "depth 2", ["deepen 2"], c[3])
    cloned("a clone of one commit", "depth 1", ["deepen 1"], c[4])
    cloned("a clone since a time", "since 3", ["deepen-since 3"], c[2])
    cloned("a clone without the history of a name", "not refs/heads/old", ["deepen-not refs/heads/old"], c[2])
    shallow.line_of(5)
    shallow.objects = {id_: each for id_, each in shallow.objects.items() if id_ in (r.tree, *c[3:])}
    shallow.ref(ORIGIN, c[4])

    def deepened(about, option, words, border):
        client = Client(shallow, spec=only_main, border=[c[3]], options=[option])
        replies = [r.listing(prefixes=["refs/heads/"]), r.deepened(words, [c[4]], border=[c[3]])]
        come, lines = (c[c.index(border) :], ["border " + border]) if border else (c, [])
        row(about, r, client, replies, "map 0 %s -> %s: up-to-date" % (MAIN, ORIGIN), "ref %s %s" % (c[4], ORIGIN), *lines,
            *ids(r.tree, *come), "ok")

    deepened("a history that is deepened", "depth 4", ["deepen 4"], c[1])
    deepened("a history that is deepened by one commit", "deepen 1", ["deepen 1", "deepen-relative"], c[2])
    deepened("a history that is made whole", "depth 2147483647", ["deepen 2147483647"], None)


def main(arguments: list[str]) -> int:
    for part in (wholes, tags, rounds, depths):
        part()
    is_in = arguments == ["in"]
    sys.stdout.buffer.write(b"".join(given if is_in else answer.encode() for given, answer in ROWS))
    return 0
