"""Writes the rows of clone_rows that are cloned from a server in memory, and those of refusals: `clones in` for its stdin,
`clones out` for its stdout. What a server's script says is put together as the rows of serve_rows are, by `served-replies`; each
answer is written by hand from the steps of a clone.
"""

import sys

from bagjulen_tools.vectors import served_fetches
from bagjulen_tools.vectors.served_replies import Repository, escaped, texts

MAIN, TREE = "refs/heads/main", "4b825dc642cb6eb9a060e54bf8d69288fbee4904"
HEADS, TAGS, ALL = "refs/heads/", "refs/tags/", "+refs/heads/*:refs/remotes/origin/*"
LISTED = ["HEAD", HEADS, TAGS]
ROWS = []


def row(about, *lines):
    """A row, a line that says nothing left out."""
    ROWS.append(["= clone " + about, *(each for each in lines if each), []])


def answer(*lines):
    ROWS[-1][-1] += lines


# ---- what servers say


def peer(*pieces):
    """What a peer says, in pieces."""
    return "\n".join(("adds " if i else "says ") + escaped(piece) for i, piece in enumerate(pieces))


def at_once(*replies):
    return peer(b"".join(replies))


def server(r, *more):
    text = served_fetches.repository(r, "/s.git", border=more)
    return "server " + escaped(text + b"0000")


def six(name):
    """The names that a short one may mean."""
    return [each % name for each in ("%s", "refs/%s", "refs/tags/%s", "refs/heads/%s", "refs/remotes/%s", "refs/remotes/%s/HEAD")]


# ---- what a clone leaves


def config(fetch, branch=None, hash_="sha1", tags=True):
    lines = ["[core]", "\tfilemode = true", "\tbare = false", "\tlogallrefupdates = true", "\tignorecase = false",
             "\tprecomposeunicode = false", "\trepositoryformatversion = %d" % (hash_ != "sha1"), '[remote "origin"]', "\turl = /srv/a.git"]
    lines += ["\tfetch = " + fetch] if fetch else []
    lines += [] if tags else ["\ttagOpt = --no-tags"]
    lines += ["[extensions]", "\tobjectformat = sha256"] if hash_ == "sha256" else []
    if branch:
        lines += ['[branch "%s"]' % branch, "\tremote = origin", "\tmerge = refs/heads/" + branch]
    return ["| " + each for each in lines]


def is_logged(name):
    return name == "HEAD" or name.startswith((HEADS, "refs/remotes/"))


def done(refs, ids, settings, border=()):
    """A clone that was done: HEAD and the references with what they have, and what is stored. A symbolic HEAD is logged with the id
    that it comes to."""
    lines, zeros = ["done"], "0" * len(next(iter(ids), TREE))
    for name in sorted(refs):
        to = refs[name]
        lines.append("ref %s %s" % ("@" + to if to.startswith("refs/") else to, name))
    for name in sorted(refs):
        to = refs.get(refs[name], refs[name])
        if is_logged(name) and not to.startswith("refs/"):
            lines.append("log %s %s %s clone: from /srv/a.git" % (name, zeros, to))
    lines += ["border " + id_ for id_ in sorted(border)] + ["id " + id_ for id_ in sorted(ids)]
    return lines + ["in memory", *settings]


def left(settings):
    """What a clone that is given up after success leaves."""
    return ["file /w/.git/config", *settings, "no file /w/config"]


GONE = ["no file /w/.git/config", "no file /w/config"]


# ---- clones from servers


def beside(about, r, says, *lines):
    """A row that is cloned from a script, and from a server in memory."""
    row("from a server: " + about, *lines, *says, server(r), "clone 1", "clone-from-server 1")


def same():
    answer("the same")


def branches():
    """Three commits, a branch at each, a tag at the first one and an annotated one at the second."""
    r = Repository()
    c = r.line_of(3)
    v2 = r.add("tag", b"object %s\ntype commit\ntag v2\ntagger A <a@x> 9 +0000\n\nv2\n" % c[1].encode())
    assert v2 == "c44184d742048704aaf4d44341609c8be1a28154"
    for name, id_ in (("heads/main", c[2]), ("heads/dev", c[1]), ("heads/next", c[0]), ("tags/v1", c[0]), ("tags/v2", v2)):
        r.ref("refs/" + name, id_)
    r.ref("HEAD", MAIN)
    return r, c, v2


def tracked(c, v2):
    """What all branches and tags are fetched as."""
    return {"refs/remotes/origin/HEAD": c[2], "refs/remotes/origin/dev": c[1], "refs/remotes/origin/main": c[2],
            "refs/remotes/origin/next": c[0], "refs/tags/v1": c[0], "refs/tags/v2": v2}


def wholes():
    r, c, v2 = branches()
    ids, wants = [r.tree, *c, v2], [c[1], c[2], c[0], v2]
    says = [at_once(r.greeting(), r.listing(prefixes=LISTED), r.reply(r.served(wants)))]
    whole = [done({"HEAD": MAIN, MAIN: c[2], **tracked(c, v2)}, ids, config(ALL, "main")), left(config(ALL, "main"))]
    beside("three branches and two tags", r, says)
    answer(*whole[0], *whole[1])
    same()
    beside("a branch that isn't the remote's HEAD", r, says, "ref dev")
    answer(*done({"HEAD": "refs/heads/dev", "refs/heads/dev": c[1], **tracked(c, v2)}, ids, config(ALL, "dev")))
    answer(*left(config(ALL, "dev")))
    same()
    beside("a name that the remote doesn't have", r, says, "ref nothing")
    answer("refused RefNameMissing nothing", *GONE)
    same()
    beside("an empty name is none, so all is cloned", r, says, "ref ")
    answer("refused Invalid", *whole[0], *whole[1])
    same()
    s = Repository("sha256")
    d = s.commit("1", 1)
    assert d == "814987aeeb2a6c38a0ad2487a0a78bb6f6b17276063cf2c10cd8b6bcdafcd6e2"
    s.ref(MAIN, d)
    s.ref("HEAD", MAIN)
    says = [at_once(s.greeting(), s.listing(prefixes=LISTED), s.reply(s.served([d])))]
    beside("ids of SHA-256", s, says)
    settings = config(ALL, "main", "sha256")
    answer(*done({"HEAD": MAIN, MAIN: d, "refs/remotes/origin/HEAD": d, "refs/remotes/origin/main": d}, [s.tree, d], settings))
    answer(*left(settings))
    same()
    e = served_fetches.bare()
    e.ref("HEAD", "refs/heads/trunk")
    beside("an empty repository", e, [at_once(e.greeting(), e.listing(True, LISTED))])
    settings = config(ALL, "trunk")
    answer(*done({"HEAD": "refs/heads/trunk", "refs/remotes/origin/HEAD": "refs/heads/trunk"}, [], settings), *left(settings))
    same()
    row("from a server: a repository that is shallow can't be served", server(r, c[0]), "clone-from-server 1")
    answer("unserved a repository with a shallow border isn't served")


def line():
    """Five commits, main at the last and old at the second."""
    r = Repository()
    c = r.line_of(5)
    r.ref(MAIN, c[4])
    r.ref("refs/heads/old", c[1])
    r.ref("HEAD", MAIN)
    return r, c


def depths():
    r, c = line()
    spec = "+refs/heads/main:refs/remotes/origin/main"
    settings = config(spec, "main")
    first = at_once(r.greeting(), r.listing(prefixes=["HEAD"]))

    def cloned(about, line_, words, border):
        says = [first, at_once(r.greeting(), r.listing(prefixes=LISTED), r.deepened(words, [c[4]]))]
        beside(about, r, says, line_)
        refs = {"HEAD": MAIN, MAIN: c[4], "refs/remotes/origin/HEAD": c[4], "refs/remotes/origin/main": c[4]}
        answer(*done(refs, [r.tree, *c[c.index(border) :]], settings, [border]), *left(settings))
        same()

    cloned("one commit", "depth 1", ["deepen 1"], c[4])
    cloned("two commits", "depth 2", ["deepen 2"], c[3])
    cloned("since a time", "since 3", ["deepen-since 3"], c[2])
    cloned("without the history of a name", "not refs/heads/old", ["deepen-not refs/heads/old"], c[2])
    old, spec = "refs/heads/old", "+refs/heads/old:refs/remotes/origin/old"
    says = [at_once(r.greeting(), r.listing(prefixes=six("old"))),
            at_once(r.greeting(), r.listing(prefixes=LISTED), r.deepened(["deepen 1"], [c[1], c[4]]))]
    beside("one commit of a name", r, says, "depth 1", "ref old")
    settings = config(spec, "old")
    refs = {"HEAD": old, old: c[1], "refs/remotes/origin/HEAD": c[4], "refs/remotes/origin/old": c[1]}
    answer(*done(refs, [r.tree, c[1], c[4]], settings, [c[1], c[4]]), *left(settings))
    same()
    says = [at_once(r.greeting(), r.listing(prefixes=six("nothing")))]
    beside("one commit of a name that the remote doesn't have", r, says, "depth 1", "ref nothing")
    answer("refused RefNameMissing nothing", *GONE)
    same()
    settings = config(None, tags=False)
    for about, revision in (("an id", c[1]), ("a full name", old)):
        says = [at_once(r.greeting(), r.listing(prefixes=[HEADS] if revision == old else []), r.deepened(["deepen 1"], [c[1]]))]
        beside("one commit of a revision, " + about, r, says, "depth 1", "revision " + revision)
        answer(*done({"HEAD": c[1]}, [r.tree, c[1]], settings, [c[1]]), *left(settings))
        same()
    says = [at_once(r.greeting(), r.listing(), texts("ERR want %s not offered" % c[2]))]
    beside("a revision that isn't offered", r, says, "depth 1", "revision " + c[2])
    answer("refused Fetch ServerError", *GONE)
    same()
    r, c, v2 = branches()
    says = [at_once(r.greeting(), r.listing(prefixes=["HEAD"])),
            at_once(r.greeting(), r.listing(prefixes=LISTED), r.deepened(["deepen 1"], [c[2], c[0], v2]))]
    beside("one commit, and one of each tag, which are all", r, says, "depth 1")
    settings = config("+refs/heads/main:refs/remotes/origin/main", "main")
    refs = {name: id_ for name, id_ in tracked(c, v2).items() if not name.endswith(("/dev", "/next"))}
    answer(*done({"HEAD": MAIN, MAIN: c[2], **refs}, [r.tree, *c, v2], settings), *left(settings))
    same()


# ---- refusals


def one():
    """A commit, main and HEAD."""
    r = Repository()
    c = r.commit("1", 1)
    assert c == "b7df324b914782edc5ffd45f934554aa6f407bc4"
    r.ref(MAIN, c)
    r.ref("HEAD", MAIN)
    return r, c


def one_done(r, c, spec=ALL, border=()):
    refs = {"HEAD": MAIN, MAIN: c, "refs/remotes/origin/HEAD": c, "refs/remotes/origin/main": c}
    return [*done(refs, [r.tree, c], config(spec, "main"), border), *left(config(spec, "main"))]


def broken_off():
    r, c = one()
    first = (r.greeting(), r.listing(prefixes=["HEAD"]))
    second = (r.greeting(), r.listing(prefixes=LISTED), r.deepened(["deepen 1"], [c]))
    peers = [peer(*first), peer(*first), peer(*second), peer(*first), peer(*second), peer(*first), peer(*second)]
    tries = ("RefMap", "PrepareFetch", "Fetch")
    spec = "+refs/heads/main:refs/remotes/origin/main"
    row("the interrupt says yes in the first listing, in the second and in the pack", "depth 1", "yes 1", "yes 5", "yes 10",
        *peers, "clone 4")
    answer(*("refused %s Interrupted" % each for each in tries), *one_done(r, c, spec))
    failing = {0: "fail peer 3", 2: "fail peer 2", 4: "fail peer 5"}
    row("a peer fails in the first listing, in the second and in the pack", "depth 1",
        *(each for i, said in enumerate(peers) for each in (said, failing.get(i))), "clone 4")
    answer("refused RefMap Transport", "refused PrepareFetch Transport", "refused Fetch Client", *one_done(r, c, spec))
    r, c = one()
    d = r.commit("2", 2, c)
    r.ref("refs/heads/dev", d)
    r.refs["HEAD"] = "refs/heads/dev"
    listing = r.listing(prefixes=["HEAD", HEADS])
    whole = peer(r.greeting(), listing, r.reply(r.served([d, c])))
    row("the interrupt says yes in the listing without the remote's HEAD", "spec refs/heads/main:refs/remotes/origin/HEAD", "yes 3",
        peer(r.greeting(), listing), whole, peer(r.greeting(), listing), whole, "clone 2")
    refs = {"HEAD": "refs/heads/dev", "refs/heads/dev": d, "refs/remotes/origin/HEAD": c, "refs/remotes/origin/dev": d,
            "refs/remotes/origin/main": c}
    answer("refused PrepareFetch Interrupted", *done(refs, [r.tree, c, d], config(ALL, "dev")), *left(config(ALL, "dev")))


def left_behind():
    r, c = one()
    s = Repository("sha256")
    d = s.commit("1", 1)
    s.ref(MAIN, d)
    s.ref("HEAD", MAIN)
    whole = at_once(r.greeting(), r.listing(prefixes=LISTED), r.reply(r.served([c])))
    row("the work trees can't be listed: what came stays, and isn't asked for again", "fail worktrees 0", whole,
        at_once(r.greeting(), r.listing(prefixes=LISTED)), "clone 2")
    answer("refused Fetch UpdateRefs", *one_done(r, c))
    row("another hash after what came stays", "fail worktrees 0", whole, at_once(s.greeting(), s.listing(prefixes=LISTED)), "clone 2")
    answer("refused Fetch UpdateRefs", "refused Fetch IncompatibleObjectHash", *GONE)
    other = at_once(s.greeting(), s.listing(prefixes=LISTED), s.reply(s.served([d])))
    row("the configuration can't be read and not be written for another hash", "fail files 16", "fail files 20", other, other, other,
        "clone 3")
    settings = config(ALL, "main", "sha256")
    answer("refused ReopenWithObjectHash Io", "refused ReopenWithObjectHash Io")
    answer(*done({"HEAD": MAIN, MAIN: d, "refs/remotes/origin/HEAD": d, "refs/remotes/origin/main": d}, [s.tree, d], settings))
    answer(*left(settings))
    shallow = texts("shallow-info", "shallow " + c) + b"0001" + r.reply([r.tree, c])
    row("a remote that is shallow is refused where the configuration says so", "override clone.rejectShallow=true",
        at_once(r.greeting(), r.listing(prefixes=LISTED), shallow), "clone 1")
    answer("refused Fetch RejectShallowRemote", *GONE)
    row("a remote that is shallow", at_once(r.greeting(), r.listing(prefixes=LISTED), shallow), "clone 1")
    answer(*one_done(r, c, border=[c]))


def names():
    r, c = one()
    row("a revision that the remote doesn't have", "revision refs/heads/nothing", at_once(r.greeting(), r.listing(prefixes=[HEADS])),
        "clone 1")
    answer("refused RevisionMissing refs/heads/nothing", *GONE)
    row("a revision that is no commit", "revision " + TREE, at_once(r.greeting(), r.listing(), r.reply([TREE])), "clone 1")
    answer("refused PeelRevision " + TREE, *GONE)
    row("a revision that doesn't come is a missing link", "revision " + c, at_once(r.greeting(), r.listing(), r.reply([TREE])), "clone 1")
    answer("refused Fetch Disconnected", *GONE)
    listing = texts("%s HEAD symref-target:refs/heads/a..b" % c, "%s %s" % (c, MAIN)) + b"0000"
    row("the remote's HEAD leads to no name: told by the first listing", "depth 1", at_once(r.greeting(), listing), "clone 1")
    answer("refused InvalidHeadRef refs/heads/a..b", *GONE)
    row("the remote's HEAD leads to no name: told after the fetch", at_once(r.greeting(), listing, r.reply([TREE, c])), "clone 1")
    answer("refused InvalidHeadRef refs/heads/a..b", *GONE)
    listing = texts("%s %s" % (c, MAIN), "%s short" % c) + b"0000"
    row("a reference without a full name", "depth 1", "ref short", at_once(r.greeting(), listing), "clone 1")
    answer("refused ReferenceName short", *GONE)
    listing = texts("%s refs/a" % c, "%s %s" % (c, MAIN), "%s refs/remotes/a" % c) + b"0000"
    row("a name that two references may have", "ref a", at_once(r.greeting(), listing), "clone 1")
    answer("refused RefNameAmbiguous a", "may be refs/a", "may be refs/remotes/a", *GONE)
    listing = texts("%s %s" % (c, MAIN), "%s refs/remotes/z" % c, "%s refs/z" % c) + b"0000"
    row("a name that two references may have: they are told as they are mapped", "ref z", at_once(r.greeting(), listing), "clone 1")
    answer("refused RefNameAmbiguous z", "may be refs/remotes/z", "may be refs/z", *GONE)
    row("a remote without an address", "closures nowhere", "clone 1")
    answer("refused Connect MissingUrl", *GONE)
    row("a remote that can't be saved", "closures unsaveable", "clone 1")
    answer("refused SaveConfig Save", *GONE)


# ---- ends


def ends():
    r, c = one()
    refusal = at_once(r.greeting(), texts("ERR no") + b"0000")
    whole = at_once(r.greeting(), r.listing(prefixes=LISTED), r.reply(r.served([c])))
    success = one_done(r, c)[: -len(left(config(ALL, "main")))]

    def ended(about, lines, said, told, gone, notes):
        row("on the host: " + about, *lines, said, "drop-on-host 1", "persist-on-host 1")
        isnt = "isn't there"
        answer(*told, "dropped", "made/.git/config " + (isnt if gone else "stands"), "made/notes " + (notes or isnt))
        answer(*told, "persisted " + ("nothing" if said == whole else "a repository"), "made/.git/config stands",
               "made/notes " + (notes or isnt))

    no = ["refused PrepareFetch ServerError"]
    ended("a free place after a refusal: a drop removes it", [], refusal, no, True, None)
    ended("a free place after success", [], whole, success, False, None)
    ended("a place with a file of its user's, after a refusal", ["used"], refusal, no, False, "stands")
    ended("a place with a file of its user's, after success", ["used"], whole, success, False, "stands")


def main(arguments: list[str]) -> int:
    for part in (wholes, depths, broken_off, left_behind, names, ends):
        part()
    is_in = arguments == ["in"]
    for first, *lines, told in ROWS:
        sys.stdout.write("".join(each + "\n" for each in ([first, *lines] if is_in else [first, *told])))
    return 0
