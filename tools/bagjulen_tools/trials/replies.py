"""Replies of real `git upload-pack` and of the engine's server to the same request, and where the two differ.

Each reason is named by its title in docs/DIFFERENCES.md.
"""

from dataclasses import dataclass, field

from bagjulen_tools.formats.links import reached, tags_from
from bagjulen_tools.formats.plainpack import MalformedPack, Object, read_pack, write_pack
from bagjulen_tools.protocol.depth import History, named
from bagjulen_tools.protocol.lines import MalformedLine, Mark, placed_lines, text_of
from bagjulen_tools.trials.served import Fetch

CHAIN = "A chain of names"
NOT_OFFERED = "A want that isn't offered"
READY = "An end of the rounds"
NO_HAVES = "A request without haves"
EMPTY_INFO = "An empty `shallow-info`"
AGAIN = "Objects that come again"
END = "A commit at the depth"
FAR = "A border that the wants don't lead to"
OUTSIDE = "A want outside the limits"
BEHIND = "Commits behind the border"
LEAVES = "A commit that leaves the border"
NO_DEPTH = "A depth that Git refuses"
REASONS = (CHAIN, NOT_OFFERED, READY, NO_HAVES, EMPTY_INFO, AGAIN, END, FAR, OUTSIDE, BEHIND, LEAVES, NO_DEPTH)
# What Git says of depth lines that it refuses.
REFUSED_DEPTHS = ("Invalid deepen", "ambiguous deepen-not", "no commits selected for shallow requests")
ACKNOWLEDGED, SHALLOW, PACK, LAST = "acknowledgments", "shallow-info", "packfile", "ready"
NONE = "NAK"
PACK_WORDS = (b"plain-pack", b"plain-pack-2")


@dataclass
class Reply:
    """What a reply to a fetch request says. What isn't there is None; `error` is the text of a refusal.

    `is_whole` says whether it ends where its grammar lets it, and `pack` is the text of the pack.
    """

    error: str | None = None
    acknowledged: list[str] | None = None
    is_ready: bool = False
    border: list[str] | None = None
    pack: bytes | None = None
    is_whole: bool = False


@dataclass
class RequestContext:
    """A fetch request with the repository's objects, the ids that it offers, the client's objects, and the ids of references."""

    request: Fetch
    stored: dict[str, Object]
    offered: set[str]
    client: dict[str, Object] = field(default_factory=dict)
    references: dict[str, list[str]] = field(default_factory=dict)

    def known(self):
        """The haves that are stored, in the order of the request."""
        return [digits for digits in self.request.haves if digits in self.stored]

    def held(self):
        """What the client has by what it told."""
        return reached(self.stored, self.known(), self.request.border)

    def kept(self, history):
        """The commits that depth lines keep."""
        return history.kept(self.request.depth, self.request.wants, self.request.border, self._ids)

    def kept_by_git(self, history):
        """The same within limits, as Git has it."""
        return history.kept_by_git(self.request.depth, self.request.wants, self._ids)

    def sent_outside(self, border):
        """What Git sends of wants that are outside limits: all of their history up to its border."""
        if not self._is_limited():
            return set()
        history = History(self.stored)
        roots = {digits for digits in map(history.peeled, self.request.wants) if digits in history.parents}
        return reached(self.stored, roots - self.kept_by_git(history), border)

    def sent_behind(self, border):
        """What is sent here within limits although the wants don't lead to it over the border."""
        if not self._is_limited():
            return set()
        return reached(self.stored, self.kept(History(self.stored)), border) - reached(self.stored, self.request.wants, border)

    def of_left(self, lines):
        """What commits lead to that leave the border. Git takes it that the client has them."""
        return reached(self.stored, set(self.request.border) - self.border(lines), self.request.border)

    def _is_limited(self):
        return self.request.depth is not None and self.request.depth.deepen is None

    def _ids(self, name):
        """The ids of the references that a name stands for."""
        return [digits for full in named(name, self.references) for digits in self.references[full]]

    def border(self, lines):
        """The border that the client has behind these lines."""
        moved = [line.split(" ") for line in lines or []]
        come, left = ({digits for word, digits in moved if word == kind} for kind in ("shallow", "unshallow"))
        return (set(self.request.border) | come) - left


def read_reply(said):
    """The reply that bytes are."""
    reply, part = Reply(), None
    for _, line in placed_lines(said):
        if isinstance(line, Mark):
            reply.is_whole, part = line is Mark.FLUSH, None
        elif part == PACK:
            reply.pack += line[1:] if line[:1] == b"\1" else b""
        elif part is None:
            part = _begin(reply, text_of(line))
        elif part == SHALLOW:
            reply.border.append(text_of(line))
        elif text_of(line) == LAST:
            reply.is_ready = True
        elif text_of(line) != NONE:
            reply.acknowledged.append(text_of(line))
    return reply


def _begin(reply, text):
    """The part that a line begins."""
    if text == ACKNOWLEDGED:
        reply.acknowledged = []
    elif text == SHALLOW:
        reply.border = []
    elif text == PACK:
        reply.pack = b""
    else:
        reply.error = text
    return text


def greetings(real, ours):
    """Where a greeting differs from that of Git, which may offer more."""
    (version, *lines, flush), (first, *offers, last) = ([line for _, line in placed_lines(said)] for said in (real, ours))
    offered = dict(map(_offer, lines))
    more = [key for key, words in map(_offer, offers) if not words <= offered.get(key, set())]
    if more or (version, flush) != (first, last):
        yield f"the greeting: Git has {real}, the server {ours}", None


def _offer(line):
    """What a line of a greeting offers: a key, and the words of its value."""
    key, _, value = line.removesuffix(b"\n").partition(b"=")
    return key, set(value.split(b" "))


def listings(real, ours, references):
    """Where two listings differ, line by line."""
    if real == ours:
        return
    real, ours = ([line for _, line in placed_lines(said)] for said in (real, ours))
    if len(real) != len(ours):
        yield f"the listing: Git has {real}, the server {ours}", None
        return
    for one, other in zip(real, ours):
        if one != other:
            reason = CHAIN if _is_chain(one, other, references) else None
            yield f"a line of the listing: Git has {one}, the server {other}", reason


def _is_chain(real, ours, references):
    """Whether two lines are those of a reference that names another, which the second one tells, and leads on to a third."""
    if isinstance(real, Mark) or isinstance(ours, Mark):
        return False
    words, others = (each.removesuffix(b"\n").split(b" ") for each in (real, ours))
    name, way = words[1].decode(), []
    while references.get(name, "").startswith("@"):
        name = references[name][1:]
        way.append(name)
    told = [b"symref-target:" + each.encode() for each in way]
    return len(way) > 1 and told[-1] in words and [told[0] if word == told[-1] else word for word in words] == others


def fetches(real, ours, asked):
    """Where two replies to a fetch request differ, and what isn't right in that of the engine's server."""
    try:
        theirs, reply = read_reply(real), read_reply(ours)
    except MalformedLine as error:
        yield f"a line at {error.place} that is none", None
        return
    if reply.error is None and _is_refused_depth(theirs, asked):
        yield f"a depth: Git has {theirs.error}", NO_DEPTH
        yield from _own_parts(reply, asked)
        return
    if reply.error is not None or theirs.error is not None:
        yield from _errors(theirs, reply, asked)
        return
    if not reply.is_whole:
        yield "a reply without its flush", None
    yield from _parts(theirs, reply, asked)
    if asked.request.done:
        yield from _packs(theirs, reply, asked)


def _errors(theirs, reply, asked):
    """The first want that isn't offered is told. Git serves what is stored."""
    first = next((digits for digits in asked.request.wants if digits not in asked.offered), None)
    is_served = theirs.error is None and first in asked.stored
    is_refused = theirs.error is not None and "not our ref" in theirs.error
    reason = NOT_OFFERED if is_served or is_refused else NO_DEPTH if _is_refused_depth(theirs, asked) else None
    is_told = reply.error == f"ERR want {first} not offered"
    yield f"a want: Git has {theirs.error or 'a reply'}, the server {reply.error}", reason if is_told else None


def _is_refused_depth(theirs, asked):
    """Whether Git refuses the depth lines of a request."""
    return asked.request.depth is not None and theirs.error is not None and any(each in theirs.error for each in REFUSED_DEPTHS)


def _own_parts(reply, asked):
    """What isn't right in the shallow-info of the engine's server."""
    if asked.request.depth is None or not asked.request.done:
        return
    history = History(asked.stored)
    moves = history.moves(asked.kept(history), asked.request.border)
    if reply.border != moves:
        yield f"shallow-info: the server has {reply.border} in place of {moves}", None


def _moves(theirs, reply, asked):
    """Where the lines of shallow-info differ. Git's come in no order."""
    if theirs.border == [] and reply.border is None and asked.request.border:
        yield "Git writes an empty shallow-info", EMPTY_INFO
        return
    if not asked.request.done:
        return
    if asked.request.depth is None or theirs.border is None or reply.border is None:
        if theirs.border != reply.border:
            yield f"shallow-info: Git has {theirs.border}, the server {reply.border}", None
        return
    yield from _own_parts(reply, asked)
    history, told = History(asked.stored), set(theirs.border)
    kept = asked.kept(history)
    for line in sorted(told ^ set(reply.border)):
        whose = "Git" if line in told else "the server"
        yield f"shallow-info: {line} is told by {whose} alone", _why_moved(line, asked, history, kept, told)


def _why_moved(line, asked, history, kept, told):
    """The reason why one of the two moves a commit and the other doesn't."""
    digits, depth, border = line.split(" ")[1], asked.request.depth, asked.request.border
    if depth.deepen is None:
        return OUTSIDE if told == set(history.moves(asked.kept_by_git(history), border)) else None
    if depth.relative and not kept.issuperset(set(border) & history.parents.keys()):
        return FAR
    return END if digits in kept and kept.issuperset(history.parents[digits]) else None


def _parts(theirs, reply, asked):
    """Where the parts before the packs differ."""
    request = asked.request
    yield from _moves(theirs, reply, asked)
    if reply.is_ready or (reply.pack is None) == request.done or (reply.acknowledged is None) != request.done:
        yield f"parts that weren't asked for: {reply}", None
    if theirs.acknowledged is None and not request.done and not request.haves:
        yield "Git sends the pack at once", NO_HAVES
    elif theirs.acknowledged != reply.acknowledged:
        yield f"acknowledgments: Git has {theirs.acknowledged}, the server {reply.acknowledged}", None
    if theirs.is_ready and not request.done:
        yield "Git is ready, and sends the pack", READY


def _packs(theirs, reply, asked):
    """Where the objects of two packs differ, and what the client lacks behind that of the engine's server."""
    version, hash_name = PACK_WORDS.index(asked.request.version.encode()) + 1, asked.request.hash_name
    try:
        sent = {each.id: each for each in read_pack(reply.pack, hash_name)}
        real = {each.id for each in read_pack(theirs.pack, hash_name)}
    except MalformedPack as error:
        yield f"a pack that is malformed at {error}", None
        return
    if write_pack([sent[digits] for digits in sorted(sent)], version, hash_name) != reply.pack:
        yield "a pack that isn't its objects, each once, by ascending id", None
    stored = asked.client | sent
    lacking = reached(stored, [*asked.request.wants, *sent], asked.border(reply.border)) - stored.keys()
    if lacking:
        yield f"the client lacks {sorted(lacking)}", None
    if sent.keys() - real:
        more, left = sent.keys() - real, asked.of_left(reply.border)
        behind = left | _with_tags(asked, asked.sent_behind(asked.border(reply.border)))
        yield f"sent by the server alone: {sorted(more)}", LEAVES if more <= left else BEHIND if more <= behind else None
    if real - sent.keys():
        more, again = real - sent.keys(), _with_tags(asked, real & asked.held())
        outside = again | _with_tags(asked, real & asked.sent_outside(asked.border(theirs.border)))
        yield f"sent by Git alone: {sorted(more)}", AGAIN if more <= again else OUTSIDE if more <= outside else None


def _with_tags(asked, ids):
    """These ids, with the tags that come along with them."""
    ways = [tags_from(asked.stored, digits) for digits in asked.offered if asked.request.include_tag]
    return ids | {digits for way in ways if way[-1] in ids for digits in way}
