"""What the engine's server gives, by docs/FORMATS.md: which repositories it takes, and its replies."""

from dataclasses import dataclass, field
from functools import cached_property

from bagjulen_tools.formats.bundle import NAMES
from bagjulen_tools.formats.grammar import links_in
from bagjulen_tools.formats.plainpack import Object, object_id, write_pack
from bagjulen_tools.protocol.depth import History, named
from bagjulen_tools.protocol.lines import Mark, encoded, encoded_text, pieces
from bagjulen_tools.protocol.requests import (
    FirstLine,
    IncompleteRequest,
    ListingRequest,
    RefusedRequest,
    request_at,
)

BAND = 65_515
LONGEST_NAME = 30_000
GREETING = "version 2", "ls-refs=unborn", "fetch=shallow plain-pack plain-pack-2"


def said(*texts, last=(Mark.FLUSH,)):
    """Text lines, and what is behind them."""
    return b"".join(map(encoded, [*(encoded_text(text) + b"\n" for text in texts), *last]))


@dataclass
class State:
    """A repository. Its objects stand by their ids; a reference is an id, or `@` and a name."""

    hash_name: str = "sha1"
    objects: dict[str, Object] = field(default_factory=dict)
    references: dict[str, str] = field(default_factory=dict)
    border: list[str] = field(default_factory=list)

    def __post_init__(self):
        self._links = {digits: links_in(each, self.hash_name) for digits, each in self.objects.items()}

    def links(self, digits, border):
        """The ids that a stored object links to, parents of border commits aside."""
        found = self._links[digits]
        return found.others if digits in border else found.others + found.parents

    def reached(self, starts, border):
        """The stored ones of these ids, with all that they lead to and is stored."""
        found, rest = set(), list(starts)
        while rest:
            digits = rest.pop()
            if digits in self.objects and digits not in found:
                found.add(digits)
                rest += self.links(digits, border)
        return found

    def tags_from(self, digits):
        """The ids of the tags from an id on, and of what the last one leads to."""
        way = [digits]
        while way[-1] in self.objects and self.objects[way[-1]].kind == "tag":
            way += self.links(way[-1], ())
        return way

    @cached_property
    def history(self):
        """The commits with their parents."""
        return History(self.objects)

    def names(self):
        """The names, ascending."""
        return sorted(self.references, key=encoded_text)

    def end_of(self, name):
        """Where a reference leads to by names: an id; None at an absent name; `Cycle` or `Depth` where it leads nowhere."""
        met = []
        while len(met) < NAMES and name not in met:
            met.append(name)
            target = self.references.get(name)
            if target is None or target[0] != "@":
                return target
            name = target[1:]
        return "Cycle" if name in met else "Depth"

    def missing(self):
        """Each link to what isn't stored, once; of the border each id at which no commit is."""
        found = {}
        for digits in sorted(self.objects):
            found |= {(digits, link): None for link in self.links(digits, self.border) if link not in self.objects}
        absent = [digits for digits in sorted(self.border) if digits not in self.objects or self.objects[digits].kind != "commit"]
        return [*found, *((digits, digits) for digits in absent)]

    def misnamed(self):
        """The ids that aren't their objects' hashes, ascending."""
        return sorted(digits for digits, each in self.objects.items() if object_id(self.hash_name, each.kind, each.data) != digits)

    def trouble(self):
        """The name and the detail of what keeps it from being served, or None."""
        if self.border:
            return "ShallowServer", ()
        wrong = self.misnamed()
        if wrong:
            return "WrongId", (wrong[0],)
        missing = self.missing()
        if missing:
            return "NotClosed", missing[0]
        names = [name for name in self.names() if not self._is_servable(name)]
        return ("NotServable", (names[0],)) if names else None

    def _is_servable(self, name):
        target, end = self.references[name], self.end_of(name)
        if any(len(encoded_text(each)) > LONGEST_NAME for each in (name, target.removeprefix("@"))):
            return False
        return end is None or end in self.objects

    def offered(self):
        """Each name that is offered with its id, and what its tag leads to; None, where it leads to an absent name."""
        for name in self.names():
            if name == "HEAD" or name.startswith("refs/"):
                end = self.end_of(name)
                way = [] if end is None else self.tags_from(end)
                yield name, end, way


class Plainserver:
    """A server of a repository that can be served. It has heard nothing."""

    def __init__(self, state):
        self.state, self.pending, self.begun, self.refusal = state, b"", False, None

    def feed(self, piece):
        """What is given for a piece. A refusal stays."""
        if self.refusal is not None:
            return b""
        self.pending, given = self.pending + piece, []
        try:
            while True:
                asked, self.pending = request_at(self.pending, self.state.hash_name, self.begun)
                self.begun = True
                given.append(self.reply(asked))
        except IncompleteRequest:
            pass
        except RefusedRequest as refused:
            self.refusal = refused.args
        return b"".join(given)

    def reply(self, asked):
        """The reply to a request."""
        if isinstance(asked, FirstLine):
            return said(*GREETING, f"object-format={self.state.hash_name}")
        return self._listing(asked) if isinstance(asked, ListingRequest) else self._fetch(asked)

    def _listing(self, asked):
        lines = []
        for name, end, way in self.state.offered():
            is_under = not asked.prefixes or encoded_text(name).startswith(tuple(asked.prefixes))
            target = self.state.references[name]
            if is_under and (end is not None or asked.unborn and name == "HEAD"):
                symbolic = f" symref-target:{target[1:]}" if target[0] == "@" else ""
                lines.append(f"{end or 'unborn'} {name}{symbolic}" + (f" peeled:{way[-1]}" if len(way) > 1 else ""))
        return said(*lines)

    def _fetch(self, asked):
        offered = self._offered()
        ids = {digits for found in offered.values() for digits in found}
        for want in asked.wants:
            if want not in ids:
                return said(f"ERR want {want} not offered", last=())
        if not asked.done:
            known = [f"ACK {digits}" for digits in asked.haves if digits in self.state.objects]
            return said("acknowledgments", *(known or ["NAK"]))
        kept = self._kept(asked, offered)
        moves = self.state.history.moves(kept, asked.border)
        info = b"" if asked.depth is None else said("shallow-info", *moves, last=[Mark.DELIMITER])
        sent = [self.state.objects[digits] for digits in self._served(asked, kept, moves)]
        pack = write_pack(sent, asked.version, self.state.hash_name)
        return info + said("packfile", last=[*(b"\1" + piece for piece in pieces(pack, BAND)), Mark.FLUSH])

    def _offered(self):
        """The ids that each offered name has: its own, and what its tag leads to."""
        return {name: way[:1] + way[-1:] for name, _, way in self.state.offered() if way}

    def _kept(self, asked, offered):
        """The commits that depth lines keep."""
        if asked.depth is None:
            return set()

        def ids(name):
            return [digits for full in named(name, offered) for digits in offered[full]]

        return self.state.history.kept(asked.depth, asked.wants, asked.border, ids)

    def _served(self, asked, kept, moves):
        """The ids of the objects in a pack, ascending."""
        before = set(asked.border)
        come, left = ({line.split(" ")[1] for line in moves if line.startswith(word)} for word in ("shallow ", "unshallow "))
        parents = [parent for digits in left for parent in self.state.history.parents[digits]]
        wanted = self.state.reached([*asked.wants, *kept, *parents], (before | come) - left)
        needed = wanted - self.state.reached(asked.haves, before)
        tags = [way for name, _, way in self.state.offered() if name.startswith("refs/tags/") and len(way) > 1]
        along = [digits for way in tags if asked.include_tag and way[-1] in needed for digits in way[:-1]]
        return sorted(needed | set(along))
