"""What depth lines keep of a history, and what they change of a client's border."""

from dataclasses import dataclass, field

from bagjulen_tools.formats.grammar import DIGITS, links_in
from bagjulen_tools.formats.links import tags_from

HASHES = {count: name for name, count in DIGITS.items()}
# What a short name stands for.
RULES = ("{}", "refs/{}", "refs/tags/{}", "refs/heads/{}", "refs/remotes/{}", "refs/remotes/{}/HEAD")


@dataclass
class Depth:
    """How deep a history is to be: so many commits, from the border on where that is `relative`, or within limits."""

    deepen: int | None = None
    relative: bool = False
    since: int | None = None
    excluded: list[str] = field(default_factory=list)

    def words(self):
        """Its lines."""
        count = [] if self.deepen is None else [f"deepen {self.deepen}"]
        since = [] if self.since is None else [f"deepen-since {self.since}"]
        return [*count, *(["deepen-relative"] if self.relative else []), *since, *(f"deepen-not {name}" for name in self.excluded)]


def named(name, references):
    """The full names among the references that a name stands for, whole or short."""
    if name == "HEAD" or name.startswith("refs/"):
        return [name] if name in references else []
    return [full for full in (rule.format(name) for rule in RULES) if full in references]


class History:
    """Commits by id, with their parents and their times."""

    def __init__(self, objects):
        self.objects, self.parents, self.seconds = objects, {}, {}
        for digits, each in objects.items():
            if each.kind == "commit":
                links = links_in(each, HASHES[len(digits)])
                self.parents[digits], self.seconds[digits] = links.parents, links.seconds

    def peeled(self, digits):
        """What a tag leads to, and else the id itself."""
        return tags_from(self.objects, digits)[-1]

    def led(self, starts, steps, limit=None):
        """The commits to which steps lead from those of the starts, at most so many."""
        level = [digits for digits in starts if digits in self.parents]
        found, count = set(level), 0
        while level and (limit is None or count < limit):
            level = [to for digits in level for to in steps(digits) if to in self.parents and to not in found]
            found.update(level)
            count += 1
        return found

    def kept(self, depth, wants, border, ids):
        """The commits that are kept, where `ids` tells those of the references of a name."""
        roots = [self.peeled(digits) for digits in wants]
        if depth.relative:
            near = self.led(roots, lambda digits: [] if digits in border else self.parents[digits])
            return near | self.led(near & set(border), self.parents.get, depth.deepen)
        if depth.deepen is not None:
            return self.led(roots, self.parents.get, depth.deepen - 1)
        within = self._within(depth, ids)
        return self.led(roots, lambda digits: filter(within, self.parents[digits]))

    def kept_by_git(self, depth, wants, ids):
        """The same within limits, as Git has it: what the wants peel to is kept only where it is within them."""
        within = self._within(depth, ids)
        roots = [digits for digits in map(self.peeled, wants) if digits in self.parents and within(digits)]
        return self.led(roots, lambda digits: filter(within, self.parents[digits]))

    def _within(self, depth, ids):
        """Whether a commit is within the limits of a depth."""
        named_ids = [self.peeled(digits) for name in depth.excluded for digits in ids(name)]
        excluded, since = self.led(named_ids, self.parents.get), depth.since or 0
        return lambda digits: digits in self.parents and digits not in excluded and self.seconds[digits] >= since

    def moves(self, kept, border):
        """The lines of `shallow-info`: the kept commits that come to a border, and those that leave it."""
        whole = {digits for digits in kept if kept.issuperset(self.parents[digits])}
        come = sorted(kept - whole - set(border))
        return [f"shallow {digits}" for digits in come] + [f"unshallow {digits}" for digits in sorted(whole & set(border))]
