"""Where replies of real Git and of the engine's server differ, and the rows that ask the engine's server."""

import os
import tempfile
import unittest
from random import Random

from common import TOOLS
from bagjulen_tools.formats.links import links_of, reached
from bagjulen_tools.formats.plainpack import write_pack
from bagjulen_tools.protocol.depth import Depth, History, named
from bagjulen_tools.protocol.lines import Mark, encoded
from bagjulen_tools.trials.replies import (
    AGAIN,
    BEHIND,
    CHAIN,
    END,
    FAR,
    LEAVES,
    NOT_OFFERED,
    NO_DEPTH,
    NO_HAVES,
    OUTSIDE,
    READY,
    REASONS,
    RequestContext,
    fetches,
    greetings,
    listings,
)
from bagjulen_tools.trials.row_server import escaped, row_of
from bagjulen_tools.trials.served import Fetch, Growth, Maker
from bagjulen_tools.trouble import read_file


def said(*lines):
    """Lines with a flush."""
    return b"".join(map(encoded, [*lines, Mark.FLUSH]))


class Replies(unittest.TestCase):
    """A line of two commits, of which the client has the first one, with another object that nothing leads to."""

    def setUp(self):
        self.growth = Growth(Random("checks"), "sha1")
        self.first = self.growth.commit([])
        self.old = set(self.growth.objects)
        self.second = self.growth.commit([self.first])
        self.new = reached(self.growth.objects, [self.second]) - self.old
        self.other = self.growth.add("blob", b"other")

    def asked(self, haves=True, done=True, wants=None):
        stored, held = self.growth.objects, self.old if haves else set()
        request = Fetch("sha1", "plain-pack-2", False, [], [wants or self.second], [self.first] if haves else [], done)
        return RequestContext(request, stored, {self.second}, {digits: stored[digits] for digits in held})

    def pack(self, ids):
        return said(b"packfile\n", b"\1" + write_pack([self.growth.objects[digits] for digits in sorted(ids)], 2, "sha1"))

    def reasons(self, real, ours, asked=None):
        return [reason for _, reason in fetches(real, ours, asked or self.asked())]

    def test_a_pack_is_compared_by_its_objects(self):
        right = self.pack(self.new)
        self.assertEqual(self.reasons(right, right), [])
        self.assertEqual(self.reasons(self.pack(self.new | self.old), right), [AGAIN])
        for ours in (self.new - {self.second}, self.new | {self.other}):
            self.assertIn(None, self.reasons(right, self.pack(ours)))
        self.assertEqual(self.reasons(self.pack(self.new | {self.other}), right), [None])

    def test_a_pack_is_its_objects_by_ascending_id(self):
        twice = self.pack([*self.new, self.second])
        self.assertEqual(self.reasons(self.pack(self.new), twice), [None])

    def test_acknowledgments(self):
        known, none = (said(b"acknowledgments\n", line) for line in (f"ACK {self.first}\n".encode(), b"NAK\n"))
        asked = self.asked(done=False)
        self.assertEqual(self.reasons(known, known, asked), [])
        self.assertEqual(self.reasons(known, none, asked), [None])
        ready = known.removesuffix(b"0000") + b"000aready\n0001" + self.pack(self.new)
        self.assertEqual(self.reasons(ready, known, asked), [READY])
        self.assertEqual(self.reasons(self.pack(self.new), none, self.asked(haves=False, done=False)), [NO_HAVES])

    def test_wants(self):
        refused = said(f"ERR want {self.other} not offered\n".encode()).removesuffix(b"0000")
        self.assertEqual(self.reasons(self.pack([self.other]), refused, self.asked(wants=self.other)), [NOT_OFFERED])
        self.assertEqual(self.reasons(self.pack(self.new), refused), [None])

    def test_listings_and_greetings(self):
        direct, last, own = (said(f"{self.first} HEAD{each}\n".encode()) for each in (
            "", " symref-target:refs/heads/main", " symref-target:refs/heads/alias"))
        references = {"HEAD": "@refs/heads/alias", "refs/heads/alias": "@refs/heads/main", "refs/heads/main": self.first}
        self.assertEqual([reason for _, reason in listings(last, own, references)], [CHAIN])
        for ours in (direct, said()):
            self.assertIn(None, [reason for _, reason in listings(last, ours, references)])
        more, less = said(b"version 2\n", b"agent=git\n", b"fetch=shallow filter\n"), said(b"version 2\n", b"fetch=shallow\n")
        self.assertEqual((list(greetings(more, less)), [reason for _, reason in greetings(less, more)]), ([], [None]))

    def test_moves_of_the_border(self):
        stored, pack = self.growth.objects, self.pack(self.growth.objects.keys() - {self.other}).removesuffix(b"0000")
        moved = {word: said(b"shallow-info\n", *(f"{line}\n".encode() for line in lines)).removesuffix(b"0000") + b"0001" + pack + b"0000"
                 for word, lines in (("none", []), ("first", [f"shallow {self.first}"]), ("second", [f"shallow {self.second}"]))}
        asked = RequestContext(Fetch("sha1", "plain-pack-2", False, [], [self.second], [], True, Depth(deepen=2)), stored, {self.second})
        self.assertEqual(self.reasons(moved["none"], moved["none"], asked), [])
        self.assertEqual(self.reasons(moved["first"], moved["none"], asked), [END])
        self.assertIn(None, self.reasons(moved["none"], moved["first"], asked))
        self.assertIn(None, self.reasons(moved["second"], moved["second"], asked))
        asked.request.depth, asked.request.border = Depth(deepen=1, relative=True), [self.second]
        asked.request.wants = [self.first]
        self.assertEqual(self.reasons(moved["second"], moved["none"], asked), [FAR])
        self.assertEqual(self.reasons(said(b"ERR upload-pack: Invalid deepen: 0\n"), moved["none"], asked), [NO_DEPTH])

    def limited(self, ids, *moves):
        """A pack of these objects behind lines that move the border."""
        front = said(b"shallow-info\n", *(f"{move}\n".encode() for move in moves)).removesuffix(b"0000") + b"0001"
        return front + self.pack(ids)

    def test_limits(self):
        """Of a merge one parent is outside the limits, and one want is."""
        stored, third = self.growth.objects, self.growth.commit([])
        merge = self.growth.commit([self.first, third])
        request = Fetch("sha1", "plain-pack-2", False, [], [merge], [], True, Depth(excluded=["old"]))
        asked = RequestContext(request, stored, {merge, self.first}, references={"refs/heads/old": [self.first]})
        ours = self.limited(reached(stored, [merge, third], [merge]), f"shallow {merge}")
        real = self.limited(reached(stored, [merge], [merge]), f"shallow {merge}")
        self.assertEqual(self.reasons(real, ours, asked), [BEHIND])
        real = self.limited(reached(stored, [merge], [merge]) | {self.other}, f"shallow {merge}")
        self.assertEqual(self.reasons(real, ours, asked), [BEHIND, None])
        request.wants, asked.references = [self.second, third], {"refs/heads/old": [self.second]}
        asked.offered = set(request.wants)
        ours = self.limited(reached(stored, [self.second, third], [self.second]), f"shallow {self.second}")
        real = self.limited(reached(stored, [self.second, third]))
        self.assertEqual(self.reasons(real, ours, asked), [OUTSIDE, OUTSIDE])

    def test_what_leaves_the_border(self):
        """The first commit, which has no parents, leaves the border, and no have leads to it."""
        stored = self.growth.objects
        request = Fetch("sha1", "plain-pack-2", False, [self.first], [self.second], [], True, Depth(deepen=1, relative=True))
        asked = RequestContext(request, stored, {self.second})
        real, ours = (self.limited(ids, f"unshallow {self.first}") for ids in (self.new, self.new | self.old))
        self.assertEqual(self.reasons(ours, ours, asked), [])
        self.assertEqual(self.reasons(real, ours, asked), [LEAVES])

    def test_reasons_are_titles_of_the_documents(self):
        text = read_file(os.path.join(TOOLS, "..", "docs", "DIFFERENCES.md")).decode()
        for title in REASONS:
            self.assertIn(f"**{title}**", text)


class Depths(unittest.TestCase):
    """A line of four commits, with another on the second."""

    def setUp(self):
        growth = Growth(Random("depths"), "sha1")
        self.one = growth.commit([])
        self.two = growth.commit([self.one])
        self.three = growth.commit([self.two])
        self.four = growth.commit([self.three])
        self.side = growth.commit([self.two])
        self.tag = growth.tag("v1", self.four)
        self.history = History(growth.objects)

    def kept(self, depth, wants=None, border=(), ids=None):
        return self.history.kept(depth, wants or [self.four], border, lambda name: (ids or {}).get(name, []))

    def test_counts(self):
        self.assertEqual(self.kept(Depth(deepen=1), [self.tag]), {self.four})
        self.assertEqual(self.kept(Depth(deepen=2)), {self.four, self.three})
        self.assertEqual(self.kept(Depth(deepen=1, relative=True), border=[self.three]), {self.four, self.three, self.two})
        self.assertEqual(self.kept(Depth(deepen=0, relative=True), border=[self.three]), {self.four, self.three})

    def test_limits(self):
        since = self.history.seconds[self.three]
        self.history.seconds |= {self.one: since - 2, self.two: since - 1, self.four: since + 1}
        self.assertEqual(self.kept(Depth(since=since)), {self.four, self.three})
        self.assertEqual(self.kept(Depth(since=since + 9)), {self.four})
        self.assertEqual(self.kept(Depth(excluded=["side", "none"]), ids={"side": [self.side]}), {self.four, self.three})

    def test_moves(self):
        kept = {self.four, self.three}
        self.assertEqual(self.history.moves(kept, [self.four]), [f"shallow {self.three}", f"unshallow {self.four}"])
        self.assertEqual(self.history.moves({self.one}, []), [])

    def test_names(self):
        names = {"refs/heads/a": "", "refs/tags/a": "", "refs/remotes/a/HEAD": "", "HEAD": ""}
        self.assertEqual(named("a", names), ["refs/tags/a", "refs/heads/a", "refs/remotes/a/HEAD"])
        self.assertEqual((named("HEAD", names), named("refs/heads/b", names)), (["HEAD"], []))

    def test_lines(self):
        self.assertEqual(Depth(deepen=0, relative=True).words(), ["deepen 0", "deepen-relative"])
        self.assertEqual(Depth(since=1, excluded=["a", "b"]).words(), ["deepen-since 1", "deepen-not a", "deepen-not b"])


class Made(unittest.TestCase):
    def test_a_seed_makes_one_repository(self):
        rows = []
        for _ in range(2):
            with tempfile.TemporaryDirectory() as folder:
                maker = Maker(os.path.join(folder, "server.git"), "checks")
                made = maker.make()
                asked = maker.requests(maker.client(True))
                rows.append(sorted(row_of(made, [each.lines() for each in asked]).split(b"\n")))
        self.assertEqual(*rows)
        self.assertIn(b"= serve a repository", rows[0])

    def test_what_is_made_is_closed(self):
        growth = Growth(Random("closed"), "sha256")
        for _ in range(20):
            growth.commit(growth.commits[-2:])
        growth.tag("v1", growth.some("tree"))
        self.assertEqual({link for each in growth.objects.values() for link in links_of(each)} - growth.objects.keys(), set())

    def test_bytes_of_a_row(self):
        self.assertEqual(escaped(b"a b%\n\0\xff"), b"a b%25%0A%00%FF")


if __name__ == "__main__":
    unittest.main()
