"""Pruning, and references that can't be written, by `git bagjulen fetch` beside Git's own."""

import os
import unittest

from bagjulen_tools.remote.prune import stale
from bagjulen_tools.repository.git import truth
from test_command import IS_BUILT, WithServer


class Chosen(unittest.TestCase):
    def test_truth_values(self) -> None:
        """As Git reads them, of the first key that stands."""
        for value in ("true", "TRUE", "yes", "on", "1", "-2", "1k", None):
            self.assertIs(truth({"a": value}, "a"), True, value)
        for value in ("false", "No", "off", "0", ""):
            self.assertIs(truth({"a": value, "b": "true"}, "a", "b"), False, value)
        self.assertIsNone(truth({}, "a"))

    def test_what_is_stale(self) -> None:
        one, two = "1" * 40, "2" * 40
        stands = {"refs/r/a": one, "refs/r/b": two, "refs/r/HEAD": "@refs/r/b", "refs/x/b": one, "HEAD": one}
        for specs, names in [
                (["refs/heads/*:refs/r/*"], ["refs/r/b"]), (["refs/heads/*:refs/r/*", "^refs/heads/b"], []),
                (["refs/heads/a:refs/r/b"], []), (["b:refs/x/b", "refs/heads/*"], ["refs/x/b"]), ([], [])]:
            self.assertEqual(sorted(stale(specs, {"refs/heads/a": one}, stands)), names)


@unittest.skipUnless(IS_BUILT, "the program isn't built")
class Pruned(WithServer):
    def setUp(self) -> None:
        """The branch `wt` goes, `wt/x` comes, and a tag goes."""
        super().setUp()
        self.work("branch", "wt")
        self.work("branch", "old")
        self.push()
        self.clients()
        self.work("branch", "-D", "wt", "old")
        self.work("tag", "-d", "v1")
        self.work("branch", "wt/x")
        self.commit("c5")
        self.push()

    def configure(self, *words: str) -> None:
        for client in ("theirs", "ours"):
            self.git(self.path(client), *words)

    def test_a_branch_in_the_way(self) -> None:
        """It refuses the one that it is in the way of, a night after the other, until it is pruned."""
        self.assertEqual(self.assert_alike(), 1)
        self.commit("c6")
        self.push()
        self.assertEqual(self.assert_alike("-v"), 1)
        self.assertEqual(self.assert_alike("--dry-run", "-p"), 0)
        self.assertEqual(self.assert_alike("-p"), 0)

    def test_a_head_that_led_to_it(self) -> None:
        """It is told that it leads nowhere now."""
        self.configure("remote", "set-head", "origin", "old")
        for words in (["fetch", "-p", "--dry-run"], ["fetch", "-p"]):
            theirs, ours = self.both(words)
            self.assertEqual(ours, theirs)
            self.assertRegex(ours[2], r"\(refs/remotes/origin/HEAD (has|will) become dangling\)")

    def test_configured(self) -> None:
        self.configure("config", "fetch.prune", "yes")
        self.configure("config", "remote.origin.prune", "off")
        self.assertEqual(self.assert_alike("origin", "main"), 0)
        self.configure("config", "--unset", "remote.origin.prune")
        self.assertEqual(self.assert_alike("--no-prune"), 1)
        self.configure("config", "fetch.pruneTags", "1")
        self.assertEqual(self.assert_alike(), 0)

    def test_a_reference_that_is_locked(self) -> None:
        for client in ("theirs", "ours"):
            open(self.path(f"{client}/.git/refs/remotes/origin/main.lock"), "w").close()
        (status, out, messages), ours = self.both(["fetch", "--prune"])
        self.assertEqual(ours, (status, out, messages.replace(self.path("theirs"), self.path("ours"))))
        self.assertEqual((status, self.state("ours")), (1, self.state("theirs")))

    def test_all_or_none(self) -> None:
        """Where one is in the way of another nothing moves, by either, and by Git its own word says so."""
        before = self.state("ours")
        theirs, ours = self.both(["fetch", "--atomic"])
        self.assertNotEqual(0, theirs[0])
        self.assertRegex(ours[2], r"\Afatal: [^\n]*refs/remotes/origin/wt/x[^\n]*\n\Z")
        self.assertEqual((ours[0], self.state("ours")[:3]), (128, before[:3]))
        self.assertEqual(self.state("theirs")[:3], before[:3])
        self.assertEqual(self.assert_alike("origin", "main"), 0)
        (status, out, messages), ours = self.both(
            ["fetch", "--atomic", "origin", "wt/x:refs/new", "wt/x:refs/remotes/origin/main"])
        self.assertEqual(ours, (1, out, messages.removesuffix("error: \n")))
        self.assertEqual((status, self.state("ours")), (1, self.state("theirs")))
        self.assertFalse(os.path.exists(self.path("ours/.git/refs/new")))
