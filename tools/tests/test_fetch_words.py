"""The words of `git bagjulen fetch` beside Git's own."""

import unittest

from bagjulen_tools.trouble import read_file
from test_command import IS_BUILT, WithServer


@unittest.skipUnless(IS_BUILT, "the program isn't built")
class Words(WithServer):
    def setUp(self) -> None:
        super().setUp()
        self.clients()
        self.move()

    def configure(self, *words: str) -> None:
        for client in ("theirs", "ours"):
            self.git(self.path(client), *words)

    def assert_refused(self, words: list[str], text: str) -> None:
        """By both, in the same line."""
        theirs, ours = self.both(["fetch", *words])
        self.assertEqual((theirs[0], ours[0]), (128, 128), words)
        for _, _, messages in (theirs, ours):
            self.assertIn(f"fatal: {text}\n", messages, words)

    def test_one_after_another(self) -> None:
        """FETCH_HEAD is emptied, or is added to, and a refmap leads elsewhere."""
        for words, status in [
                (["origin", "main"], 0), (["--append", "origin", "topic"], 0), (["-a", "origin", "nosuch"], 128),
                (["--refmap=refs/heads/*:refs/led/*", "origin", "side"], 0), (["--refmap=", "origin", "main"], 0),
                (["origin", "nosuch"], 128)]:
            self.assertEqual(self.assert_alike(*words), status)

    def test_words_for_what_is_done_anyway(self) -> None:
        words = ["-j", "4", "-4", "--no-auto-gc", "--no-auto-maintenance", "--no-recurse-submodules", "-k", "--no-filter"]
        self.assertEqual(self.assert_alike(*words), 0)
        self.assertEqual(self.assert_alike("-6", "-o", "text", "--server-option=more", "--upload-pack=git-upload-pack"), 0)

    def test_all_remotes(self) -> None:
        """One that can't be fetched from doesn't keep the others."""
        self.configure("remote", "add", "twin", self.server)
        self.configure("config", "remotes.both", "twin origin")
        self.assertEqual(self.assert_alike("--all"), 0)
        self.assertEqual(self.assert_alike("both"), 0)
        self.assertEqual(self.assert_alike("-q", "--multiple", "twin", "both"), 0)
        self.configure("remote", "set-url", "origin", "/nowhere")
        theirs, ours = self.both(["fetch", "--all"])
        self.assertEqual(ours[:2], theirs[:2])
        self.assertIn("error: could not fetch origin\n", ours[2])
        self.assertEqual(self.state("ours"), self.state("theirs"))

    def test_upstream(self) -> None:
        for words in (["origin", "topic"], ["origin"], ["origin", "main", "side"], ["origin", "tag", "v2"], [self.server, "side"]):
            self.assertEqual(self.assert_alike("--set-upstream", *words), 0)
            self.assertEqual(*(read_file(self.path(f"{each}/.git/config")) for each in ("ours", "theirs")))

    def test_refused(self) -> None:
        for words, text in [
                (["--all", "origin"], "fetch --all does not take a repository argument"),
                (["--all", "origin", "main"], "fetch --all does not make sense with refspecs"),
                (["--refmap=a:b"], "--refmap option is only meaningful with command-line refspec(s)"),
                (["--multiple", "nosuch"], "no such remote or remote group: nosuch")]:
            self.assert_refused(words, text)
        for word in ("--negotiation-tip=main", "--refetch", "--update-head-ok"):
            status, _, messages = self.run_git(self.path("ours"), "bagjulen", "fetch", word)
            name = word.partition("=")[0]
            self.assertEqual((status, messages), (128, f"fatal: {name} isn't supported by git bagjulen\n"))

    def test_refspecs_of_the_input(self) -> None:
        path = self.path("refspecs")
        with open(path, "w", encoding="utf-8") as file:
            file.write("main\ntopic:refs/heads/copied\n")
        for client, front in (("theirs", ""), ("ours", "bagjulen ")):
            alias = f"!git {front}fetch --stdin -q origin <{path}"
            self.git(self.path(client), "-c", f"alias.read={alias}", "read")
        self.assertEqual(self.state("ours"), self.state("theirs"))

    def test_tags_of_what_is_there(self) -> None:
        """They come along, with a message or without one, also where nothing else is new."""
        self.assertEqual(self.assert_alike(), 0)
        self.work("tag", "-a", "-m", "old", "before", "HEAD~2")
        self.work("tag", "-a", "-m", "of a tag", "nest", "before")
        self.work("tag", "light", "HEAD~2")
        self.push()
        self.assertEqual(self.assert_alike("origin", "main"), 0)
        self.assertEqual(self.assert_alike(), 0)

    def test_the_name_of_a_head(self) -> None:
        status, _, messages = self.run_git(self.path("ours"), "bagjulen", "fetch", "origin", "HEAD:refs/heads/new")
        self.assertEqual(status, 0)
        self.assertRegex(messages, r" \* \[new ref\] +HEAD +-> new\n")
