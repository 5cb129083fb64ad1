"""References as Git reads them from its files, also odd ones, and repositories whose references stand
elsewhere.
"""

import os
import re
import unittest
from random import Random

from common import WithRepositories, run
from bagjulen_tools.formats.bundle import followed, read_bundle
from bagjulen_tools.protocol.lines import decoded_text
from bagjulen_tools.repository.git import Repository, git, run_git
from bagjulen_tools.repository.reference_files import ReferenceFiles, read_references
from bagjulen_tools.trouble import BAD_INPUT, Trouble

WARNED = re.compile(r"warning: ignoring (?:ref with broken name|broken ref) (.*)")
# Names of files, of which Git takes some, passes some over, and calls some broken.
NAMES = ("main", "side", "a/b", "a/c", "x.y", "é", "-x", "{x}", "we ird", "v1^", "a..b", "end.", ".hidden",
         "x.lock", "@", "d@{1}", "tab\tx", "UPPER", "a/.b", "q?")
# What stands in files: `{}` is an id.
TEXTS = ("{}\n", "{}", "{}\n\n", "{} \t\n", "{}\nmore\n", "{}\tbranch 'x' of y\n", " {}\n", "{}x\n", "", "\n",
         "{:.39}\n", "ref: refs/heads/main\n", "ref:refs/heads/side", "ref: \t refs/heads/a/b  \n",
         "ref: refs/heads/none\n", "ref: \n", "ref: refs/heads/we ird\n", "x\n")


class WithOddReferences(WithRepositories):
    """The server, with references that are written by hand."""

    def write(self, name: str, text: str | bytes) -> None:
        path = os.path.join(self.server, name)
        os.makedirs(os.path.dirname(path), exist_ok=True)
        with open(path, "wb") as file:
            file.write(text.encode() if isinstance(text, str) else text)

    def read(self) -> ReferenceFiles:
        repository = Repository(self.server)
        return read_references(repository.git_dir, repository.common_dir, "sha1")


class RandomReferences(WithOddReferences):
    def put(self, random: Random, ids: list[str]) -> None:
        """Some references, packed and loose."""
        for name in random.sample(NAMES, 12):
            digits = random.choice([*ids, "0" * 40])
            folder = random.choice(["refs", "refs/heads", "refs/tags", "refs/remotes/o"])
            digits = digits.upper() if random.random() < 0.3 else digits
            try:
                self.write(f"{folder}/{name}", random.choice(TEXTS).format(digits))
            except OSError:
                pass  # A file stands where a folder should, or the other way.
        places = ["refs/heads", "refs/tags"]
        packed = sorted(f"{random.choice(places)}/{name}" for name in random.sample(NAMES[:6], 3))
        lines = [f"{random.choice(ids)} {name}\n" for name in packed]
        lines[1:1] = [f"^{ids[0]}\n"]
        self.write("packed-refs", "".join(["# pack-refs with: peeled fully-peeled sorted \n", *lines]))

    def test_they_are_those_that_git_lists(self):
        ids = [each.id for each in self.history.objects if each.kind == "commit"]
        for seed in range(30):
            with self.subTest(seed):
                for path in ("refs", "packed-refs"):
                    os.system(f"rm -rf {self.server}/{path}")
                self.write("refs/heads/main", self.tip)
                self.put(Random(seed), ids)
                self.assert_alike()

    def assert_alike(self) -> None:
        """What is read is what Git lists, and what isn't read is what Git calls broken, or a symbolic one
        that it passes over.
        """
        words = ["for-each-ref", "--format=%(objectname) %(refname)"]
        status, out, messages = run_git(["-C", self.server, *words])
        self.assertEqual(status, 0, messages)
        lines = (line.partition(" ") for line in decoded_text(out).splitlines())
        listed = {name: digits for digits, _, name in lines}
        broken = {match[1] for match in map(WARNED.fullmatch, messages.splitlines()) if match is not None}
        found = self.read()
        ends = {name: followed(found.references, name) for name in found.references if name != "HEAD"}
        self.assertEqual({name: end for name, end in ends.items() if end and end[0] != "@"}, listed)
        unread = {name for name, why in found.unread.items() if not why.startswith("it stands for")}
        self.assertEqual(unread, broken)


class OddReferences(WithOddReferences):
    def bundled(self) -> dict[str, str]:
        """The references of the server's bundle."""
        self.assertEqual(run("bundle-from-git", self.server, "-o", self.path("bundle")), (0, b"", ""))
        with open(self.path("bundle"), "rb") as file:
            return read_bundle(file.read()).references

    def test_ids_in_upper_case_and_with_text_behind(self):
        """A branch whose file Git reads isn't left out of a bundle."""
        for text in (self.tip.upper() + "\n", f"{self.tip}\nmore\n", f"{self.tip} more", self.tip):
            with self.subTest(text):
                self.write("refs/heads/odd", text)
                self.assertEqual(Repository(self.server).text("rev-parse", "refs/heads/odd"), self.tip)
                self.assertEqual(self.bundled()["refs/heads/odd"], self.tip)

    def test_what_cannot_be_read_is_refused_by_its_name(self):
        for name, text in (("refs/heads/empty", ""), ("refs/heads/short", self.tip[:39]),
                           ("refs/heads/null", "0" * 40), ("refs/heads/we ird", self.tip),
                           ("refs/heads/odd", "ref: main\n")):
            self.write(name, text)
            for tool, words in (("bundle-from-git", []), ("mirror-git", [self.path("client.git")])):
                with self.subTest(name, tool=tool):
                    ended = run(tool, self.server, *words)
                    self.assert_line(ended, BAD_INPUT, f"the reference {name} can't be read")
            status, told, messages = run("check-repository", self.server)
            self.assertEqual((status, messages, told.split()[-3:]), (BAD_INPUT, "", [b"1", b"not", b"read"]))
            self.assertIn(name.encode(), told)
            os.remove(os.path.join(self.server, name))

    def test_lines_of_packed_references(self):
        self.write("packed-refs", f"{self.tip.upper()} refs/heads/up\n{self.tip} refs/heads/main\n")
        self.assertEqual(self.read().references["refs/heads/up"], self.tip)
        for text in (f"{self.tip[1:]} refs/heads/bad\n", f"{self.tip} refs/heads/bad"):
            self.write("packed-refs", text)
            self.assertIn("refs/heads/bad", self.read().unread)
            self.assertRaises(Trouble, Repository(self.server).reference_files)

    def test_links_in_the_place_of_files(self):
        os.symlink("refs/heads/main", os.path.join(self.server, "refs/heads/link"))
        os.symlink("main", os.path.join(self.server, "refs/heads/near"))
        found = self.read().references
        self.assertEqual((found["refs/heads/link"], found["refs/heads/near"]), ("@refs/heads/main", self.tip))
        for name in ("link", "near"):
            self.assertEqual(Repository(self.server).text("rev-parse", f"refs/heads/{name}"), self.tip)

    def test_a_work_tree_has_references_of_its_own(self):
        git(["-C", self.server, "worktree", "add", "-q", "--detach", self.path("tree"), "main"])
        git(["-C", self.path("tree"), "update-ref", "refs/bisect/bad", self.tip])
        git(["-C", self.server, "update-ref", "refs/bisect/good", self.tip])
        for path, name in ((self.path("tree"), "refs/bisect/bad"), (self.server, "refs/bisect/good")):
            listed = decoded_text(git(["-C", path, "for-each-ref", "--format=%(refname)"])).splitlines()
            self.assertEqual(sorted({*listed, "HEAD"}), sorted(Repository(path).reference_files()))
            self.assertIn(name, listed)


class OtherStorage(WithRepositories):
    def test_it_is_refused_by_its_name(self):
        """Also where Git itself reads nothing of such a repository, or passes the entry over."""
        for version in ("0", "1"):
            git(["-C", self.server, "config", "extensions.refStorage", "reftable"])
            git(["-C", self.server, "config", "core.repositoryFormatVersion", version])
            for tool, *words in (("bundle-from-git", self.server),
                                 ("mirror-git", self.server, self.path("copy")),
                                 ("scene-from-git", self.server, self.client),
                                 ("serve-plain", self.server)):
                with self.subTest(tool, version=version):
                    self.assert_line(run(tool, *words), BAD_INPUT, "extensions.refStorage = reftable, and")
            git(["config", "--file", f"{self.server}/config", "--unset", "extensions.refStorage"])
        self.assertEqual(run("bundle-from-git", self.server)[0], 0)

    def test_files_are_taken(self):
        git(["-C", self.server, "config", "extensions.refStorage", "files"])
        self.assertEqual(Repository(self.server).reference_files()["refs/heads/main"], self.tip)


if __name__ == "__main__":
    unittest.main()
