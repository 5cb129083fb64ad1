"""A mirror that the engine makes, beside Git's own."""

import os
import unittest

from common import DOUBLE, WithRepositories, run
from bagjulen_tools.engine import Engine
from bagjulen_tools.measure import compare_mirrors
from bagjulen_tools.remote.mirror import differences, mirrored_by_git, reached_ids
from bagjulen_tools.repository.git import Repository
from bagjulen_tools.trouble import BAD_INPUT, DIFFERENT, DONE


class Mirroring(WithRepositories):
    def mirrored(self, *words, behaviour=""):
        return run("mirror-git", *DOUBLE, self.server, self.path("ours.git"), *words, behaviour=behaviour)

    def test_a_mirror_that_is_alike(self):
        status, told, _ = self.mirrored("--workers", "2")
        count = len(self.history.objects)
        self.assertEqual((status, told.decode()), (DONE, f"{count} objects stored, 1 references made\nGit's mirror is alike\n"))
        self.assertEqual(Repository(self.path("ours.git")).direct_references(), {"refs/heads/main": self.tip})

    def test_an_empty_directory_takes_it(self):
        os.mkdir(self.path("ours.git"))
        self.assertEqual(self.mirrored()[0], DONE)

    def test_references_that_are_otherwise(self):
        status, told, _ = self.mirrored(behaviour="forgets")
        self.assertEqual(status, DIFFERENT)
        self.assertIn(f"refs/heads/main is {self.tip} by Git, and None by the engine", told.decode())

    def test_objects_that_are_otherwise(self):
        theirs = mirrored_by_git(Repository(self.server), self.path("theirs.git"))
        other = mirrored_by_git(Repository(self.server), self.path("other.git"))
        self.assertEqual(list(differences(other, theirs)), [])
        other.git("hash-object", "-w", "--stdin", given=b"nobody's")
        self.assertRegex("".join(differences(other, theirs)), r"\A1 objects are there by the engine alone, \w+ among them\Z")

    def test_what_references_reach(self):
        theirs = mirrored_by_git(Repository(self.server), self.path("theirs.git"))
        self.assertEqual(reached_ids(theirs), {each.id for each in self.history.objects})
        theirs.git("update-ref", "-d", "refs/heads/main")
        self.assertEqual(reached_ids(theirs), set())

    def test_what_is_refused(self):
        self.assert_line(self.mirrored(behaviour="refused"), DIFFERENT, "the mirror was refused: the source repository is shallow")
        self.assertFalse(os.path.exists(self.path("ours.git")))
        os.mkdir(self.path("ours.git"))
        os.mkdir(self.path("ours.git/refs"))
        self.assert_line(self.mirrored(), BAD_INPUT, "is there already")

    def test_random_ones(self):
        found, came = compare_mirrors.compared(0, "checks", Engine(DOUBLE[1]))
        again = compare_mirrors.compared(0, "checks", Engine(DOUBLE[1]))
        self.assertEqual((found, came), again)


if __name__ == "__main__":
    unittest.main()
