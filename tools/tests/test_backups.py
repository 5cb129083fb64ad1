"""Backups of repositories that are damaged or odd, on disks that are full."""

import os
import resource
import subprocess
import unittest
import zlib
from collections.abc import Callable

from common import ALONE, DOUBLE, TOOLS, WithRepositories, run
from bagjulen_tools.formats.bundle import read_bundle
from bagjulen_tools.repository.git import Repository, git
from bagjulen_tools.trouble import BAD_INPUT, CHANGED, DIFFERENT, DONE, GIT_REFUSED, read_file, write_file


def limit_files(count: int) -> None:
    """Has no file of this process get more than so many bytes."""
    resource.setrlimit(resource.RLIMIT_FSIZE, (count, count))


def run_with_room(count: int, tool: str, *words: str) -> tuple[int, bytes, str]:
    """The same as `run`, where no file may get more than so many bytes."""
    ended = subprocess.run([os.path.join(TOOLS, tool), *words], capture_output=True,
                           preexec_fn=lambda: limit_files(count), env={**os.environ, **ALONE})
    return ended.returncode, ended.stdout, ended.stderr.decode()


class WithBackups(WithRepositories):
    def loose(self, digits: str) -> str:
        """The file of an object of the server, which is made a loose one."""
        path = os.path.join(self.server, "objects", digits[:2], digits[2:])
        if not os.path.exists(path):
            packs = os.path.join(self.server, "objects", "pack")
            for name in os.listdir(packs):
                os.rename(os.path.join(packs, name), self.path(name))
            for name in [each for each in os.listdir(self.folder) if each.endswith(".pack")]:
                git(["-C", self.server, "unpack-objects", "-q"], read_file(self.path(name)))
        os.chmod(path, 0o644)
        return path

    def damage(self, digits: str, how: Callable[[bytes], bytes]) -> None:
        """Changes the file of an object."""
        path = self.loose(digits)
        write_file(path, how(read_file(path)))

    def bundle(self) -> tuple[int, bytes, str]:
        return run("bundle-from-git", self.server, "-o", self.path("bundle"))

    def mirrored(self, *words: str) -> tuple[int, bytes, str]:
        return run("mirror-git", *DOUBLE, self.server, self.path("client.git"), *words)


DAMAGES: dict[str, Callable[[bytes], bytes]] = {
    "garbage": lambda data: b"garbage", "empty": lambda data: b"", "cut": lambda data: data[:-6],
    "another object": lambda data: zlib.compress(b"blob 1\0x"),
    "a wrong length": lambda data: zlib.compress(b"blob 1000\0x")}


class Damaged(WithBackups):
    def test_a_damaged_object_is_told_by_its_id(self):
        for how in DAMAGES:
            for kind in ("blob", "commit"):
                with self.subTest(how, kind=kind):
                    each = next(each for each in self.history.objects if each.kind == kind)
                    path = self.loose(each.id)
                    kept = read_file(path)
                    self.damage(each.id, DAMAGES[how])
                    self.assert_line(self.bundle(), BAD_INPUT, f"{each.id}")
                    self.assertFalse(os.path.exists(self.path("bundle")))
                    self.assert_line(self.mirrored(), BAD_INPUT, f"{each.id}")
                    self.assertFalse(os.path.exists(self.path("client.git")))
                    self.assert_line(self.scene_of_client(), BAD_INPUT, "") if how == "garbage" else None
                    status, told, messages = run("check-repository", *DOUBLE, self.server, self.client)
                    self.assertIn(status, (BAD_INPUT, DIFFERENT))
                    self.assertEqual((messages, b"1 not read" in told), ("", True))
                    self.assertIn(f"the object {each.id} can't be read, and counts as missing".encode(), told)
                    self.assertIn(self.client.encode(), told)
                    write_file(path, kept)

    def scene_of_client(self) -> tuple[int, bytes, str]:
        words = [self.server, self.server, "main:refs/heads/x", "-o", self.path("scene")]
        return run("scene-from-git", *DOUBLE, *words)

    def test_what_nothing_reaches_refuses_nothing(self):
        """Neither a damaged object, nor one that breaks the grammar, nor one with a missing link."""
        lost = git(["-C", self.server, "hash-object", "-w", "--stdin"], b"nobody's").decode().strip()
        self.damage(lost, DAMAGES["garbage"])
        people = b"\nauthor A <a@x> 1 +0000\ncommitter A <a@x> 1 +0000\n\nx\n"
        for text in (b"tree x\n", b"tree " + b"1" * 40 + people):
            git(["-C", self.server, "hash-object", "-w", "-t", "commit", "--literally", "--stdin"], text)
        self.assertEqual(self.bundle(), (0, b"", ""))
        self.assertEqual({each.id for each in read_bundle(read_file(self.path("bundle"))).objects},
                         {each.id for each in self.history.objects})
        status, told, messages = self.mirrored()
        self.assertEqual((status, told.splitlines()[-1], messages), (DONE, b"Git's mirror is alike", ""))

    def test_a_border_that_is_no_border(self):
        write_file(os.path.join(self.server, "shallow"), b"x\n")
        for ended in (self.bundle(), self.mirrored()):
            self.assertIn(ended[0], (BAD_INPUT, GIT_REFUSED))
            self.assertEqual((ended[1], ended[2].count("\n")), (b"", 1))

    def test_what_is_no_repository_is_not_read(self):
        os.mkdir(self.path("none"))
        status, told, messages = run("check-repository", *DOUBLE, self.path("none"), self.server)
        self.assertEqual((status, messages), (BAD_INPUT, ""))
        self.assertEqual(told.split()[-5:], [b"1", b"alike", b"1", b"not", b"read"])


class Names(WithBackups):
    def test_a_name_that_has_no_place_in_a_bundle(self):
        name = "refs/heads/" + "/".join(["x" * 200] * 400)
        write_file(os.path.join(self.server, "packed-refs"), f"{self.tip} {name}\n".encode())
        self.assert_line(self.bundle(), BAD_INPUT, "the reference refs/heads/xx.* has no place in a bundle")
        self.assertFalse(os.path.exists(self.path("bundle")))


class Kept(WithBackups):
    """What stood at a place before, while something newer is written there."""

    def test_a_full_disk_leaves_the_old_bundle(self):
        self.assertEqual(self.bundle()[0], 0)
        kept = read_file(self.path("bundle"))
        names = set(os.listdir(self.folder))
        git(["-C", self.server, "branch", "more", "main"])
        for room in (100, 300, len(kept) - 1):
            ended = run_with_room(room, "bundle-from-git", self.server, "-o", self.path("bundle"))
            self.assert_line(ended, BAD_INPUT, "can't write .*bundle: File too large")
            self.assertEqual((read_file(self.path("bundle")), set(os.listdir(self.folder))), (kept, names))
        self.assertEqual(self.bundle()[0], 0)
        self.assertIn("refs/heads/more", read_bundle(read_file(self.path("bundle"))).references)

    def test_a_full_disk_behind_standard_output(self):
        with open(self.path("out"), "wb") as out:
            ended = subprocess.run([os.path.join(TOOLS, "bundle-from-git"), self.server], stdout=out,
                                   stderr=subprocess.PIPE, preexec_fn=lambda: limit_files(100))
        self.assertEqual((ended.returncode, ended.stderr.count(b"\n")), (BAD_INPUT, 1), ended.stderr)

    def test_a_link_and_a_mode_stay(self):
        write_file(self.path("real"), b"old")
        os.chmod(self.path("real"), 0o640)
        os.symlink("real", self.path("bundle"))
        self.assertEqual(self.bundle()[0], 0)
        self.assertTrue(os.path.islink(self.path("bundle")))
        self.assertEqual(os.stat(self.path("real")).st_mode & 0o777, 0o640)
        read_bundle(read_file(self.path("real")))

    def test_a_full_disk_leaves_no_half_mirror(self):
        for room in (0, 40, 200):
            ended = run_with_room(room, "mirror-git", *DOUBLE, self.server, self.path("client.git"))
            self.assertIn(ended[0], (BAD_INPUT, GIT_REFUSED))
            self.assertEqual((ended[1], ended[2].count("\n")), (b"", 1), ended)
            self.assertFalse(os.path.exists(self.path("client.git")))
        self.assertEqual(self.mirrored("--no-compare")[0], DONE)


class SecondNights(WithBackups):
    def test_a_mirror_is_made_alike_again(self):
        git(["-C", self.server, "branch", "wt", "main"])
        git(["-C", self.server, "symbolic-ref", "HEAD", "refs/heads/wt"])
        self.assertEqual(self.mirrored()[0], DONE)
        client = Repository(self.path("client.git"))
        self.assertEqual(client.text("symbolic-ref", "HEAD"), "refs/heads/wt")
        git(["-C", self.server, "symbolic-ref", "HEAD", "refs/heads/main"])
        git(["-C", self.server, "branch", "-D", "wt"])
        for name in ("wt/x", "new"):
            git(["-C", self.server, "branch", name, "main~1"])
        git(["-C", self.server, "branch", "-f", "main", "main~1"])
        status, told, messages = self.mirrored()
        self.assertEqual((status, messages), (DONE, ""), told)
        self.assertIn(b"3 references made, 1 removed", told)
        self.assertEqual(client.direct_references(), Repository(self.server).direct_references())
        self.assertEqual(client.text("symbolic-ref", "HEAD"), "refs/heads/main")

    def test_a_mirror_has_its_remote(self):
        """As Git's own has it, so that `git fetch` goes on from it."""
        self.assertEqual(self.mirrored("--no-compare")[0], DONE)
        git(["clone", "-q", "--mirror", self.server, self.path("theirs.git")])
        places = [self.path("client.git"), self.path("theirs.git")]
        ours, theirs = (sorted(Repository(place).entries()) for place in places)
        self.assertEqual([each for each in ours if each[0].startswith("remote.")],
                         [each for each in theirs if each[0].startswith("remote.")])
        git(["-C", self.server, "branch", "more", "main"])
        git(["-C", self.path("client.git"), "fetch", "-q"])
        self.assertIn("refs/heads/more", Repository(self.path("client.git")).direct_references())

    def test_a_detached_head(self):
        git(["-C", self.server, "update-ref", "--no-deref", "HEAD", "main~1"])
        self.assertEqual(self.mirrored()[0], DONE)
        self.assertEqual(Repository(self.path("client.git")).text("rev-parse", "HEAD"),
                         Repository(self.server).text("rev-parse", "main~1"))

    def test_another_repository_is_no_mirror(self):
        self.assertEqual(self.mirrored()[0], DONE)
        ended = run("mirror-git", *DOUBLE, self.client, self.path("client.git"))
        self.assert_line(ended, BAD_INPUT, "is no mirror of")
        self.assert_line(run("mirror-git", *DOUBLE, self.server, self.client), BAD_INPUT, "is there already")

    def test_a_newer_bundle_over_an_older_one(self):
        self.assertEqual(self.bundle()[0], 0)
        made = self.path("made.git")
        git(["init", "-q", "--bare", "-b", "main", made])
        self.assertEqual(run("apply-bundle", self.path("bundle"), made)[0], DONE)
        git(["-C", self.server, "branch", "other", "main"])
        git(["-C", self.server, "branch", "-f", "main", "main~1"])
        self.assertEqual(self.bundle()[0], 0)
        ended = run("apply-bundle", self.path("bundle"), made)
        self.assert_line(ended, CHANGED, "refs/heads/main stands otherwise")
        ended = run("apply-bundle", "--force", self.path("bundle"), made)
        self.assertEqual(ended, (DONE, b"0 objects stored, 2 references moved\n", ""))
        self.assertEqual(Repository(made).references(), Repository(self.server).references())

    def test_a_branch_that_is_checked_out_stays(self):
        git(["-C", self.client, "fetch", "-q", self.server, "main"])
        git(["-C", self.client, "checkout", "-q", "-b", "main", "FETCH_HEAD~1"])
        self.assertEqual(self.bundle()[0], 0)
        before = Repository(self.client).references()
        ended = run("apply-bundle", "--force", self.path("bundle"), self.client)
        self.assert_line(ended, GIT_REFUSED, "refs/heads/main is checked out at")
        self.assertEqual(Repository(self.client).references(), before)


class Elsewhere(WithRepositories):
    def test_a_report_of_another_repository_is_said(self):
        self.scene(self.server, "main:refs/heads/x")
        self.report()
        git(["init", "-q", self.path("other")])
        other = self.path("other")
        status, _, messages = run("apply-report", self.path("scene"), self.path("report"), other)
        self.assertEqual((status, messages), (DONE, "apply-report: warning: the scene was made from "
                                              f"{self.client}/.git, and was written into {other}/.git\n"))
        self.assertEqual(run("apply-report", self.path("scene"), self.path("report"), self.client)[2], "")


if __name__ == "__main__":
    unittest.main()
