"""Signals: what a tool leaves that is ended by one, at any time, and that no program of it goes on."""

import os
import secrets
import signal
import subprocess
import time
import unittest
from random import Random

from common import ALONE, DOUBLE, ENGINE_DOUBLE, TOOLS, WithRepositories, run
from bagjulen_tools.formats.bundle import read_bundle
from bagjulen_tools.repository.git import Repository, git
from bagjulen_tools.trouble import read_file, write_file

ENDING = (signal.SIGTERM, signal.SIGHUP, signal.SIGINT)
# How long a program may take to begin or to end, in seconds.
PATIENCE = 60
MARK = "BAGJULEN_TESTS_MARK"


@unittest.skipUnless(os.path.isdir("/proc/self"), "no /proc tells of processes")
class WithSignals(WithRepositories):
    """Runs of tools whose programs have a mark, and whose temporary folders stand in one of their own."""

    def setUp(self) -> None:
        super().setUp()
        self.mark, self.temporary = secrets.token_hex(8), self.path("temporary")
        os.mkdir(self.temporary)

    def start(self, tool: str, *words: str, **more: str) -> subprocess.Popen[bytes]:
        environment = {**os.environ, **ALONE, "TMPDIR": self.temporary, MARK: self.mark, **more}
        nothing = subprocess.DEVNULL
        return subprocess.Popen([os.path.join(TOOLS, tool), *words], env=environment, stdin=nothing,
                                stdout=nothing, stderr=nothing)

    def alive(self) -> list[str]:
        """The words of the processes that have the mark."""
        found = []
        for name in filter(str.isdecimal, os.listdir("/proc")):
            try:
                with open(f"/proc/{name}/environ", "rb") as file:
                    if f"{MARK}={self.mark}".encode() in file.read().split(b"\0"):
                        with open(f"/proc/{name}/cmdline", "rb") as file:
                            found.append(file.read().decode())
            except OSError:
                pass  # It has ended.
        return found

    def end(self, process: subprocess.Popen[bytes], number: int) -> int:
        """Sends a signal, waits, and answers how it ended. Nothing of it is left to run, and no temporary
        folder stays.
        """
        process.send_signal(number)
        status, limit = process.wait(PATIENCE), time.monotonic() + 2
        while self.alive() and time.monotonic() < limit:
            time.sleep(0.01)  # One that was killed is about to go.
        self.assertEqual((self.alive(), os.listdir(self.temporary)), ([], []))
        return status

    def wait_for(self, path: str) -> None:
        limit = time.monotonic() + PATIENCE
        while not os.path.exists(path):
            self.assertLess(time.monotonic(), limit, f"{path} never came")
            time.sleep(0.01)

    def script(self, name: str, *lines: str) -> str:
        """A program of the shell."""
        write_file(self.path(name), "".join(f"{line}\n" for line in ("#!/bin/sh", *lines)).encode())
        os.chmod(self.path(name), 0o755)
        return self.path(name)

    def slow_engine(self) -> str:
        """An engine that doesn't end, nor does what it has started."""
        return self.script("slow", "case $1 in --version) echo slow; exit;; esac", "sleep 1000 &",
                           f"touch {self.path('begun')}", "sleep 1000", "sleep 1000")


class Waiting(WithSignals):
    """Tools that wait for others when the signal comes."""

    def test_a_clone_leaves_nothing(self):
        engine = self.slow_engine()
        for number in ENDING:
            for folder, was_there in (("new", False), ("empty", True)):
                with self.subTest(number, folder=folder):
                    target = self.path(folder)
                    if was_there:
                        os.makedirs(target, exist_ok=True)
                    words = ["clone", f"file://{self.server}", target]
                    tool = self.start("git-bagjulen", *words, BAGJULEN=engine)
                    self.wait_for(self.path("begun"))
                    self.assertEqual(self.end(tool, number), -number)
                    self.assertEqual(os.path.exists(target), was_there)
                    self.assertEqual(os.listdir(target) if was_there else [], [])
                    os.remove(self.path("begun"))

    def test_a_fetch_leaves_the_repository_as_it_was(self):
        """But for FETCH_HEAD, which is emptied before a server is asked, as Git does."""
        folder = os.path.join(self.client, ".git")
        with open(os.path.join(folder, "FETCH_HEAD"), "w", encoding="utf-8") as file:
            file.write("what an earlier fetch told\n")
        before = sorted(os.listdir(folder)), Repository(self.client).references()
        tool = self.start("git-bagjulen", "fetch", self.server, "main:refs/heads/x",
                          BAGJULEN=self.slow_engine(), GIT_DIR=folder)
        self.wait_for(self.path("begun"))
        self.assertEqual(self.end(tool, signal.SIGTERM), -signal.SIGTERM)
        self.assertEqual((sorted(os.listdir(folder)), Repository(self.client).references()), before)
        self.assertEqual(os.path.getsize(os.path.join(folder, "FETCH_HEAD")), 0)

    def test_a_server_that_says_nothing(self):
        """Neither before its greeting nor behind its listing."""
        silent = self.script("silent", f"touch {self.path('begun')}", "exec sleep 1000")
        tool = self.start("git-bagjulen", "clone", "host:path", self.path("new"), BAGJULEN=ENGINE_DOUBLE,
                          GIT_SSH=silent)
        self.wait_for(self.path("begun"))
        self.assertEqual(self.end(tool, signal.SIGTERM), -signal.SIGTERM)
        self.assertFalse(os.path.exists(self.path("new")))

    def test_tools_that_wait_for_the_engine(self):
        engine = ["--engine", self.slow_engine()]
        scene = ["main:refs/heads/x", "-o", self.path("scene")]
        for tool, *words in (("mirror-git", self.server, self.path("copy.git")),
                             ("check-repository", self.server),
                             ("scene-from-git", self.client, self.server, *scene)):
            with self.subTest(tool):
                started = self.start(tool, *engine, *words)
                self.wait_for(self.path("begun"))
                self.assertEqual(self.end(started, signal.SIGTERM), -signal.SIGTERM)
                self.assertFalse(os.path.exists(self.path("copy.git")) or os.path.exists(self.path("scene")))
                os.remove(self.path("begun"))

    def test_what_is_ignored_stays_so(self):
        """As `nohup` has it."""
        words = f"--engine '{self.slow_engine()}' {self.server} {self.path('copy.git')}"
        tool = subprocess.Popen(["sh", "-c", f"trap '' HUP; exec '{TOOLS}/mirror-git' {words}"],
                                env={**os.environ, **ALONE, "TMPDIR": self.temporary, MARK: self.mark})
        self.wait_for(self.path("begun"))
        tool.send_signal(signal.SIGHUP)
        self.assertRaises(subprocess.TimeoutExpired, tool.wait, 0.5)
        self.assertEqual(self.end(tool, signal.SIGTERM), -signal.SIGTERM)


class AtRandom(WithSignals):
    """Signals at times that are drawn."""

    def ended(self, random: Random, number: int, longest: float, tool: str, *words: str, **more: str) -> int:
        """How a tool ended that a signal met at some time."""
        process = self.start(tool, *words, **more)
        time.sleep(random.random() * longest)
        status = self.end(process, number)
        self.assertIn(status, (0, -number))
        return status

    def longest(self, tool: str, *words: str) -> float:
        """How long a run takes, and a little longer."""
        begun = time.monotonic()
        self.assertEqual(run(tool, *words)[0], 0)
        return (time.monotonic() - begun) * 1.1

    def test_a_bundle_is_the_old_one_or_the_new_one(self):
        random, path = Random("bundles"), self.path("bundle")
        longest = self.longest("bundle-from-git", self.server, "-o", path)
        texts, names = [read_file(path)], set(os.listdir(self.folder))
        git(["-C", self.server, "branch", "more", "main"])
        self.assertEqual(run("bundle-from-git", self.server, "-o", self.path("newer"))[0], 0)
        texts.append(read_file(self.path("newer")))
        os.remove(self.path("newer"))
        for number in (*ENDING, signal.SIGTERM, signal.SIGHUP):
            write_file(path, texts[0])
            status = self.ended(random, number, longest, "bundle-from-git", self.server, "-o", path)
            self.assertIn(read_file(path), texts[1:] if status == 0 else texts)
            self.assertEqual(set(os.listdir(self.folder)), names)

    def test_a_bundle_that_is_killed(self):
        """A kill can leave a file of the tool's own beside the old bundle, which is whole."""
        random, path = Random("kills"), self.path("bundle")
        longest = self.longest("bundle-from-git", self.server, "-o", path)
        for _ in range(4):
            process = self.start("bundle-from-git", self.server, "-o", path)
            time.sleep(random.random() * longest)
            process.kill()
            process.wait(PATIENCE)
            read_bundle(read_file(path))

    def test_a_mirror_is_whole_or_absent(self):
        random, place = Random("mirrors"), self.path("copy.git")
        words = ["mirror-git", *DOUBLE, "--no-compare", self.server]
        longest = self.longest(*words, self.path("first.git"))
        for number in (*ENDING, signal.SIGTERM):
            status = self.ended(random, number, longest, *words, place)
            if os.path.exists(place):
                git(["-C", place, "fsck", "--strict"])
                self.assertEqual(Repository(place).direct_references(), {"refs/heads/main": self.tip})
                subprocess.run(["rm", "-rf", place], check=True)
            else:
                self.assertEqual(status, -number)

    def test_a_bundle_is_applied_whole_or_not(self):
        random, place, bundle = Random("applied"), self.path("made.git"), self.path("bundle")
        git(["-C", self.server, "branch", "more", "main~1"])
        self.assertEqual(run("bundle-from-git", self.server, "-o", bundle)[0], 0)
        git(["init", "-q", "--bare", "-b", "main", self.path("first.git")])
        longest = self.longest("apply-bundle", bundle, self.path("first.git"))
        wanted = Repository(self.path("first.git")).direct_references()
        for number in (*ENDING, signal.SIGTERM):
            git(["init", "-q", "--bare", "-b", "main", place])
            self.ended(random, number, longest, "apply-bundle", bundle, place)
            git(["-C", place, "fsck", "--strict"])
            self.assertIn(Repository(place).direct_references(), ({}, wanted))
            self.assertFalse([name for name in os.listdir(place) if name.startswith("bagjulen")])
            self.assertEqual(run("apply-bundle", bundle, place)[0], 0)
            subprocess.run(["rm", "-rf", place], check=True)

    def test_a_clone_is_whole_or_absent(self):
        random, target = Random("clones"), self.path("new")
        words = ["git-bagjulen", "clone", "-q", "--single-branch", "--no-tags", f"file://{self.server}",
                 target]
        begun = time.monotonic()
        self.assertEqual(self.start(*words, BAGJULEN=ENGINE_DOUBLE).wait(PATIENCE), 0)
        longest = time.monotonic() - begun
        subprocess.run(["rm", "-rf", target], check=True)
        for number in (*ENDING, *ENDING):
            status = self.ended(random, number, longest, *words, BAGJULEN=ENGINE_DOUBLE)
            if status == 0:
                git(["-C", target, "fsck", "--strict"])
                subprocess.run(["rm", "-rf", target], check=True)
            self.assertFalse(os.path.exists(target))


if __name__ == "__main__":
    unittest.main()
