"""`git bagjulen fetch` and `clone` beside Git's own, by the program that stands built here or that BAGJULEN names."""

import os
import re
import signal
import socket
import subprocess
import tempfile
import time
import unittest
from http_backend import served

from common import ALONE, TOOLS
from bagjulen_tools.engine import BUILT
from bagjulen_tools.protocol.address import anonymous
from bagjulen_tools.remote.messages import trimmed
from bagjulen_tools.repository.git import Repository
from bagjulen_tools.trouble import read_file

IS_BUILT = os.access(BUILT, os.X_OK)
AUTHOR = {"GIT_AUTHOR_NAME": "A", "GIT_AUTHOR_EMAIL": "a@x", "GIT_COMMITTER_NAME": "A", "GIT_COMMITTER_EMAIL": "a@x"}
BEGIN = 1_700_000_000


class WithServer(unittest.TestCase):
    """A server with two branches and tags, a client of each side, and a server that moved since."""

    maxDiff = None

    def setUp(self):
        folder = tempfile.TemporaryDirectory()
        self.addCleanup(folder.cleanup)
        self.folder, self.clock, self.more = folder.name, BEGIN, {}
        self.server = self.path("server.git")
        self.git(None, "init", "-q", "-b", "main", self.path("work"))
        for number in range(1, 5):
            self.commit(f"c{number}")
        self.work("branch", "side")
        self.work("tag", "v1", "HEAD~1")
        self.git(None, "clone", "-q", "--bare", self.path("work"), self.server)

    def path(self, name):
        return os.path.join(self.folder, name)

    def environment(self):
        self.clock += 60
        path = {"PATH": f"{TOOLS}{os.pathsep}{os.environ['PATH']}", "BAGJULEN": BUILT, "LC_ALL": "C", "COLUMNS": "80"}
        dates = {f"GIT_{who}_DATE": f"@{self.clock} +0000" for who in ("AUTHOR", "COMMITTER")}
        return {**os.environ, **ALONE, **AUTHOR, **dates, **path, **self.more}

    def run_git(self, client, *words):
        ended = subprocess.run(["git", *words], cwd=client or self.folder, capture_output=True, env=self.environment())
        return ended.returncode, ended.stdout.decode(), ended.stderr.decode()

    def git(self, client, *words):
        status, out, messages = self.run_git(client, *words)
        self.assertEqual(status, 0, messages)
        return out

    def work(self, *words):
        return self.git(self.path("work"), *words)

    def commit(self, name):
        with open(os.path.join(self.path("work"), name), "w", encoding="utf-8") as file:
            file.write(f"{name}\n")
        self.work("add", "-A")
        self.work("commit", "-q", "-m", name)

    def clients(self, *words):
        """Two clients that are the same, by real Git."""
        self.git(None, "clone", "-q", *words, f"file://{self.server}", "theirs")
        subprocess.run(["cp", "-a", self.path("theirs"), self.path("ours")], check=True)

    def move(self):
        """Moves the server: forward, elsewhere, a new branch, and a new tag with a message."""
        self.commit("c5")
        self.work("branch", "-f", "side", "HEAD~3")
        self.work("checkout", "-q", "side")
        self.commit("s1")
        self.work("checkout", "-q", "main")
        self.work("branch", "topic", "HEAD~1")
        self.work("tag", "-a", "-m", "two", "v2")
        self.push()

    def push(self):
        self.work("push", "-q", "--mirror", self.server)

    def both(self, words, bagjulen=("bagjulen",)):
        """What real Git and the command answer: status and messages."""
        return [self.run_git(self.path(client), *front, *words) for client, front in (("theirs", ()), ("ours", bagjulen))]

    def state(self, client, has_logs=True):
        """What stands in a client: references, border, history, FETCH_HEAD, and what reflogs say.

        Of a new branch that is tracked, Git says that it stores a head, and the engine a reference.
        """
        repository, folder = Repository(self.path(client)), os.path.join(self.path(client), ".git")
        logs = {}
        for at, _, files in os.walk(os.path.join(folder, "logs")) if has_logs else ():
            for file in files:
                with open(os.path.join(at, file), encoding="utf-8") as lines:
                    name = os.path.relpath(os.path.join(at, file), folder)
                    logs[name] = [re.sub(r"> \d+ ", "> ", line).replace("storing head", "storing ref") for line in lines]
        head = os.path.join(folder, "FETCH_HEAD")
        fetched = open(head, encoding="utf-8").read() if os.path.exists(head) else None
        history = self.git(self.path(client), "log", "--all", "--format=%H %P")
        return repository.references(), repository.border(), history, fetched, logs

    def assert_alike(self, *words):
        """Fetches by both, and compares all."""
        (status, out, messages), ours = self.both(["fetch", *words])
        self.assertEqual(ours, (status, out, messages), words)
        self.assertEqual(self.state("ours"), self.state("theirs"), words)
        self.git(self.path("ours"), "fsck", "--strict")
        return status


@unittest.skipUnless(IS_BUILT, "the program isn't built")
class Fetched(WithServer):
    def test_what_the_configuration_says(self):
        self.clients()
        self.move()
        self.assertEqual(self.assert_alike(), 0)
        self.assertEqual(self.assert_alike("-v"), 0)
        self.git(self.path("ours"), "pull", "-q", "--ff-only")
        self.assertEqual(self.git(self.path("ours"), "log", "-1", "--format=%s"), "c5\n")

    def test_from_a_folder_of_the_work_tree(self):
        self.clients()
        self.move()
        for client in ("theirs", "ours"):
            os.mkdir(self.path(f"{client}/below"))
        (status, out, messages), ours = [self.run_git(self.path(f"{client}/below"), *front, "fetch", "../server.git")
                                         for client, front in (("theirs", ()), ("ours", ("bagjulen",)))]
        self.assertEqual(ours, (status, out, messages))
        self.assertEqual(self.state("ours"), self.state("theirs"))
        self.assertEqual(os.listdir(self.path("ours/below")), [])

    def test_words(self):
        address = f"file://{self.server}"
        for words, status in [
            (["origin"], 0), (["origin", "topic"], 0), (["origin", "main:copied", "+side:refs/heads/other"], 0),
            (["origin", "side:refs/remotes/origin/side"], 1), (["-f", "origin", "side:refs/remotes/origin/side"], 0),
            (["origin", "tag", "v2"], 0), (["--tags"], 0), (["-n"], 0), (["-q"], 0), ([address], 0), ([self.server], 0),
            ([address, "refs/heads/*:refs/other/*"], 0), (["--no-write-fetch-head"], 0), (["--depth", "3"], 0),
            (["--dry-run", "origin", "topic:copied"], 0)]:
            with self.subTest(words):
                self.setUp()
                self.clients()
                self.move()
                self.assertEqual(self.assert_alike(*words), status)

    def test_a_part_of_the_history(self):
        self.clients("--depth", "2")
        self.move()
        for words in (["--deepen", "1"], ["--depth", "3"], ["--unshallow"], ["--shallow-since", f"@{BEGIN + 600}"]):
            self.assertEqual(self.assert_alike(*words), 0)

    def test_a_part_without_another_history(self):
        self.clients("--no-tags")
        self.move()
        self.assertEqual(self.assert_alike("--shallow-exclude", "v1", "-n", "origin", "main"), 0)

    def test_a_server_with_a_border(self):
        shallow = self.path("shallow.git")
        self.git(None, "clone", "-q", "--bare", "--depth", "2", f"file://{self.server}", shallow)
        for client in ("theirs", "ours"):
            self.git(None, "init", "-q", client)
        spec = ["-n", f"file://{shallow}", "refs/heads/*:refs/shallow/*"]
        self.assertEqual(self.assert_alike(*spec), 0)
        self.assertEqual(self.assert_alike("--update-shallow", *spec), 0)
        self.assertNotEqual(Repository(self.path("ours")).border(), [])

    def test_over_http(self):
        server, address = served(self.folder)
        self.addCleanup(server.server_close)
        self.addCleanup(server.shutdown)
        self.clients()
        self.move()
        for client in ("ours", "theirs"):
            self.git(self.path(client), "remote", "set-url", "origin", f"{address}/server.git")
        self.assertEqual(self.assert_alike(), 0)
        self.assertEqual(self.assert_alike("--depth", "1", "-n"), 0)

    def test_over_ssh(self):
        """The command that stands for `ssh` runs the last of its words here."""
        path = self.path("ssh")
        with open(path, "w", encoding="utf-8") as file:
            file.write('#!/bin/sh\nfor word; do last=$word; done\nexec sh -c "$last"\n')
        os.chmod(path, 0o755)
        self.clients()
        for word, command in (("GIT_SSH_COMMAND", f"{path} -x"), ("GIT_SSH", path)):
            for address in (f"host:{self.server}", f"ssh://user@host:22{self.server}"):
                self.more = {word: command}
                self.commit(f"{word} {address[:5]}".replace("/", ""))
                self.push()
                self.assertEqual(self.assert_alike(address, "+refs/heads/*:refs/ssh/*"), 0)

    def test_over_a_socket(self):
        with socket.create_server(("127.0.0.1", 0)) as found:
            port = found.getsockname()[1]
        daemon = subprocess.Popen(["git", "daemon", "--listen=127.0.0.1", f"--port={port}", "--export-all", "--reuseaddr",
                                   f"--base-path={self.folder}"], stderr=subprocess.DEVNULL, process_group=0)
        self.addCleanup(daemon.wait)
        self.addCleanup(os.killpg, daemon.pid, signal.SIGTERM)
        self.clients()
        self.move()
        for _ in range(100):
            if subprocess.run(["git", "ls-remote", f"git://127.0.0.1:{port}/server.git"], capture_output=True).returncode == 0:
                break
            time.sleep(0.1)
        self.assertEqual(self.assert_alike(f"git://127.0.0.1:{port}/server.git", "+refs/heads/*:refs/socket/*"), 0)

    def test_progress_is_handed_through(self):
        self.clients()
        self.move()
        status, _, messages = self.run_git(self.path("ours"), "bagjulen", "fetch", "--progress")
        self.assertEqual(status, 0)
        self.assertRegex(messages, r"remote: Enumerating objects: \d+, done\.")

    def test_what_is_refused(self):
        self.clients()
        self.work("bundle", "create", "-q", self.path("one.bundle"), "main")
        for words, text in [
            (["--refetch"], "--refetch isn't supported by git bagjulen"), (["--jobs=x"], "invalid int value"),
            (["ftp://x/y"], "the transport 'ftp' isn't supported"), (["ext::sh"], "transport 'ext' not allowed"),
            (["nowhere"], "'nowhere' does not appear to be a git repository"), (["--depth", "0"], "depth 0 is not a positive"),
            (["--unshallow"], "--unshallow on a complete repository does not make sense"), (["origin", "tag"], "tag name"),
            (["--depth=1", "--deepen=1"], "cannot be used together"), (["origin", "absent"], "couldn't find remote ref absent"),
            (["../one.bundle"], "is a bundle, which git bagjulen doesn't fetch from"),
            (["origin", "a..b"], "a..b")]:
            before = self.state("ours")
            status, out, messages = self.run_git(self.path("ours"), "bagjulen", "fetch", *words)
            self.assertEqual((status, out), (128, ""), words)
            self.assertRegex(messages, rf"\A(warning: .*\n)?fatal: [^\n]*{re.escape(text)}[^\n]*\n\Z")
            after = self.state("ours")
            self.assertEqual((after[:3], after[4]), (before[:3], before[4]))
            self.assertIn(after[3], (None, ""))  # Git empties FETCH_HEAD before it asks a server.

    def test_a_source_that_matches_nothing(self) -> None:
        """A name refuses the fetch, beside names that are there too, and a star brings nothing."""
        self.clients()
        self.move()
        self.assertEqual(self.assert_alike("origin", "refs/nothing/*:refs/x/*"), 0)
        for words in (["nosuch"], ["main", "topic:copied", "tag", "nosuch"], ["1" * 39]):
            self.assertEqual(self.assert_alike("origin", *words), 128)

    def test_what_was_rejected_moves_nothing_else_away(self):
        self.clients()
        self.move()
        self.assertEqual(self.assert_alike("origin", "side:refs/remotes/origin/side", "topic:refs/heads/topic"), 1)


@unittest.skipUnless(IS_BUILT, "the program isn't built")
class Cloned(WithServer):
    def assert_alike(self, *words, address=None):
        """Clones by both, and compares all."""
        address = address or f"file://{self.server}"
        for client, front in (("theirs", ()), ("ours", ("bagjulen",))):
            ended = self.run_git(None, *front, "clone", *words, address, client)
            self.assertEqual(ended[0], 0, ended)
        folder = "" if {"--bare", "--mirror"} & set(words) else ".git"
        self.assertEqual(self.state("ours", False), self.state("theirs", False), words)
        for file in ("config", "HEAD"):
            paths = (os.path.join(self.path(each), folder, file) for each in ("ours", "theirs"))
            self.assertEqual(*map(read_file, paths))
        if folder:
            self.assertEqual(*(self.git(self.path(each), "status", "--porcelain", "-b") for each in ("ours", "theirs")))
        self.git(self.path("ours"), "fsck", "--strict")
        self.git(self.path("ours"), "fetch", "-q")

    def test_words(self):
        for words in ([], ["--bare"], ["--mirror"], ["-n"], ["-o", "up"], ["-b", "side"], ["-b", "v1"], ["--no-tags"],
                      ["--single-branch"], ["--depth", "1"], ["--depth", "2", "--no-single-branch"],
                      ["-q", "--depth", "1", "-b", "side"]):
            with self.subTest(words):
                self.setUp()
                self.move()
                self.assert_alike(*words)

    def test_a_head_that_stands_for_no_name(self):
        self.git(self.server, "update-ref", "--no-deref", "HEAD", "refs/tags/v1")
        self.assert_alike()

    def test_an_empty_repository(self):
        self.git(None, "init", "-q", "--bare", "-b", "other", "empty.git")
        self.assert_alike(address=f"file://{self.path('empty.git')}")

    def test_over_http(self):
        server, address = served(self.folder)
        self.addCleanup(server.server_close)
        self.addCleanup(server.shutdown)
        self.assert_alike(address=f"{address}/server.git")

    def test_what_is_refused_leaves_nothing(self):
        os.mkdir(self.path("full"))
        open(self.path("full/file"), "w").close()
        for words, text in [(["-b", "absent", self.server], "Remote branch absent not found in upstream origin"),
                            ([self.server, "full"], "already exists and is not an empty directory"),
                            ([self.path("nowhere")], "does not exist"),
                            (["--revision=v1", self.server], "--revision isn't supported")]:
            before = sorted(os.listdir(self.folder))
            status, _, messages = self.run_git(None, "bagjulen", "clone", "-q", *words)
            self.assertEqual((status, before), (128, sorted(os.listdir(self.folder))), words)
            self.assertRegex(messages, rf"\Afatal: [^\n]*{re.escape(text)}[^\n]*\n\Z")


class Addresses(unittest.TestCase):
    def test_how_they_are_told(self):
        for address, text in [("https://u:p@h/a.git", "https://h/a"), ("/srv/a.git/", "/srv/a"), ("me@h:a/b.git", "h:a/b"),
                              ("/a@b:c", "/a@b:c"), ("https://h/a@b", "https://h/a@b"), ("../.git", "../")]:
            self.assertEqual(trimmed(address), text)
        self.assertEqual(anonymous("ssh://u@h/x"), "ssh://h/x")
