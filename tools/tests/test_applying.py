"""What a report tells, written into a repository: what is refused, and what a killed run leaves."""

import os
import re
import subprocess
import tempfile
import unittest
from resource import RUSAGE_CHILDREN, getrusage

from common import ALONE, KILLED_APPLY, SPEC, WithRepositories, run
from bagjulen_tools.formats.gitpack import store
from bagjulen_tools.formats.plainpack import Object, object_id, write_pack
from bagjulen_tools.formats.report import read_report
from bagjulen_tools.formats.scene import Scene, read_scene
from bagjulen_tools.protocol.lines import Mark, encoded
from bagjulen_tools.remote.client import scene_of
from bagjulen_tools.repository.apply import apply
from bagjulen_tools.repository.git import Repository, git
from bagjulen_tools.repository.locks import LockedFile
from bagjulen_tools.trouble import CHANGED, GIT_REFUSED, Trouble, read_file, write_file

EMPTY_TREE_ID = "4b825dc642cb6eb9a060e54bf8d69288fbee4904"
NULL = "0" * 40
MAIN, OWN, HEAD = "refs/remotes/origin/main", "refs/heads/own", "refs/remotes/origin/HEAD"
STEPS = [f"{when} {step}" for when in ("before", "after") for step in (
    "objects", "prepare border", "prepare references", "prepare symbolic references", "commit border",
    "commit references", "commit symbolic references")]
FROM_MOVER = "commit "


class WithReports(WithRepositories):
    def apply(self, *words):
        return run("apply-report", self.path("scene"), self.path("report"), self.client, *words)

    def references(self):
        return Repository(self.client).references()

    def log(self, name):
        return read_file(os.path.join(self.client, ".git", "logs", name)).decode()

    def assert_sound(self):
        git(["-C", self.client, "fsck", "--strict"])

    def assert_clear(self):
        """No lock and no file of the tool's own is left."""
        for folder, _, files in os.walk(os.path.join(self.client, ".git")):
            self.assertFalse([each for each in files if each.endswith(".lock") or each.startswith("bagjulen")], folder)


class Applied(WithReports):
    def test_a_report_is_written_into_the_client(self):
        self.scene(self.server, SPEC)
        self.report()
        self.assertEqual(self.apply(), (0, f"{len(self.ids(self.server))} objects stored, 1 references moved\n".encode(), ""))
        self.assert_sound()
        self.assert_clear()
        self.assertEqual(self.ids(self.client), self.ids(self.server))
        self.assertEqual(self.references()[MAIN], self.tip)
        self.assertEqual(self.log(MAIN), f"{NULL} {self.tip} caller <caller@x> 9 +0100\tfetch: storing ref\n")
        self.assertEqual(self.apply(), (0, b"0 objects stored, 0 references moved\n", ""))

    def test_from_a_folder_of_the_work_tree(self):
        below = os.path.join(self.client, "below")
        os.mkdir(below)
        self.scene(self.server, SPEC)
        self.report()
        self.assertEqual(run("apply-report", self.path("scene"), self.path("report"), below)[0], 0)
        self.assertEqual((self.ids(self.client), os.listdir(below)), (self.ids(self.server), []))
        self.assertEqual(self.references()[MAIN], self.tip)

    def test_the_committer_of_the_scene(self):
        self.scene(self.server, SPEC)
        self.report()
        self.assertEqual(self.apply("--scenes-committer")[0], 0)
        self.assertEqual(self.log(MAIN), f"{NULL} {self.tip} fetch <fetch@localhost> 0 +0000\tfetch: storing ref\n")

    def test_the_empty_tree_is_stored_too(self):
        author = {f"GIT_{who}_{what}": "a@x" for who in ("AUTHOR", "COMMITTER") for what in ("NAME", "EMAIL")}
        git(["-C", self.server, "hash-object", "-w", "-t", "tree", "--stdin"])
        tip = git(["-C", self.server, "commit-tree", "-m", "empty", EMPTY_TREE_ID], more=author).decode().strip()
        git(["-C", self.server, "update-ref", "refs/heads/main", tip])
        self.scene(self.server, SPEC)
        self.report()
        self.assertEqual(self.apply()[0], 0)
        self.assert_sound()
        self.assertIn(EMPTY_TREE_ID, self.ids(self.client))

    def test_what_goes_wrong_is_told_in_a_line(self):
        self.scene(self.server, SPEC)
        for text, status in [("refused Malformed 0\n", 1), ("x\n", 3), (f"id {'1' * 40}\nok\n", 3)]:
            with open(self.path("report"), "w") as report:
                report.write(text)
            self.assert_line(self.apply(), status, "")
        self.assertEqual(run("apply-report", self.path("scene"), self.path("none"), self.client)[0], 3)
        self.assertEqual(run("apply-report", self.path("scene"))[0], 2)


class WithMoves(WithReports):
    """A report that moves all: a border, references of two messages, and a symbolic one."""

    def setUp(self):
        super().setUp()
        git(["-C", self.client, "fetch", "-q", "--depth=1", f"file://{self.server}", f"main:{OWN}"])
        self.before = self.references()
        self.border = Repository(self.client).border()
        tip, parent = self.tip, Repository(self.server).text("rev-parse", f"{self.tip}~1")
        self.after = {**self.before, OWN: parent, MAIN: tip, HEAD: f"@{MAIN}"}
        scene = scene_of(Repository(self.client))
        pack = write_pack(Repository(self.server).objects(), 1, "sha1")
        scene.server = [b"".join(map(encoded, [b"packfile\n", b"\1" + pack, Mark.FLUSH]))]
        write_file(self.path("scene"), scene.to_bytes())
        logs = [(OWN, tip, parent, "fetch: forced-update"), (MAIN, NULL, tip, "fetch: storing ref"),
                (HEAD, NULL, tip, "fetch: storing ref")]
        self.write(self.after, [], logs)

    def write(self, references, border, logs):
        """A report with these references, log lines and border, and all objects of the server and the client."""
        ids = sorted({*self.ids(self.server), *self.ids(self.client)})
        lines = [*(f"ref {target} {name}" for name, target in references.items()), *(f"log {' '.join(log)}" for log in logs),
                 *(f"border {digits}" for digits in border), *(f"id {digits}" for digits in ids), "ok"]
        write_file(self.path("report"), "".join(f"{line}\n" for line in lines).encode())


class Moved(WithMoves):
    def test_all_moves(self):
        self.assertEqual(self.apply()[0], 0)
        self.assertEqual((self.references(), Repository(self.client).border()), (self.after, []))
        self.assert_sound()
        self.assert_clear()
        for name, message in ((OWN, "forced-update"), (MAIN, "storing ref"), (HEAD, "storing ref")):
            new = self.after[OWN if name == OWN else MAIN]
            self.assertRegex(self.log(name), rf"{new} caller <caller@x> 9 \+0100\tfetch: {message}\n\Z")

    def test_a_symbolic_reference_becomes_an_id_and_back(self):
        self.apply()
        scene = read_scene(read_file(self.path("scene")))
        scene.references, scene.border = self.after, []
        write_file(self.path("scene"), scene.to_bytes())
        moved = {**self.after, HEAD: self.tip, MAIN: f"@{OWN}"}
        self.write(moved, [], [(HEAD, NULL, self.tip, "fetch: forced-update")])
        self.assertEqual(self.apply()[:2], (0, b"0 objects stored, 2 references moved\n"))
        self.assertEqual(self.references(), moved)

    def test_what_was_changed_meanwhile_is_refused_as_a_whole(self):
        changes = [(["update-ref", MAIN, self.before[OWN]], rf"{MAIN} was changed.* nothing, and {self.tip} stands"),
                   (["symbolic-ref", MAIN, OWN], rf"{MAIN} was changed.* nothing, and @{OWN} stands"),
                   (["update-ref", "-d", OWN], rf"{OWN} was changed.* {self.tip}, and nothing stands"),
                   (["symbolic-ref", HEAD, OWN], rf"{HEAD} was changed.* nothing, and @{OWN} stands"),
                   (["fetch", "-q", "--unshallow", self.server], "the border at .* was changed.* it, and nothing stands")]
        self.write({**self.after, MAIN: self.after[OWN]}, ["1" * 40], [])
        for words, text in changes:
            with self.subTest(words):
                copied = self.path("copied")
                subprocess.run(["rm", "-rf", copied], check=True)
                subprocess.run(["cp", "-a", self.client, copied], check=True)
                git(["-C", copied, *words])
                found = Repository(copied).references(), Repository(copied).border(), self.ids(copied)
                ended = run("apply-report", self.path("scene"), self.path("report"), copied)
                self.assert_line(ended, CHANGED, text)
                self.assertEqual(found, (Repository(copied).references(), Repository(copied).border(), self.ids(copied)))

    def test_what_isnt_moved_may_stand_elsewhere(self):
        git(["-C", self.client, "update-ref", "refs/heads/other", self.tip])
        self.assertEqual(self.apply()[0], 0)
        self.assertEqual(self.references(), {**self.after, "refs/heads/other": self.tip})

    def test_what_was_moved_already_is_passed_over(self):
        git(["-C", self.client, "symbolic-ref", HEAD, MAIN])
        self.assertEqual(self.apply()[:2][0], 0)
        self.assertEqual(self.references(), self.after)

    def meanwhile(self, step, *words):
        """The trouble of a run in which Git is called with these words at a step."""
        with self.assertRaises(Trouble) as caught:
            apply(Repository(self.client), read_scene(read_file(self.path("scene"))),
                  read_report(read_file(self.path("report"))),
                  reached=lambda place: place == step and git(["-C", self.client, *words]))
        self.assert_clear()
        self.assert_sound()
        self.assertEqual(Repository(self.client).border(), self.border)
        return caught.exception

    def test_objects_that_are_refused(self):
        """The file in which the border waits goes, too."""
        self.write(self.after, [], [])
        git(["-C", self.client, "config", "fetch.fsckObjects", "many"])
        self.assert_line(self.apply(), GIT_REFUSED, "bad boolean config value")
        self.assert_clear()
        self.assertEqual((self.references(), Repository(self.client).border()), (self.before, self.border))

    def test_a_change_after_the_first_look(self):
        trouble = self.meanwhile("after objects", "update-ref", MAIN, self.before[OWN])
        self.assertEqual(trouble.status, CHANGED)
        self.assertIn(f"{MAIN} was changed meanwhile", str(trouble))
        self.assertEqual(self.references(), {**self.before, MAIN: self.before[OWN]})

    def test_a_symbolic_change_after_the_first_look(self):
        trouble = self.meanwhile("after objects", "symbolic-ref", HEAD, OWN)
        self.assertEqual(trouble.status, CHANGED)
        self.assertEqual(self.references(), {**self.before, HEAD: f"@{OWN}"})

    def test_the_border_is_put_back_where_references_are_refused(self):
        """Git finds a directory in the place of a reference's file only when it moves it."""
        self.write({**self.before, MAIN: self.tip}, [], [])
        made = os.path.join(self.client, ".git", MAIN, "in", "the", "way")
        with self.assertRaises(Trouble) as caught:
            apply(Repository(self.client), read_scene(read_file(self.path("scene"))),
                  read_report(read_file(self.path("report"))),
                  reached=lambda place: place == "after commit border" and self.block(made))
        self.assertEqual(caught.exception.status, GIT_REFUSED)
        self.assertEqual(Repository(self.client).border(), self.border)
        self.assert_clear()

    def block(self, path):
        os.makedirs(path)
        write_file(os.path.join(path, "file"), b"")
        self.assertEqual(Repository(self.client).border(), [])

    def test_locks_of_others(self):
        for path in ("shallow", MAIN, HEAD):
            lock = os.path.join(self.client, ".git", f"{path}.lock")
            os.makedirs(os.path.dirname(lock), exist_ok=True)
            write_file(lock, b"")
            self.assert_line(self.apply(), GIT_REFUSED, re.escape(path))
            self.assertEqual((self.references(), Repository(self.client).border()), (self.before, self.border))
            os.remove(lock)
        self.assertEqual(self.apply()[0], 0)

    def test_locks_of_a_run_that_lives_and_of_one_that_was_killed(self):
        repository = Repository(self.client)
        file = LockedFile(repository.common_dir, repository.shallow_file(), b"x")
        file.take()
        self.assert_line(self.apply(), GIT_REFUSED, "shallow.lock stands")
        os.close(file._descriptor)
        self.assertEqual(self.apply()[0], 0)
        self.assert_clear()

    def test_a_name_below_another_one(self):
        for name, above in ((f"{OWN}/below", OWN), ("refs/heads/a/b", "refs/heads/a")):
            self.write({**self.after, name: self.tip, above: self.tip}, [], [])
            self.assert_line(self.apply(), GIT_REFUSED, f"Git can't hold both {above} and {name}")
            self.assertEqual(self.references(), self.before)


class Killed(WithMoves):
    """The same report, by runs that are killed."""

    def kill(self, whom, step):
        """A run that is killed at a step. It is over when nobody holds its output any more."""
        words = [KILLED_APPLY, whom, step, self.path("scene"), self.path("report"), self.client]
        ended = subprocess.run(words, capture_output=True, env={**os.environ, **ALONE})
        return ended.returncode

    def test_the_tool_is_killed(self):
        for step in STEPS:
            with self.subTest(step):
                self.again()
                self.assertEqual(self.kill("tool", step), -9)
                is_begun = FROM_MOVER in step
                self.assertEqual(self.references(), self.after if is_begun else self.before)
                self.assertEqual(Repository(self.client).border(), [] if is_begun else self.border)
                self.assert_ends_well()

    def test_the_process_that_moves_references_is_killed(self):
        for step in STEPS:
            if FROM_MOVER in step:
                with self.subTest(step):
                    self.again()
                    self.assertEqual(self.kill("mover", step), GIT_REFUSED)
                    if not step.endswith("references"):
                        self.assertEqual(self.references(), self.before)
                    self.assert_ends_well()

    def again(self):
        """Makes the client once more as it was."""
        if hasattr(self, "kept"):
            subprocess.run(["rm", "-rf", self.client], check=True)
            subprocess.run(["cp", "-a", self.kept, self.client], check=True)
        else:
            self.kept = self.path("kept")
            subprocess.run(["cp", "-a", self.client, self.kept], check=True)

    def assert_ends_well(self):
        self.assert_sound()
        self.assertEqual(self.apply()[0], 0)
        self.assertEqual((self.references(), Repository(self.client).border()), (self.after, []))
        self.assert_sound()
        self.assert_clear()


class Checked(WithReports):
    """An object that Git takes, and its `fsck` finds fault with."""

    def setUp(self):
        super().setUp()
        blob = self.history.add("blob", b"x")
        tree = self.history.add("tree", b"0100644 file\0" + bytes.fromhex(blob))
        lines = f"tree {tree}\nauthor A <a@x> 1 +0000\ncommitter A <a@x> 1 +0000\n\nx\n"
        self.history.add("commit", lines.encode())
        store(Repository(self.server), self.history.objects)
        git(["-C", self.server, "update-ref", "refs/heads/main", self.history.objects[-1].id])
        self.scene(self.server, SPEC)
        self.report()

    def config(self, *pairs):
        for key, value in pairs:
            git(["-C", self.client, "config", key, value])
        return self.apply()[0]

    def test_it_is_taken_unless_the_configuration_asks(self):
        self.assertEqual(self.config(), 0)

    def test_each_key_asks(self):
        for key in ("fetch.fsckObjects", "transfer.fsckObjects"):
            self.assertEqual(self.config((key, "yes")), GIT_REFUSED)
            self.assertEqual(self.ids(self.client), [])
            git(["-C", self.client, "config", "--unset", key])

    def test_the_key_of_fetches_counts_first(self):
        self.assertEqual(self.config(("transfer.fsckObjects", "true"), ("fetch.fsckObjects", "0")), 0)

    def test_a_fault_that_is_ignored(self):
        self.assertEqual(self.config(("fetch.fsckObjects", "true"), ("fetch.fsck.zeroPaddedFilemode", "ignore")), 0)


class Many(unittest.TestCase):
    def test_ten_thousand_references(self):
        """They take less than two seconds of the processor, in memory where that can be had."""
        where = "/dev/shm" if os.access("/dev/shm", os.W_OK) else None
        with tempfile.TemporaryDirectory(dir=where) as folder:
            client, scene, report = (os.path.join(folder, name) for name in ("client", "scene", "report"))
            commit = b"tree 4b825dc642cb6eb9a060e54bf8d69288fbee4904\nauthor A <a@x> 1 +0000\ncommitter A <a@x> 1 +0000\n\n"
            objects = [Object(object_id("sha1", kind, data), kind, data) for kind, data in (("tree", b""), ("commit", commit))]
            git(["init", "-q", client])
            tip, names = objects[1].id, [f"refs/remotes/origin/b{number}" for number in range(10_000)]
            write_file(scene, Scene("sha1", f"{client}/.git", client, objects=objects).to_bytes())
            lines = [*(f"ref {tip} {name}" for name in names), *(f"log {name} {NULL} {tip} fetch: storing ref" for name in names),
                     *(f"id {each.id}" for each in objects), "ok"]
            write_file(report, "".join(f"{line}\n" for line in lines).encode())
            before = getrusage(RUSAGE_CHILDREN)
            ended = run("apply-report", scene, report, client)
            after = getrusage(RUSAGE_CHILDREN)
            self.assertEqual(ended, (0, b"2 objects stored, 10000 references moved\n", ""))
            self.assertLess(after.ru_utime + after.ru_stime - before.ru_utime - before.ru_stime, 2)
