"""The tools as they are called, with a double in place of the engine."""

import os
import re
import tempfile
import unittest

from common import DOUBLE, SPEC, TOOLS, WithRepositories, run
from bagjulen_tools.formats.gitpack import store
from bagjulen_tools.formats.plainpack import object_id
from bagjulen_tools.formats.scene import read_scene
from bagjulen_tools.repository.git import Repository, git
from bagjulen_tools.trials.pairs import LEVELS, Maker
from bagjulen_tools.trials.real_fetch import verdicts
from bagjulen_tools.trials.reasons import REASONS
from bagjulen_tools.trouble import read_file


class Scenes(WithRepositories):
    def test_a_scene_has_what_real_git_says(self):
        self.assertEqual(self.scene(self.server, SPEC), (0, b"", ""))
        scene = read_scene(read_file(self.path("scene")))
        self.assertEqual((scene.references, scene.tags), ({"HEAD": "@refs/heads/main"}, "included"))
        self.assertEqual(sorted(each.id for each in scene.received()), self.ids(self.server))
        greeting, listing, reply = scene.server
        self.assertRegex(greeting, rb"(?s)version 2\n.*fetch=[^\n]*shallow[^\n]* plain-pack plain-pack-2\n")
        self.assertIn(f"{self.tip} refs/heads/main\n".encode(), listing)
        self.assertTrue(reply.startswith(b"000dpackfile\n") and reply.endswith(b"0000"))

    def test_a_bundle_serves_too(self):
        git(["-C", self.server, "bundle", "create", "-q", self.path("bundle"), "--all"])
        self.assertEqual(self.scene(self.path("bundle"), SPEC), (0, b"", ""))
        self.assertEqual(len(read_scene(read_file(self.path("scene"))).received()), len(self.ids(self.server)))

    def test_requests_are_learned_round_by_round(self):
        other = Maker(self.folder, "other", "plain").history
        tip = other.grow()
        store(Repository(self.client), other.objects)
        git(["-C", self.client, "update-ref", "refs/heads/own", tip])
        self.assertEqual(self.scene(self.server, SPEC, behaviour="tells first"), (0, b"", ""))
        scene = read_scene(read_file(self.path("scene")))
        _, _, first, last = scene.server
        self.assertEqual(first, b"0014acknowledgments\n0008NAK\n0000")
        self.assertTrue(last.startswith(b"000dpackfile\n"))
        self.assertEqual(sorted(each.id for each in scene.received()), self.ids(self.server))

    def test_a_server_that_is_ready_ends_the_rounds(self):
        parent = Repository(self.server).text("rev-parse", f"{self.tip}~1")
        git(["-C", self.client, "fetch", "-q", self.server, f"{parent}:refs/heads/own"])
        self.assertEqual(self.scene(self.server, SPEC, behaviour="tells first"), (0, b"", ""))
        scene = read_scene(read_file(self.path("scene")))
        _, _, reply = scene.server
        self.assertRegex(reply, rb"\A0014acknowledgments\n(0031ACK [0-9a-f]{40}\n)+000aready\n0001000dpackfile\n")
        self.assertEqual(len(scene.received()), 3)

    def test_the_remote_of_the_configuration(self):
        git(["-C", self.client, "config", "remote.up.fetch", SPEC])
        git(["-C", self.client, "config", "remote.up.tagOpt", "--no-tags"])
        self.assertEqual(self.scene("--remote", "up", "--without-head", self.server)[0], 0)
        scene = read_scene(read_file(self.path("scene")))
        self.assertEqual((scene.specs, scene.tags, scene.references), ([SPEC], "none", {}))

    def test_what_goes_wrong_is_told_in_a_line(self):
        cases = [([self.folder, SPEC], "", 3, "is no repository"), ([self.path("no"), SPEC], "", 3, "there is nothing"),
                 ([self.path("scene"), SPEC], "", 3, "is no bundle"), ([self.server, "--depth"], "", 2, "unrecognized"),
                 ([self.server, SPEC], "malformed", 3, "can't read the line 'hash sha1'")]
        open(self.path("scene"), "w").close()
        for words, behaviour, status, text in cases:
            self.assert_line(self.scene(*words, behaviour=behaviour), status, re.escape(text))

    def test_a_request_that_git_refuses(self):
        ended = self.scene(self.server, SPEC, behaviour="wants nothing")
        self.assert_line(ended, 4, "git upload-pack refused")


class Compared(unittest.TestCase):
    def test_differences_are_told(self):
        status, out, _ = run("measure/compare-with-git", *DOUBLE, "--level", "plain", "4", "2", behaviour="forgets")
        self.assertEqual(status, 1)
        self.assertIn(b"UNEXPLAINED", out)

    def test_wrong_words(self):
        for words in (["many"], ["-1"], ["1", "2", "3"], ["--level", "none"], ["--first", "x"]):
            status, out, messages = run("measure/compare-with-git", *words)
            self.assertEqual((status, out, messages.count("\n")), (2, b"", 1))

    def test_reasons_are_titles_of_the_documents(self):
        text = read_file(os.path.join(TOOLS, "..", "docs", "DIFFERENCES.md")).decode()
        for title in REASONS:
            self.assertIn(f"**{title}**", text)

    def test_a_seed_makes_one_pair(self):
        for level in LEVELS:
            made = []
            for _ in range(2):
                with tempfile.TemporaryDirectory() as folder:
                    pair = Maker(folder, "checks", level).pair()
                    made.append([str(pair), *(Repository(each).references() for each in (pair.server, pair.client))])
            self.assertEqual(*made)

    def test_what_git_tells(self):
        text = """From /srv/a
 * [new branch]      main       -> origin/main
   1b2c3d4..5e6f7a8  dev        -> origin/dev
 + 1b2c3d4...5e6f7a8 side       -> origin/side  (forced update)
 = [up to date]                 -> origin/first
 ! [rejected]        v1         -> v1  (would clobber existing tag)
 ! [rejected]        topic/one  -> origin/topic/one  (non-fast-forward)
 t [tag update]      v2         -> v2
"""
        self.assertEqual(verdicts(text), {
            ("main", "origin/main"): "new",
            ("dev", "origin/dev"): "fast-forward",
            ("side", "origin/side"): "forced-update",
            ("HEAD", "origin/first"): "up-to-date",
            ("v1", "v1"): "rejected (would overwrite existing tag)",
            ("topic/one", "origin/topic/one"): "rejected (non-fast-forward)",
            ("v2", "v2"): "forced-update",
        })


class Histories(unittest.TestCase):
    def test_objects_have_their_ids(self):
        with tempfile.TemporaryDirectory() as folder:
            maker = Maker(folder, "checks", "whole")
            maker.pair()
            for each in maker.history.objects:
                self.assertEqual(each.id, object_id(maker.hash_name, each.kind, each.data))


class LargeScenes(unittest.TestCase):
    def test_each_kind_is_a_scene(self):
        for kind, count, objects in (("commits", 3, 4), ("references", 5, 2), ("blob", 70_000, 1)):
            with tempfile.TemporaryDirectory() as folder:
                path = os.path.join(folder, "scene")
                self.assertEqual(run("measure/large-scene", kind, str(count), "-o", path), (0, b"", ""))
                with open(path, "rb") as file:
                    scene = read_scene(file.read())
            self.assertEqual((scene.objects, len(scene.received())), ([], objects))


class Help(unittest.TestCase):
    def test_each_tool_tells_its_words(self):
        folders = [os.path.join(TOOLS, each) for each in ("", "measure", "dev")]
        files = [os.path.join(folder, each) for folder in folders for each in os.listdir(folder)]
        tools = [each for each in files if os.path.isfile(each) and os.access(each, os.X_OK) and not each.endswith(("test-tools", "launch"))]
        self.assertGreater(len(tools), 14)
        for tool in tools:
            with self.subTest(tool):
                status, out, messages = run(tool, "--help")
                self.assertEqual((status, messages), (0, ""))
                self.assertIn(b"statuses:", out.lower())
