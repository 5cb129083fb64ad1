"""Lines, packs, scenes and reports, against the examples of the repository."""

import os
import unittest

from bagjulen_tools.formats.plainpack import MalformedPack, Object, object_id, read_pack, write_pack
from bagjulen_tools.formats.report import read_report
from bagjulen_tools.formats.scene import read_scene
from bagjulen_tools.paths import TOP
from bagjulen_tools.protocol.lines import MalformedLine, Mark, encoded, placed_lines
from bagjulen_tools.remote.client import config_lines, quoted
from bagjulen_tools.trouble import BAD_INPUT, Trouble, read_file

COMMIT = b"tree 4b825dc642cb6eb9a060e54bf8d69288fbee4904\nauthor A <a@x> 1 +0000\ncommitter A <a@x> 1 +0000\n\none\n"
EMPTY_TREE_ID = "4b825dc642cb6eb9a060e54bf8d69288fbee4904"
COMMIT_ID = "bc6e39d85183dbf480419262896d4ffa452774ab"
OBJECTS = [Object(EMPTY_TREE_ID, "tree", b""), Object(COMMIT_ID, "commit", COMMIT)]


class Lines(unittest.TestCase):
    def test_lines_are_read_as_written(self):
        lines = [b"version 2\n", Mark.DELIMITER, b"", b"\xff" * 65516, Mark.FLUSH]
        text = b"".join(map(encoded, lines))
        self.assertEqual([line for _, line in placed_lines(text)], lines)

    def test_bytes_that_are_no_lines(self):
        cases = [(b"0003", 0), (b"0002", 0), (b"0005", 0), (b"00", 0), (b"0004000g", 4), (b"fff1", 0), (b"+004", 0)]
        for text, place in cases:
            with self.assertRaises(MalformedLine) as caught:
                list(placed_lines(text))
            self.assertEqual(caught.exception.place, place)


class Packs(unittest.TestCase):
    def test_the_packs_of_the_formats(self):
        self.assertEqual(write_pack(OBJECTS, 1, "sha1")[-20:].hex(), "f28e64e54bf04a958245d45f75f49b57f957d997")
        self.assertEqual(write_pack(OBJECTS, 2, "sha1")[-20:].hex(), "2f866d939946488509348477f123b38e3dd83bc3")
        self.assertEqual(write_pack([], 1, "sha1")[-20:].hex(), "251fc4e0480b1d3059e8ff9ce4fa99f225b03f30")

    def test_packs_are_read_as_written(self):
        for version in (1, 2):
            self.assertEqual(read_pack(write_pack(OBJECTS, version, "sha1"), "sha1"), OBJECTS)
        wide = [Object(object_id("sha256", each.kind, each.data), each.kind, each.data) for each in OBJECTS]
        self.assertEqual(read_pack(write_pack(wide, 2, "sha256"), "sha256"), wide)

    def test_broken_packs(self):
        pack = write_pack(OBJECTS, 2, "sha1")
        for broken in (pack[:-1], pack + b"\0", pack[:50] + b"\0" + pack[51:], b"PACK" + pack[4:]):
            with self.assertRaises(MalformedPack):
                read_pack(broken, "sha1")


class Scenes(unittest.TestCase):
    def test_the_first_example(self):
        scene = read_scene(read_file(os.path.join(TOP, "examples", "one-commit.scene")))
        self.assertEqual((scene.hash_name, scene.git_dir, scene.work_tree), ("sha1", "/w/.git", "/w"))
        self.assertEqual(scene.specs, ["+refs/heads/main:refs/remotes/origin/main"])
        self.assertEqual((scene.tags, scene.options, scene.objects), ("none", [], []))
        self.assertEqual(scene.received(), OBJECTS)

    def test_scenes_are_read_as_written(self):
        scene = read_scene(read_file(os.path.join(TOP, "examples", "second.scene")))
        scene.lenient, scene.border, scene.worktrees = True, [COMMIT_ID], [("refs/heads/main", "/w b")]
        scene.extra, scene.options = ["HEAD"], ["depth 3", "dry-run"]
        self.assertEqual(read_scene(scene.to_bytes()), scene)

    def test_bytes_that_are_no_scene(self):
        text = read_file(os.path.join(TOP, "examples", "one-commit.scene"))
        for broken in (b"", text[:-4], text + b"0000", b"0005x" + text,
                       text.replace(b"hash sha1", b"hash sha2"), text.replace(b"000fworkdir /w", b"000fref refs/x")):
            with self.assertRaises(Trouble) as caught:
                read_scene(broken)
            self.assertEqual(caught.exception.status, BAD_INPUT)


class Reports(unittest.TestCase):
    def test_the_report_of_the_first_example(self):
        report = read_report(read_file(os.path.join(TOP, "crates", "bagjulen", "stdout")))
        self.assertEqual([len(request) for request in report.requests()], [7, 6])
        self.assertIn(f"want {COMMIT_ID}\n".encode(), report.requests()[1])
        (mapping,) = report.mappings
        self.assertEqual((mapping.source, mapping.destination), ("refs/heads/main", "refs/remotes/origin/main"))
        self.assertEqual(mapping.mode, "new")
        self.assertEqual(report.references, {"refs/remotes/origin/main": COMMIT_ID})
        self.assertEqual([line.message for line in report.logs], ["fetch: storing ref"])
        self.assertEqual(report.ids, [EMPTY_TREE_ID, COMMIT_ID])

    def test_lines_of_other_reports(self):
        text = rb'''> "a\"\\\n\x00"
> 0000
map 0 refs/heads/a -> (none): up-to-date
map 1 HEAD -> refs/heads/b: fast-forward [symbolic-to-direct]
map 2 refs/heads/c -> refs/heads/c: rejected (cannot write into checked-out branch at "/w/a, /w/b")
ref @refs/heads/b HEAD
border 11
ok
'''
        report = read_report(text)
        self.assertEqual(report.sent[0], b'a"\\\n\0')
        none, direct, rejected = report.mappings
        self.assertEqual((none.destination, direct.becomes_direct), (None, True))
        self.assertTrue(rejected.mode.startswith("rejected (cannot write into checked-out branch"))
        self.assertEqual((report.references, report.border), ({"HEAD": "@refs/heads/b"}, ["11"]))

    def test_texts_that_are_no_report(self):
        for text in (b"malformed 0\n", b"", b"id 1\n", b"ok\nid 1\n", b'> "a\nok\n', b"map x\nok\n"):
            with self.assertRaises(Trouble) as caught:
                read_report(text)
            self.assertEqual(caught.exception.status, BAD_INPUT)


class Configurations(unittest.TestCase):
    def test_lines_of_what_a_fetch_reads(self):
        entries = [("core.bare", "false"), ("core.logallrefupdates", "true"), ("fetch.negotiationalgorithm", "noop"),
                   ("gitoxide.useragent", 'a "b'), ("pack.threads", None)]
        lines = ["[fetch]", "negotiationAlgorithm = noop", "[gitoxide]", 'userAgent = "a \\"b"', "[pack]", "threads"]
        self.assertEqual(list(config_lines(entries, True)), lines)
        self.assertEqual(list(config_lines(entries[:2], False)), ["[core]", "logAllRefUpdates = true"])

    def test_values_in_quotes(self):
        for value, text in [("a/b", "a/b"), ("", '""'), (" a", '" a"'), ("#", '"#"'), ("a\nb\t", '"a\\nb\\t"')]:
            self.assertEqual(quoted(value), text)
