"""Checks of what is told of a repository, and of the tools around it."""

import os
import subprocess
import tempfile
import unittest

from bagjulen_tools.formats.rows import rows
from bagjulen_tools.formats.scene import read_scene
from bagjulen_tools.paths import TOOLS
from bagjulen_tools.protocol.lines import Mark
from bagjulen_tools.trials.haves import (
    Client,
    Skipping,
    commit,
    line_of,
    scene_of_line,
    tag,
    told,
    told_first,
    windows_of,
    windows_traced,
)


def tool(*words):
    """The status and the output of a tool."""
    ended = subprocess.run([os.path.join(TOOLS, words[0]), *words[1:]], capture_output=True)
    return ended.returncode, ended.stdout.decode()


class Lines(unittest.TestCase):
    def setUp(self):
        self.line = line_of(20)
        self.ids = [each.id for each in self.line]

    def test_what_is_told_of_a_line(self):
        self.assertEqual(told(self.line, "noop"), [])
        self.assertEqual(told(self.line, "consecutive"), self.ids[::-1])
        self.assertEqual(told(self.line, "skipping"), [self.ids[place - 1] for place in (20, 18, 15, 10, 2, 1)])

    def test_a_window_that_is_not_full_ends(self):
        self.assertEqual(list(map(len, windows_of(self.ids))), [16, 4])
        self.assertEqual(list(map(len, windows_of(self.ids[:16]))), [16, 0])
        sizes = [16, 32, 64, 128, 256, 512, 1024, 1024, 1024, 920]
        self.assertEqual(list(map(len, windows_of(list(range(5000))))), sizes)

    def test_the_walk_of_skipping_is_that_of_a_line(self):
        client = Client(self.line, {"refs/heads/line": self.ids[-1]}, "skipping")
        for as_git in (False, True):
            self.assertEqual(Skipping(client, as_git).told(), told(self.line, "skipping"))

    def test_git_queues_parents_without_their_time(self):
        first, second = commit(10, []), commit(20, [])
        early, late = commit(11, [first.id]), commit(30, [second.id])
        noted = tag(late.id, "v1")
        references = {"refs/heads/a": early.id, "refs/tags/v1": noted.id}
        client = Client([first, second, early, late, noted], references, "skipping")
        self.assertEqual(Skipping(client, False).told(), [late.id, second.id, early.id, first.id])
        self.assertEqual(Skipping(client, True).told(), [late.id, early.id, second.id, first.id])

    def test_the_scene_of_a_line(self):
        client = Client(self.line, {"refs/heads/line": self.ids[-1]}, "consecutive")
        with tempfile.TemporaryDirectory() as folder:
            path = os.path.join(folder, "scene")
            self.assertEqual(tool("measure/long-line", "20", "-o", path), (0, ""))
            with open(path, "rb") as file:
                data = file.read()
        self.assertEqual(data, scene_of_line(client, windows_of(self.ids[::-1])).to_bytes())
        scene = read_scene(data)
        self.assertEqual(b"".join(scene.server).count(b"0008NAK\n"), 1)
        self.assertEqual(scene.objects[1:], self.line)

    def test_a_trace_is_read(self):
        text = """12:00:00 pkt-line.c:80 packet:        fetch> command=ls-refs
12:00:00 pkt-line.c:80 packet:        fetch> 0000
12:00:00 pkt-line.c:80 packet:        fetch> have 11
12:00:00 pkt-line.c:80 packet:  upload-pack< have 11
12:00:00 pkt-line.c:80 packet:        fetch> 0000
12:00:00 pkt-line.c:80 packet:        fetch> done
12:00:00 pkt-line.c:80 packet:        fetch> 0000
"""
        self.assertEqual(windows_traced(text), [["11"], []])

    def test_what_is_told_again_is_left_out(self):
        self.assertEqual(told_first([["1", "2"], ["1", "3"], ["3"]]), [["1", "2"], ["3"]])


class Rows(unittest.TestCase):
    def test_all_scenes_are_shown(self):
        status, out = tool("dev/show-rows")
        kinds = [(row.whose, bool(row.lines)) for row in rows("fetch_rows")]
        self.assertGreater(len(set(kinds)), 3)
        self.assertEqual((status, out.count("\n== status ")), (0, kinds.count(("fetch", False))))

    def test_rows_are_found_by_words(self):
        status, out = tool("dev/show-rows", "single", "bytes")
        self.assertEqual((status, out.count("\n== status ")), (0, 1))
        self.assertIn(f"\n{Mark.DELIMITER.value.decode()}\n0\n0\n0\ne\nv\n", out)
