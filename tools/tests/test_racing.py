"""Races that are made at random, and journals that are replayed."""

import random
import unittest

from bagjulen_tools.trials.races import fault_of, race_at_random, read_race, replayed
from bagjulen_tools.trouble import Trouble

A, B = "a" * 40, "b" * 40
NAME = "refs/remotes/a/main"
REPORT = f"take 0 1\nhas {A}\nshallow {A}\ncommit 1 1\nset {NAME} {A}\nref {A} {NAME}\nborder {A}\nid {A}\nok\n"


def race(seed):
    return race_at_random(random.Random(seed))


class Made(unittest.TestCase):
    def test_a_scene_is_always_the_same(self):
        self.assertEqual(race("1 0").to_bytes(), race("1 0").to_bytes())
        self.assertEqual(len({race(f"1 {number}").to_bytes() for number in range(50)}), 50)

    def test_it_has_eight_jobs(self):
        self.assertEqual(race("1 0").to_bytes().count(b"remote /srv/"), 8)


class Journals(unittest.TestCase):
    def test_a_report_is_read(self):
        report = read_race(REPORT.encode())
        self.assertEqual([(entry.kind, entry.number) for entry in report.journal], [("take", 1), ("commit", 1)])
        self.assertEqual((report.references, report.border, report.ids), ({NAME: A}, {A}, {A}))
        self.assertTrue(report.is_done)

    def test_a_journal_is_replayed(self):
        scene = race("1 0")
        scene.local.references, scene.local.border, scene.local.objects = {NAME: B}, [B], []
        report = read_race(REPORT.encode())
        report.journal[0].lines.append(("unshallow", B))
        self.assertEqual(replayed(scene.local, report.journal), ({NAME: A}, {A}, {A}))
        report.journal[1].lines.append(("gone", NAME))
        self.assertEqual(replayed(scene.local, report.journal), ({}, {A}, {A}))

    def test_faults(self):
        scene = race("1 0")
        scene.local.references, scene.local.border, scene.local.objects, scene.jobs = {}, [], [], scene.jobs[:2]
        scene.jobs[0].options, scene.jobs[1].options = ["dry-run"], []
        cases = [(REPORT, None), (REPORT.replace(f"border {A}\n", ""), "the state isn't what the journal leaves"),
                 (REPORT.replace("ok\n", ""), "`ok` and a refusal, or neither"),
                 (REPORT.replace("ok", "refused 1 Client"), "job 1 has the entries take commit"),
                 (REPORT.replace(" 1\n", " 0\n"), "job 0 has the entries take commit")]
        for text, fault in cases:
            self.assertEqual(fault_of(scene, read_race(text.encode())), fault)

    def test_what_is_no_report(self):
        for text in ("map 0\n", "take 1 0\n"):
            with self.assertRaises(Trouble):
                read_race(text.encode())
