"""Input that is made at random, what is said of how a run of it ends and what has to come, and how it is cut down."""

import os
import re
import tempfile
import unittest
from test_tools import DOUBLE, run

from bagjulen_tools.formats.plainpack import object_id
from bagjulen_tools.formats.rows import rows, scenes
from bagjulen_tools.paths import CRATES
from bagjulen_tools.trials.attacks import OF_A_SIZE, announced
from bagjulen_tools.trials.expectations import answer_of
from bagjulen_tools.trials.findings import findings, mirrored, state_in
from bagjulen_tools.trials.mutation import Mutator, raced, split_lines
from bagjulen_tools.trials.outcomes import OUTCOMES
from bagjulen_tools.trials.plain_server import State
from bagjulen_tools.trials.races import TREE, commit
from bagjulen_tools.trials.random_input import Repositories, scene_of
from bagjulen_tools.trials.runner import ProgramExit, minimised
from bagjulen_tools.trouble import read_file

SCENES = [scene for _, scene, _ in scenes()]
REPORT = read_file(os.path.join(CRATES, "bagjulen", "stdout"))
TWO_JOBS = read_file(os.path.join(CRATES, "..", "examples", "two-jobs.race"))


def ended(status, written, is_late=False, asked="fetch"):
    return ProgramExit(status, written, 0.0, 0, is_late, asked)


class Made(unittest.TestCase):
    def test_a_scene_is_always_the_same(self):
        mutator, again = Mutator(SCENES), Mutator(SCENES)
        made = [mutator.scene("1", number) for number in range(300)]
        self.assertEqual(made, [again.scene("1", number) for number in reversed(range(300))][::-1])
        self.assertGreater(len(set(made) - set(SCENES)), 200)
        self.assertNotEqual(made, [mutator.scene("2", number) for number in range(300)])

    def test_a_race_has_the_repository_of_one_scene_and_the_jobs_of_others(self):
        scene = SCENES[0]
        self.assertEqual(raced([scene, scene]), scene)
        front, first, second = (TWO_JOBS.index(b"remote /srv/a"), TWO_JOBS.index(b"remote /srv/b"), len(TWO_JOBS))
        alone = [TWO_JOBS[: first - 8] + b"0000", TWO_JOBS[: front - 8] + TWO_JOBS[first - 8 : second]]
        self.assertEqual(raced([alone[0], *alone]), TWO_JOBS)
        self.assertEqual(raced([alone[0]]), TWO_JOBS[: front - 8] + b"0000")
        made = [Mutator(SCENES).race("1", number) for number in range(200)]
        self.assertEqual(made, [Mutator(SCENES).race("1", number) for number in range(200)])
        self.assertGreater(len(set(made)), 150)

    def test_lines_are_split_and_nothing_is_lost(self):
        cases = [b"", b"0000", b"0006ab0001", b"0006ab0003cd", b"ffff", b"000", b"-001ab", b"0004xyz"]
        for data in (*SCENES, *cases):
            self.assertEqual(b"".join(split_lines(data)), data)
        self.assertEqual(split_lines(b"0006ab0001" b"0003cd"), [b"0006ab", b"0001", b"0003cd"])


    def test_repositories_are_always_the_same(self):
        one, other = Repositories(), Repositories()
        for make, again in zip((one.server, one.bundle, one.scene, one.mirror), (other.server, other.bundle, other.scene, other.mirror)):
            made = [make("1", number) for number in range(20)]
            self.assertEqual(made, [again("1", number) for number in range(20)])
            self.assertEqual(len(set(made)), 20)

    def test_attacks_are_input_that_is_read(self):
        for about, words, given in [*announced(), *((make.__doc__, *make(20)) for make in OF_A_SIZE)]:
            if words is None:
                self.assertIsNotNone(answer_of(given), about)
            elif words == ["check"]:
                self.assertIsNotNone(state_in(given), about)


class Expected(unittest.TestCase):
    """What has to come is worked out as it stands in the rows, which scripts of vectors wrote."""

    def test_rows_of_servers_and_bundles(self):
        inputs, answers = (re.split(rb"(?m)^(?== )", read_file(os.path.join(CRATES, "serve_rows", name)))[1:]
                           for name in ("stdin", "stdout"))
        worked_out = [(answer_of(row), answer) for row, answer in zip(inputs, answers)]
        self.assertEqual([wanted for told, wanted in worked_out if told not in (None, wanted)], [])
        self.assertGreater(sum(told is not None for told, _ in worked_out), 170)

    def test_what_is_no_row(self):
        for row in (b"", b"= bundle\n", b"= serve a\n? no\n", b"= other a\n", b"= serve a\nobject commit a\n",
                    b"= bundle a\nunder 11 blob a\n"):
            self.assertIsNone(answer_of(row), row)

    def test_files_that_were_written(self):
        """Nothing can be listed before."""
        told = answer_of(b"= bundle a\n? files\n? put x\n? files")
        self.assertEqual(told, b"= bundle a\n? files\nfailed\n? put x\n? files\nfile a.bundle\n")

    def test_a_check_and_a_mirror(self):
        root = commit(1, None)
        state = State("sha1", {root.id: root}, {"refs/heads/a": root.id, "HEAD": "@refs/heads/a"})
        self.assertEqual(findings(state), (b"missing %s %s\nfound 1\n" % (root.id.encode(), TREE.id.encode()), 1))
        self.assertEqual(mirrored(state, 1), (b"refused NotClosed %s %s\n" % (root.id.encode(), TREE.id.encode()), 1))
        state = State("sha1", {each.id: each for each in (root, TREE)}, state.references)
        ids = "".join(f"id {digits}\n" for digits in sorted(state.objects))
        self.assertEqual(mirrored(state, 8), (f"ref {root.id} refs/heads/a\n{ids}ok\n".encode(), 0))
        self.assertEqual(mirrored(state, 9), (b"refused Workers 9\n", 1))
        self.assertEqual(state_in(scene_of(state)), state)
        self.assertEqual(state_in(scene_of(State("sha1", state.objects, {"refs/heads/a": root.id.upper()}))).references["refs/heads/a"], root.id)
        state.references["refs/heads/b"] = ""
        self.assertIsNone(state_in(scene_of(state)))
        self.assertEqual(object_id("sha1", "tree", b""), TREE.id)


class Faults(unittest.TestCase):
    def test_reports_that_are_stated(self):
        self.assertIsNone(ended(0, REPORT).fault(b""))
        self.assertIsNone(ended(4, b"malformed 12\n").fault(b"0" * 12))
        for name, _, report in scenes():
            text, status = report.encode("utf-8", "surrogateescape").rsplit(b"== status ", 1)
            self.assertIsNone(ended(int(status), text).fault(b"0" * 100000), name)

    def test_reports_of_races_that_are_stated(self):
        reports = [row for row in rows("shared_rows") if row.whose == "race"]
        self.assertGreater(len(reports), 6)
        for row in reports:
            text, status = row.answer.rsplit(b"== status ", 1)
            self.assertIsNone(ended(int(status), text, asked="race").fault(b"0" * 100000), row.about)
        self.assertEqual(ended(1, b"refused 0 ServerError a\nrefused 3 Client\n", asked="race").word(), "status 1, Client")
        self.assertEqual(ended(1, b"refused NotClosed %s %s\n" % (b"0" * 40, b"1" * 40), asked="race").word(), "status 1, NotClosed")
        self.assertEqual(ended(0, b"refused 0 Client\n", asked="race").fault(b""), "lines with status 0")
        self.assertEqual(ended(1, b"ok\n", asked="race").fault(b""), "lines with status 1")
        self.assertEqual(ended(0, REPORT, asked="race").fault(b""), "lines with status 0")

    def test_faults(self):
        cases = [(ended(-11, b""), "signal 11"), (ended(5, b""), "out of memory"), (ended(2, b""), "status 2"),
                 (ended(0, REPORT, True), "late"), (ended(0, REPORT[:-3]), "lines with status 0"),
                 (ended(1, REPORT), "lines with status 1"), (ended(4, b"malformed 13\n"), "place"),
                 (ended(4, b"malformed 1\nmalformed 1\n"), "lines with status 4")]
        for each, fault in cases:
            self.assertEqual(each.fault(b"0" * 12), fault)

    def test_another_answer(self):
        self.assertEqual(ended(0, b"ok\n", asked="check").fault(b"", (1, b"found 1\n")), "another answer")
        self.assertIsNone(ended(0, b"ok\n", asked="check").fault(b"", (0, b"ok\n")))
        self.assertIsNone(ended(4, b"malformed 0\n", asked="check").fault(b"", (0, b"ok\n")))
        self.assertEqual(ended(1, b"refused Workers 9\nok\n", asked="mirror").fault(b""), "lines with status 1")

    def test_names_that_are_told(self):
        self.assertEqual(ended(1, b"refused Malformed 5\n").names(), {"Malformed"})
        told = b"missing %(id)s %(id)s\nbroken a b Depth\nfound 2\n" % {b"id": b"0" * 40}
        for name in (b"a/b", b"a\x80"):
            self.assertEqual(ended(1, told.replace(b"a b", name), asked="check").names(), {"missing", "Depth"})
        text = b"= serve a\nrefused malformed line at byte 3 of the request\ngives 9 0042ERR want 00 not offered%0A\n"
        self.assertEqual(ended(0, text, asked="server").names(), {"Malformed", "want not offered"})
        self.assertEqual({name for stated in OUTCOMES.values() for name in stated.names if not name}, set())

    def test_what_is_counted(self):
        self.assertEqual(ended(1, b"refused Malformed 5\n").word(), "status 1, Malformed")
        self.assertEqual(ended(0, REPORT).word(), "status 0")

    def test_the_least_scene(self):
        self.assertEqual(minimised(b"0000abcdefgh" * 9, lambda scene: b"c" in scene and scene.count(b"f") > 1), b"fcf")
        self.assertEqual(minimised(b"abc", lambda scene: True), b"")
        self.assertEqual(minimised(b"abcd", lambda scene: b"a" in scene, 3), b"ab")


class Fuzzed(unittest.TestCase):
    def test_a_fault_is_saved(self):
        with tempfile.TemporaryDirectory() as folder:
            words = ("6", "1", *DOUBLE, "--jobs", "2", "--tries", "20", "-o", folder)
            status, told, _ = run("measure/fuzz", *words)
            saved = os.listdir(folder)
        self.assertEqual(status, 1)
        self.assertIn(f"6 inputs, {len(saved)} ended otherwise\n", told.decode())
        self.assertRegex(told, rb"input \d+: lines with status 1, by \d+ bytes in ")

    def test_words(self):
        self.assertEqual(run("measure/fuzz", "1", "1", "--engine", "/no/program")[0], 5)
        self.assertEqual(run("measure/fuzz", "-1", "1")[0], 2)


if __name__ == "__main__":
    unittest.main()
