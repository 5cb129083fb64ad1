"""Each status of the program, as it stands built here or as BAGJULEN names it, over its real ends."""

import os
import re
import resource
import subprocess
import tempfile
import unittest

from bagjulen_tools.engine import BUILT
from bagjulen_tools.paths import TOP
from bagjulen_tools.trouble import read_file

IS_BUILT = os.access(BUILT, os.X_OK)
SCENE = os.path.join(TOP, "examples", "one-commit.scene")
RACE = os.path.join(TOP, "examples", "two-jobs.race")
LIMIT = 1 << 30
# One that isn't proved may be compiled with checks, which take time and memory of their own.
IN_OWN_MEMORY = unittest.skipIf("BAGJULEN" in os.environ, "this is of the program that is built here")


@unittest.skipUnless(IS_BUILT, "the program isn't built")
class Statuses(unittest.TestCase):
    def ended(self, words, given=b"", **how):
        """The status of the program, and what it wrote."""
        given = {"stdin": how.pop("stdin")} if "stdin" in how else {"input": given}
        ended = subprocess.run([BUILT, *words], stdout=how.pop("stdout", subprocess.PIPE), timeout=300, **given, **how)
        return ended.returncode, ended.stdout

    def test_done(self):
        scene = read_file(SCENE)
        self.assertEqual(self.ended(["fetch"], scene), (0, read_file(os.path.join(TOP, "crates", "bagjulen", "stdout"))))
        self.assertEqual(self.ended(["bench", "1"])[0], 0)
        status, text = self.ended(["race"], read_file(RACE))
        self.assertEqual((status, text[-4:]), (0, b"\nok\n"))
        for word in ("--help", "--version"):
            self.assertEqual(self.ended([word])[0], 0)

    def test_refused(self):
        """The server's pack has a digest of another one."""
        scene = bytearray(read_file(SCENE))
        scene[-9] ^= 1
        status, text = self.ended(["fetch"], bytes(scene))
        self.assertEqual(status, 1)
        self.assertIn(b"\nrefused Pack", text)
        self.assertNotIn(b"\nok\n", text)

    def test_input_fails(self):
        folder = os.open(TOP, os.O_RDONLY)
        self.addCleanup(os.close, folder)
        self.assertEqual(self.ended(["fetch"], stdin=folder), (2, b""))

    def test_output_fails(self):
        scene, race = read_file(SCENE), read_file(RACE)
        for words, given in ((["fetch"], scene), (["race"], race), (["bench", "3"], b""), (["--help"], b"")):
            with open("/dev/full", "wb") as full:
                self.assertEqual(self.ended(words, given, stdout=full)[0], 3, words)

    def test_malformed(self):
        scene = read_file(SCENE)
        for given, place in ((b"", 0), (scene[:-1], len(scene) - 4), (scene + b"x", len(scene)), (b"0" + scene, 0)):
            self.assertEqual(self.ended(["fetch"], given), (4, b"malformed %d\n" % place))
        for words, number in (([], 1), (["clone"], 1), (["fetch", "x"], 2), (["check", "x"], 2), (["bench"], 2), (["bench", "0"], 2),
                              (["bench", "1", "x"], 3), (["race", "x"], 2), (["--help", "x"], 2)):
            self.assertEqual(self.ended(words), (4, b"malformed word %d\n" % number), words)

    def test_a_word_of_any_bytes_is_malformed_at_its_own_place(self):
        long = b"x" * 70000
        for words, number in (([b"\xff"], 1), (["fetch", b"\xff"], 2), (["race", b"\xff"], 2), (["bench", b"\xff"], 2),
                              (["bench", "1", b"\xff"], 3), ([b""], 1), ([long], 1), (["fetch", long], 2)):
            self.assertEqual(self.ended(words), (4, b"malformed word %d\n" % number), words)

    def test_help_offers_each_word(self):
        status, text = self.ended(["--help"])
        self.assertEqual(status, 0)
        offered = re.findall(rb"^(?:usage:|      ) bagjulen (\w+)", text, flags=re.MULTILINE)
        self.assertEqual(offered, [b"fetch", b"check", b"bench", b"race", b"mirror"])

    @IN_OWN_MEMORY
    def test_a_scene_that_is_a_byte_too_long(self):
        with tempfile.TemporaryFile() as file:
            file.write(read_file(SCENE))
            file.truncate(LIMIT + 1)
            file.seek(0)
            self.assertEqual(self.ended(["fetch"], stdin=file), (4, b"malformed %d\n" % LIMIT))

    @IN_OWN_MEMORY
    def test_memory_runs_out(self):
        def bounded():
            resource.setrlimit(resource.RLIMIT_DATA, (32 << 20, 32 << 20))

        with tempfile.TemporaryFile() as file:
            file.truncate(LIMIT)
            file.seek(0)
            self.assertEqual(self.ended(["fetch"], stdin=file, preexec_fn=bounded), (5, b""))
