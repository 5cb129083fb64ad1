"""Wrong bodies of a small crate, tried by the toolchain where it is there."""

import os
import re
import shutil
import tempfile
import unittest

from common import run
from bagjulen_tools.trouble import write_file

FILES = {
    "crates.txt": "tiny:\n",
    "HANDLES": "Handles allowed: none.\n",
    "crates/tiny/src/lib.rt": """\
//! A crate of two functions.
#![tactic(auto)]

ghost use Rattle.std.specs.Prelude.{◌≡◌};

/// The same number.
pub fn same(x: usize) -> usize
    ensures same { result ≡ x }
{
    x
}

/// Any number.
pub fn any(x: usize) -> usize {
    same(x)
}
""",
    "crates/tiny/wrong-bodies/is_one.edit": "file: src/lib.rt\nold:     x\nnew:     1\n",
    "crates/tiny/wrong-bodies/is_the_same_of_one.edit": "file: src/lib.rt\nold:     same(x)\nnew:     same(1)\n",
    "crates/tiny/must-fail/is_gone.edit": "file: src/lib.rt\nold:     gone(x)\nnew:     same(1)\n",
}


class Edits(unittest.TestCase):
    def setUp(self):
        folder = tempfile.TemporaryDirectory()
        self.addCleanup(folder.cleanup)
        self.top = folder.name
        for path, text in FILES.items():
            os.makedirs(os.path.dirname(os.path.join(self.top, path)), exist_ok=True)
            write_file(os.path.join(self.top, path), text.encode())

    def tried(self, *words):
        return run("dev/try-edits", "--repository", self.top, *words)

    @unittest.skipIf(shutil.which("rt") is None, "the toolchain isn't here")
    def test_each_outcome(self):
        status, out, _ = self.tried("tiny", "--jobs", "2")
        *lines, counts = out.decode().splitlines()
        told = dict(re.fullmatch(r"tiny +(\w+) +(refused|let through|not applied) .*", line).groups() for line in lines)
        self.assertEqual(told, {"is_one": "refused", "is_the_same_of_one": "let through", "is_gone": "not applied"})
        self.assertEqual((status, counts), (1, "1 refused, 1 let through, 1 not applied"))

    @unittest.skipIf(shutil.which("rt") is None, "the toolchain isn't here")
    def test_wrong_words(self):
        for words in (["huge"], ["--jobs", "0"], ["--jobs", "x"]):
            status, out, messages = self.tried(*words)
            self.assertEqual((status, out, messages.count("\n")), (2, b"", 1), words)
