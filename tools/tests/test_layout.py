"""Where the commands stand, how they are run, and what linters say of them."""

import os
import shutil
import subprocess
import tempfile
import unittest

from bagjulen_tools.paths import TOOLS, TOP

COMMANDS = ("apply-bundle", "apply-report", "bundle-from-git", "check-repository", "git-bagjulen", "mirror-git",
            "scene-from-git", "serve-plain")


def help_of(path: str) -> subprocess.CompletedProcess[bytes]:
    """What a command tells of itself."""
    return subprocess.run([path, "--help"], capture_output=True, cwd=tempfile.gettempdir())


class Layout(unittest.TestCase):
    def test_commands_run_through_links(self) -> None:
        with tempfile.TemporaryDirectory() as folder:
            for name in (*COMMANDS, "dev/quotes", "measure/fuzz"):
                with self.subTest(name):
                    direct = help_of(os.path.join(TOOLS, name))
                    link, second = os.path.join(folder, os.path.basename(name)), os.path.join(folder, "other")
                    os.symlink(os.path.join(TOOLS, name), link)
                    self.assertEqual((direct.returncode, direct.stderr), (0, b""))
                    self.assertEqual(help_of(link).stdout, direct.stdout)
                    os.symlink(os.path.basename(link), second)
                    self.assertEqual(help_of(second).returncode, 0)
                    os.remove(second)

    def test_each_command_of_a_group_has_its_module(self) -> None:
        package = os.path.join(TOOLS, "bagjulen_tools")
        for group in ("dev", "measure", "vectors"):
            for name in os.listdir(os.path.join(TOOLS, group)):
                with open(os.path.join(TOOLS, group, name), encoding="utf-8") as file:
                    text = file.read()
                if "launch" in text:
                    self.assertEqual(text.splitlines()[-1].partition("/../launch\" ")[2], f'{group} {name} "$@"')
                    self.assertTrue(os.path.exists(os.path.join(package, group, name.replace("-", "_") + ".py")), name)

    def test_no_file_is_a_link(self) -> None:
        """The gate refuses a repository that has one."""
        ended = subprocess.run(["git", "ls-files", "-s"], cwd=TOP, capture_output=True, text=True)
        self.assertEqual([line for line in ended.stdout.splitlines() if line.startswith("120000")], [])


class Linters(unittest.TestCase):
    def assert_clean(self, *words: str) -> None:
        if shutil.which(words[0]) is None:
            self.skipTest(f"there is no {words[0]}")
        ended = subprocess.run(words, cwd=TOP, capture_output=True, text=True)
        self.assertEqual(ended.returncode, 0, ended.stdout + ended.stderr)

    def test_ruff(self) -> None:
        self.assert_clean("ruff", "check", "--no-cache", "tools")

    def test_mypy(self) -> None:
        self.assert_clean("mypy", "--cache-dir", os.devnull)
