"""The words of `git bagjulen clone` beside Git's own."""

import os
import shutil
import unittest

from bagjulen_tools.repository.git import Repository
from bagjulen_tools.trouble import read_file
from test_command import IS_BUILT, WithServer


@unittest.skipUnless(IS_BUILT, "the program isn't built")
class Words(WithServer):
    def setUp(self) -> None:
        super().setUp()
        os.makedirs(self.path("work/below"))
        self.commit("below/file")
        self.push()

    def assert_alike(self, *words: str, address: str | None = None, status: int = 0) -> None:
        """Clones by both into the same place, one after the other, and compares all."""
        found = []
        for front in ((), ("bagjulen",)):
            ended = self.run_git(None, *front, "clone", "-q", *words, address or f"file://{self.server}", "made")
            self.assertEqual(ended[0], status, ended)
            found.append((ended, self.standing() if os.path.isdir(self.path("made")) else None))
            for place in ("made", "separate"):
                shutil.rmtree(self.path(place), ignore_errors=True)
        self.assertEqual(found[1], found[0], words)

    def standing(self) -> tuple[object, ...]:
        """What stands in the clone: references, border, objects, configuration, HEAD, and files of the work tree."""
        repository = Repository(self.path("made"))
        texts = [read_file(path) if os.path.exists(path) else None for path in (
            os.path.join(repository.git_dir, name)
            for name in ("config", "config.worktree", "HEAD", "logs/HEAD", "info/sparse-checkout"))]
        texts[3] = texts[3] and texts[3].partition(b"\t")[2]
        files = [os.path.join(at, file) for at, _, names in os.walk(repository.path) for file in names
                 if "/.git" not in at and repository.work_tree()]
        return repository.references(), repository.border(), sorted(repository.stored_ids()), texts, sorted(files)

    def test_words(self) -> None:
        for words in (["-c", "a.b=c d", "-c", "x.y", "-c", "remote.origin.fetch=+refs/tags/*:refs/marks/*"], ["--sparse"],
                      ["--tags", "--no-local"], ["--separate-git-dir", "separate"],
                      ["--shallow-since", "2001-01-01"], ["--mirror", "--depth", "1"], ["-u", "git-upload-pack", "-4"]):
            with self.subTest(words):
                self.assert_alike(*words)

    def test_a_detached_head(self) -> None:
        self.git(self.server, "branch", "other", "side~1")
        self.git(self.server, "update-ref", "--no-deref", "HEAD", "refs/heads/other")
        self.assert_alike("--single-branch")

    def test_the_name_of_the_remote(self) -> None:
        self.more = {"GIT_CONFIG_COUNT": "1", "GIT_CONFIG_KEY_0": "clone.defaultRemoteName", "GIT_CONFIG_VALUE_0": "up"}
        self.assert_alike()

    def test_a_hook_of_a_template(self) -> None:
        hooks = self.path("template/hooks")
        os.makedirs(hooks)
        with open(os.path.join(hooks, "post-checkout"), "w", encoding="utf-8") as file:
            file.write('#!/bin/sh\necho "$@" >hooked.$1.$2.$3\necho told\nexit 3\n')
        os.chmod(os.path.join(hooks, "post-checkout"), 0o755)
        self.assert_alike("--template", "template", status=3)

    def test_a_shallow_server(self) -> None:
        self.git(None, "clone", "-q", "--bare", "--depth", "1", f"file://{self.server}", "shallow")
        self.assert_alike("--reject-shallow", address=f"file://{self.path('shallow')}", status=128)

    def test_submodules(self) -> None:
        self.more = {"GIT_CONFIG_COUNT": "1", "GIT_CONFIG_KEY_0": "protocol.file.allow", "GIT_CONFIG_VALUE_0": "always"}
        self.work("submodule", "add", "-q", f"file://{self.server}", "part")
        self.work("commit", "-q", "-m", "part")
        self.push()
        self.assert_alike("--recurse-submodules")
