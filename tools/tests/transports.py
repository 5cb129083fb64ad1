"""A server that is reached over each transport, beside Git, with a double in place of the engine."""

import contextlib
import os
import subprocess

from common import ALONE, ENGINE_DOUBLE, TOOLS, WithRepositories
from git_servers import over_http, over_socket

SPEC = "refs/heads/main:refs/heads/copy"
PATH = f"{TOOLS}{os.pathsep}{os.environ['PATH']}"


class WithTransports(WithRepositories):
    """A server that is reached in many ways, and an empty client."""

    def run_git(self, *words: str, folder: str | None = None, **more: str) -> tuple[int, str, str]:
        """The status of a command of Git's in the client, what it wrote, and its messages."""
        own = {"PATH": PATH, "BAGJULEN": ENGINE_DOUBLE, "LC_ALL": "C", "GIT_TERMINAL_PROMPT": "0", **more}
        ended = subprocess.run(["git", *words], cwd=folder or self.client, capture_output=True, timeout=120,
                               env={**os.environ, **ALONE, **own})
        return ended.returncode, ended.stdout.decode(), ended.stderr.decode()

    def state(self) -> tuple[str, str]:
        """The references and the objects of the client."""
        return self.run_git("for-each-ref")[1], self.run_git("count-objects", "-v")[1]

    def by_script(self, text: str) -> str:
        """The path of a script that stands for `ssh`: the last of its words is run here."""
        path = self.path("ssh")
        with open(path, "w", encoding="utf-8") as file:
            file.write('#!/bin/sh\nfor word; do last=$word; done\n' + text)
        os.chmod(path, 0o755)
        return path

    def assert_refused(self, *words: str, told: str | None = None, of_git: tuple[str, ...] | None = None,
                       has_front: bool = False, options: tuple[str, ...] = (), **more: str) -> None:
        """Both refuse, with status 128, and nothing is written. The one line is `told`, or else one of Git's.

        `of_git` are the words for Git where they are others; with `has_front` other lines stand before it.
        """
        before = self.state()
        status, out, messages = self.run_git(*options, "bagjulen", "fetch", *words, **more)
        self.assertEqual((status, out), (128, ""), messages)
        self.assertRegex(messages, r"(?s)\A(.*\n)?fatal: [^\n]+\n\Z" if has_front else r"\Afatal: [^\n]+\n\Z")
        real = self.run_git(*options, "fetch", *(of_git or words), **more)
        self.assertEqual(real[0], 128, real)
        line = messages.splitlines()[-1]
        self.assertIn(line, real[2].splitlines() if told is None else [f"fatal: {told}"])
        self.assertEqual(self.state(), before)

    def transports(self) -> contextlib.ExitStack:
        """Addresses of the server over each transport, in `addresses`."""
        stack = contextlib.ExitStack()
        name = os.path.basename(self.server)
        git, http = (stack.enter_context(each) for each in (over_socket(), over_http(self.folder)))
        self.addresses = [self.server, f"file://{self.server}", f"{git}{self.server}", f"{http}/{name}",
                          f"host:{self.server}"]
        return stack
