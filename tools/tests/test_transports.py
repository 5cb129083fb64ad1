"""Which transports may be used, and how an address is reached, beside Git. A double stands for the engine."""

import os
import shutil
import subprocess
import unittest
from unittest import mock

from common import ALONE
from transports import SPEC, WithTransports
from bagjulen_tools.protocol.allowed import check_allowed
from bagjulen_tools.repository.git import entries_in
from bagjulen_tools.trouble import Trouble

# Entries of the configuration, and variables of the environment.
POLICIES: tuple[tuple[list[str], dict[str, str]], ...] = (
    ([], {}), ([], {"GIT_ALLOW_PROTOCOL": "https"}), ([], {"GIT_ALLOW_PROTOCOL": ""}),
    ([], {"GIT_ALLOW_PROTOCOL": "x:file:git"}),
    (["protocol.file.allow=never"], {}), (["protocol.file.allow=NEVER", "protocol.file.allow=Always"], {}),
    (["protocol.file.allow=never"], {"GIT_ALLOW_PROTOCOL": "file"}), (["protocol.allow=never"], {}),
    (["protocol.allow=never", "protocol.file.allow=user"], {}), (["protocol.allow=maybe"], {}),
    (["protocol.git.allow=maybe"], {}), ([], {"GIT_PROTOCOL_FROM_USER": "0"}), ([], {"GIT_PROTOCOL_FROM_USER": "off"}),
    ([], {"GIT_PROTOCOL_FROM_USER": "maybe"}),
    (["protocol.git.allow=user"], {"GIT_PROTOCOL_FROM_USER": "no"}), (["protocol.File.allow=never"], {}),
)


class Allowed(unittest.TestCase):
    def of_git(self, address: str, entries: list[str], more: dict[str, str]) -> str | None:
        """The line by which Git refuses a transport, or None where it goes on to connect."""
        words = [word for entry in entries for word in ("-c", entry)]
        ended = subprocess.run(["git", *words, "ls-remote", address], capture_output=True, text=True,
                               env={**os.environ, **ALONE, "LC_ALL": "C", **more})
        first = ended.stderr.splitlines()[0].removeprefix("fatal: ")
        return None if "unable to connect" in first or "does not appear to be" in first else first

    def of_ours(self, transport: str, entries: list[str], more: dict[str, str]) -> str | None:
        words = [word for entry in entries for word in ("-c", entry)]
        listed = subprocess.run(["git", *words, "config", "--list", "-z"], stdout=subprocess.PIPE, cwd="/",
                                env={**os.environ, **ALONE}).stdout
        try:
            with mock.patch.dict(os.environ, more):
                check_allowed(transport, entries_in(listed))
        except Trouble as trouble:
            return str(trouble)
        return None

    def test_what_git_allows(self) -> None:
        ways = (("file", "/nowhere"), ("git", "git://127.0.0.1:1/x"), ("ext", "ext::false"))
        for transport, address in ways:
            for entries, more in POLICIES:
                with self.subTest((transport, entries, more)):
                    if transport != "ext" or not any("file" in listed for listed in more.values()):
                        ours = self.of_ours(transport, entries, more)
                        self.assertEqual(ours, self.of_git(address, entries, more))

    def test_a_policy_without_a_value(self) -> None:
        with self.assertRaisesRegex(Trouble, "missing value for 'protocol.file.allow'"):
            check_allowed("file", [("protocol.file.allow", None)])


class Reached(WithTransports):
    def clones(self, address: str, *options: str, folder: str | None = None, **more: str) -> list[str]:
        """The configurations of two clones, by Git and by the command."""
        found = []
        for name, front in (("theirs", ()), ("ours", ("bagjulen",))):
            words = ["clone", "-q", "--single-branch", "--no-tags", address, self.path(name)]
            status, _, messages = self.run_git(*options, *front, *words, folder=folder or self.folder, **more)
            self.assertEqual(status, 0, messages)
            with open(self.path(f"{name}/.git/config"), encoding="utf-8") as file:
                found.append(file.read())
        ids = [self.run_git("rev-parse", "HEAD", folder=self.path(name))[1] for name in ("theirs", "ours")]
        self.assertEqual(ids[0], ids[1])
        return found

    def test_over_each_transport(self) -> None:
        script = self.by_script('exec sh -c "$last"\n')
        with self.transports():
            for number, address in enumerate(self.addresses):
                ended = self.run_git("bagjulen", "fetch", address, f"refs/heads/main:refs/heads/copy{number}",
                                     GIT_SSH_COMMAND=script)
                self.assertEqual(ended[0], 0, ended)

    def test_the_transport_is_asked_for_before_it_is_used(self) -> None:
        never = ("-c", "protocol.file.allow=never")
        self.assert_refused(self.server, SPEC, options=never)
        self.assert_refused(self.server, SPEC, GIT_ALLOW_PROTOCOL="https")
        status, _, messages = self.run_git(*never, "bagjulen", "clone", "-q", self.server, "copy")
        self.assertEqual((status, messages), (128, "fatal: transport 'file' not allowed\n"))
        self.assertFalse(os.path.exists(os.path.join(self.client, "copy")))

    def test_addresses_with_marks(self) -> None:
        os.rename(self.server, self.path("server"))
        shutil.copytree(self.path("server"), self.path("server#b?c.git"))
        self.run_git("update-ref", "-d", "refs/heads/main", folder=self.path("server"))
        self.clones(f"file://{self.path('server#b?c.git')}")

    def test_an_address_that_stands_for_another(self) -> None:
        theirs, ours = self.clones("short:server.git", "-c", f"url.file://{self.folder}/.insteadOf=short:")
        self.assertEqual(ours, theirs)
        self.assertIn("url = short:server.git\n", ours)

    def test_a_name_without_its_end(self) -> None:
        os.mkdir(self.path("below"))
        below = self.path("below")
        for word, folder in (("server", self.folder), ("../server", below), ("../below/../server.git", below)):
            with self.subTest(word):
                theirs, ours = self.clones(word, folder=folder, PWD=folder)
                self.assertEqual(ours, theirs)
                for name in ("theirs", "ours"):
                    shutil.rmtree(self.path(name))

    def test_a_path_where_nothing_is(self) -> None:
        for word in ("nowhere", self.path("nowhere")):
            real = self.run_git("clone", word, "copy")
            self.assertEqual(self.run_git("bagjulen", "clone", word, "copy"), real)

    def test_what_is_refused_by_its_name(self) -> None:
        for address, more, told in (("host:/x", {"GIT_SSH_VARIANT": "plink"}, "the variant 'plink' of ssh"),
                                    ("git://127.0.0.1:1/x", {"GIT_PROXY_COMMAND": "nc"}, "GIT_PROXY_COMMAND")):
            ended = self.run_git("bagjulen", "fetch", address, SPEC, **more)
            self.assertEqual(ended[0], 128)
            self.assertRegex(ended[2], rf"\Afatal: [^\n]*{told}[^\n]* supported by git bagjulen\n\Z")

    def test_the_command_for_ssh(self) -> None:
        script, option = self.by_script('exec sh -c "$last"\n'), "core.sshCommand={}"
        for entry, variable, value in ((script, "GIT_SSH", "false"), ("false", "GIT_SSH_COMMAND", script),
                                       ("", "GIT_SSH", script)):
            with self.subTest(variable):
                words = ["-c", option.format(entry), "bagjulen", "fetch", f"host:{self.server}", f"+{SPEC}"]
                ended = self.run_git(*words, **{variable: value})
                self.assertEqual(ended[0], 0, ended)
        self.assert_refused(f"host:{self.server}", SPEC, options=("-c", option.format("false")))
