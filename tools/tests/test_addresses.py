"""Addresses as Git takes them apart, and what no line may tell of them."""

import subprocess
import unittest

from bagjulen_tools.protocol.address import anonymous, parsed
from bagjulen_tools.trouble import Trouble

ADDRESSES = (
    "file:///srv/a#b.git", "file:///srv/q?x.git", "file:///srv/a%20b.git", "file:///srv/a%00b",
    "file:///srv/a%2fb%zz.git", "file://host/srv/a.git", "/srv/a#b?c", "./a:b", "a/b:c",
    "host:path", "me@host:/srv/a#b.git", "host:~me/a", "host:/~me/a", "[host:22]:a", "[::1]:a", "me@[::1]:a",
    "ssh://host/a#b.git", "ssh://me@host:22/srv/a?b", "ssh://host/~me/a", "ssh://[::1]:22/a", "ssh://me@[::1]/a",
    "ssh://host:/a", "ssh://host:99999/a", "ssh://host/a%20b", "ssh://me%40x@host/a", "git+ssh://host/a",
    "ssh+git://host/a", "git://host/a#b.git", "git://host:9419/a?b", "git://[::1]:9419/~me/a",
)


class Addresses(unittest.TestCase):
    def test_they_are_taken_apart_as_git_does(self) -> None:
        for address in ADDRESSES:
            with self.subTest(address):
                ended = subprocess.run(["git", "fetch-pack", "--diag-url", address], stdout=subprocess.PIPE)
                lines = ended.stdout.decode().splitlines()
                parts = dict(line.removeprefix("Diag: ").split("=", 1) for line in lines)
                ours = parsed(address)
                self.assertEqual((ours.transport, ours.path), (parts["protocol"], parts["path"]))
                if ours.transport == "ssh":
                    self.assertEqual((ours.host, ours.port or "NONE"), (parts["userandhost"], parts["port"]))
                if ours.transport == "git":
                    self.assertEqual(ours.authority, parts["hostandport"])

    def test_addresses_without_a_path(self) -> None:
        for address in ("ssh://host", "git://host", "file://", "file://host"):
            with self.assertRaisesRegex(Trouble, "no path specified"):
                parsed(address)

    def test_no_password_is_told(self) -> None:
        for address, told in (("https://joe:pw@host/a", "https://host/a"), ("ssh://joe@host/a", "ssh://host/a"),
                              ("http://joe:p@w@host:80/a@b", "http://host:80/a@b"), ("joe@host:a@b", "host:a@b"),
                              ("/a@b:c", "/a@b:c"), ("https://host/a@b", "https://host/a@b"),
                              ("git://joe:pw@host", "git://host")):
            self.assertEqual(anonymous(address), told)
