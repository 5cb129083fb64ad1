"""A live server of plain packs, and a peer that lives."""

import os
import subprocess

from common import TOOLS, WithRepositories, run
from bagjulen_tools.formats.plainpack import read_pack
from bagjulen_tools.formats.scene import packs_in
from bagjulen_tools.protocol.connection import lines_from
from bagjulen_tools.protocol.lines import Mark, encoded, text_line
from bagjulen_tools.trouble import BAD_INPUT, GIT_REFUSED

FIRST = encoded(b"git-upload-pack /any/where\0\0version=2\0")


def request(*lines):
    """A request with these text lines, a delimiter where one is "", and a flush."""
    return b"".join(encoded(text_line(line) if line else Mark.DELIMITER) for line in lines) + Mark.FLUSH.value


LISTING = request("command=ls-refs", "object-format=sha1", "", "symrefs", "ref-prefix refs/heads/")


class Served(WithRepositories):
    def wanted(self, digits):
        return request("command=fetch", "object-format=sha1", "", "plain-pack-2", f"want {digits}", "done")

    def test_a_peer_that_waits_for_each_reply(self):
        words = [os.path.join(TOOLS, "serve-plain"), self.server]
        with subprocess.Popen(words, stdin=subprocess.PIPE, stdout=subprocess.PIPE) as served:
            replies = []
            for said in (FIRST, LISTING, self.wanted(self.tip)):
                served.stdin.write(said)
                served.stdin.flush()
                replies.append(lines_from(served.stdout).data)
            served.stdin.close()
            self.assertEqual((served.stdout.read(), served.wait()), (b"", 0))
        greeting, listing, reply = replies
        self.assertRegex(greeting, rb"(?s)version 2\n.* plain-pack plain-pack-2\n")
        self.assertIn(f"{self.tip} refs/heads/main\n".encode(), listing)
        (pack,) = packs_in(reply)
        self.assertEqual(sorted(each.id for each in read_pack(pack, "sha1")), self.ids(self.server))

    def test_what_goes_wrong_is_told_in_a_line(self):
        for given, status in ((b"", BAD_INPUT), (LISTING, BAD_INPUT), (FIRST + LISTING[:-2], BAD_INPUT),
                              (FIRST + b"x", BAD_INPUT), (FIRST + self.wanted("1" * 40), GIT_REFUSED)):
            with self.subTest(given):
                ended = run("serve-plain", self.server, given=given)
                self.assertEqual((ended[0], ended[2].count("\n")), (status, 1), ended)
        self.assertEqual(run("serve-plain", self.folder)[0], BAD_INPUT)

    def test_nothing_is_asked(self):
        self.assertEqual(run("serve-plain", self.server, given=FIRST)[0], 0)
