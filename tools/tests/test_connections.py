"""What comes over a connection: lines, errors of the server, and replies that are cut."""

import io
import os
import subprocess
import unittest

from common import WithRepositories
from bagjulen_tools.formats.bundle import Bundle, judged
from bagjulen_tools.protocol.connection import RESPONSE_END, Connection, lines_from, local
from bagjulen_tools.protocol.lines import Line, MalformedLine, Mark, encoded, line_at
from bagjulen_tools.protocol.upload_pack import Server
from bagjulen_tools.trouble import GIT_REFUSED, Trouble

FORMAT = b"object-format=sha1\n"
LISTING: list[Line] = [b"command=ls-refs\n", FORMAT, Mark.DELIMITER, b"peel\n", b"symrefs\n"]
ANNOUNCED: list[Line] = [b"version 2\n", b"ls-refs\n", b"fetch=shallow\n", FORMAT, Mark.FLUSH]
GREETING = b"".join(map(encoded, ANNOUNCED))
PACKFILE = encoded(b"packfile\n")
PLACES = 200
CUT_IN_PACK = "unexpected disconnect while reading sideband packet"
HUNG_UP = "the remote end hung up unexpectedly"
OTHER = "the server doesn't speak version 2 of the protocol"
LENGTH = "protocol error: bad line length"


def over(said: bytes, is_helper: bool = False) -> Connection:
    """A connection over which these bytes come, and no more, as from Git's helper of HTTP or from others."""
    return Connection(io.BytesIO(said), io.BytesIO(), is_helper=is_helper)


class Lines(unittest.TestCase):
    def test_the_digits_of_a_line_are_hexadecimal_in_either_case(self) -> None:
        self.assertEqual(line_at(b"000Aabcdef", 0), (b"abcdef", 10))
        for digits in (b"0x1e", b"+00a", b" 00a", b"1_0a", b"00 a", b"\xb2\xb2\xb2\xb2", b"000g", b"00"):
            with self.assertRaises(MalformedLine):
                line_at(digits + 40 * b"x", 0)
            self.assertIsNotNone(lines_from(io.BytesIO(digits + 40 * b"x")).problem)

    def test_bundles_with_other_digits(self) -> None:
        text = Bundle("sha1", {"HEAD": "@refs/heads/main"}, [], []).to_bytes()
        self.assertIsNotNone(judged(text)[0])
        self.assertEqual(text[27:31], b"001e")
        for digits in (b"0x1e", b"+01e", b" 01e"):
            self.assertEqual(judged(text[:27] + digits + text[31:]), (None, "MalformedLine", 27))

    def test_what_is_no_line_is_a_trouble_in_one_line(self) -> None:
        with self.assertRaisesRegex(Trouble, r"\A[^\n]+ 7\Z"):
            raise MalformedLine(7)

    def test_digits_that_are_none_are_told_as_git_does(self) -> None:
        for digits, text in ((b"Welc", " character: Welc"), (b"a\x1b[m", " character: a?[m"), (b"0003", " 3"),
                             (b"ffff", " 65535")):
            self.assertEqual(lines_from(io.BytesIO(digits + 9 * b"x")).problem, LENGTH + text)


class Replies(unittest.TestCase):
    def assert_refused(self, reply: bytes, text: str) -> None:
        """A reply behind the greeting is refused so, and what came of it is handed on."""
        server = Server(over(GREETING + reply))
        came = server.answer([b"command=fetch\n", b"plain-pack\n"])
        self.assertEqual((came, server.refusal), (reply, text))

    def test_errors_of_the_server(self) -> None:
        for error, text in ((b"not our ref", "not our ref"), (b"a\n\nb\n", "a b"), (b"\x1b[2J\x07", "?[2J?")):
            self.assert_refused(encoded(b"ERR " + error), f"remote error: {text}")
            bands = PACKFILE + encoded(b"\2half\n") + encoded(b"\3" + error)
            for end in (b"", b"0000", b"00"):
                self.assert_refused(bands + end, f"remote error: {text}")

    def test_what_begins_as_an_error_within_a_pack_is_none(self) -> None:
        self.assert_refused(PACKFILE + encoded(b"\1ERR x"), CUT_IN_PACK)

    def test_a_cut_before_and_within_the_pack(self) -> None:
        self.assert_refused(b"", HUNG_UP)
        self.assert_refused(encoded(b"shallow-info\n") + b"003", HUNG_UP)
        self.assert_refused(PACKFILE, CUT_IN_PACK)
        self.assert_refused(PACKFILE + encoded(b"\1" + 96 * b"0")[:-40], CUT_IN_PACK)

    def test_greetings(self) -> None:
        for said, text in ((b"", "Could not read from remote repository."), (b"00", HUNG_UP), (GREETING[:-4], HUNG_UP),
                           (encoded(b"ERR access denied"), "remote error: access denied"),
                           (encoded(b"version 1\n"), OTHER), (b"0000", OTHER),
                           (encoded(b"1" * 40 + b" HEAD\0multi_ack\n") + b"0000", OTHER),
                           (b"HTTP/1.1 400", f"{LENGTH} character: HTTP"),
                           (encoded(b"hello") + b"0000", "protocol error: expected sha/ref, got 'hello'")):
            with self.subTest(said), self.assertRaises(Trouble) as caught:
                Server(over(said))
            self.assertEqual(str(caught.exception), text)


class Cut(WithRepositories):
    def test_a_conversation_that_is_cut_anywhere(self) -> None:
        """It is refused in words at each of many places, the last bytes of all three replies among them.

        Behind each reply but the greeting, Git's helper of HTTP has the end of a response.
        """
        want = f"want {self.tip}\n".encode()
        fetch: list[Line] = [b"command=fetch\n", FORMAT, Mark.DELIMITER, want, b"done\n"]
        real = local(self.server)
        self.addCleanup(real.close)
        replies = [real.greeting(), *(real.ask(each, lambda line: None).data for each in (LISTING, fetch))]
        for is_helper in (False, True):
            said = [replies[0], *(reply + RESPONSE_END * is_helper for reply in replies[1:])]
            whole = b"".join(said)
            ends = {len(b"".join(said[:number])) - back for number in (1, 2, 3) for back in range(1, 9)}
            for place in sorted({*range(0, len(whole), -(-len(whole) // PLACES)), *ends}):
                with self.subTest((is_helper, place)), self.assertRaisesRegex(Trouble, r"\A[A-Z' a-z]+\.?\Z"):
                    self.converse(over(whole[:place], is_helper), fetch)

    def converse(self, connection: Connection, fetch: list[Line]) -> None:
        """A listing and a fetch over a connection. What is refused is a trouble."""
        server = Server(connection)
        for request in (LISTING, [*fetch[:3], b"plain-pack\n", *fetch[3:]]):
            server.answer(request)
            if server.refusal is not None:
                raise Trouble(GIT_REFUSED, server.refusal)

    def test_what_the_process_behind_says(self) -> None:
        """Of a path that is no repository, as Git's first line."""
        real = subprocess.run(["git", "ls-remote", self.folder], capture_output=True, env={**os.environ, "LC_ALL": "C"})
        with self.assertRaises(Trouble) as caught:
            Server(local(self.folder))
        self.assertEqual(str(caught.exception), real.stderr.decode().splitlines()[0])
