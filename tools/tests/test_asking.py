"""What a server is asked with depth lines, and what it has to give."""

import unittest

from bagjulen_tools.formats.plainpack import Object, object_id, read_pack
from bagjulen_tools.protocol.depth import Depth
from bagjulen_tools.protocol.lines import Mark, encoded, text_line
from bagjulen_tools.protocol.requests import IncompleteRequest, RefusedRequest, request_at
from bagjulen_tools.trials.outcomes import OUTCOMES
from bagjulen_tools.trials.plain_server import Plainserver, State
from bagjulen_tools.trials.races import TREE
from bagjulen_tools.trials.replies import read_reply

FIRST = encoded(b"git-upload-pack /srv/a.git\0\0version=2\0")
FRONT = "command=fetch", "object-format=sha1", "", "plain-pack-2"
FOUR, FIVE = "2a3a2b1a0f866cf1ed79e2d4f8b8c0e71f708e66", "dff3357db54cedd33248fd85de3ee6e038bff66e"


def request(*words, end=Mark.FLUSH):
    """A request of a fetch, with these words behind the version."""
    lines = [text_line(word) if word else Mark.DELIMITER for word in (*FRONT, *words)]
    return b"".join(map(encoded, [*lines, *([end] if end else [])]))


def history():
    """Five commits in a line over the empty tree, and what branches at the second and the last one lead to."""
    objects, last = {TREE.id: TREE}, []
    for number in range(1, 6):
        person = f"A <a@x> {number} +0000"
        parents = [f"parent {last[-1]}"] if last else []
        data = "\n".join([f"tree {TREE.id}", *parents, f"author {person}", f"committer {person}", "", f"{number}", ""]).encode()
        last.append(object_id("sha1", "commit", data))
        objects[last[-1]] = Object(last[-1], "commit", data)
    return State("sha1", objects, {"refs/heads/main": last[-1], "refs/heads/old": last[1]}), last


class Read(unittest.TestCase):
    def depth(self, *words):
        asked, rest = request_at(request(*words, f"want {FIVE}", "done"), "sha1", True)
        self.assertEqual(rest, b"")
        return asked.depth

    def test_the_five_forms(self):
        self.assertIsNone(self.depth("include-tag", f"shallow {FOUR}"))
        self.assertEqual(self.depth("include-tag", f"shallow {FOUR}", "deepen 4294967295"), Depth(deepen=2**32 - 1))
        self.assertEqual(self.depth("deepen 0", "deepen-relative"), Depth(deepen=0, relative=True))
        self.assertEqual(self.depth("deepen-since 18446744073709551615"), Depth(since=2**64 - 1))
        self.assertEqual(self.depth("deepen-not main", "deepen-not main"), Depth(excluded=["main", "main"]))
        self.assertEqual(self.depth("deepen-since 0", "deepen-not v1"), Depth(since=0, excluded=["v1"]))

    def test_lines_that_may_not_stand(self):
        """The last of each of these is told by its place, before what comes behind it."""
        for *front, last in (
                ["deepen 01"], ["deepen "], ["deepen"], ["deepen -1"], ["deepen 4294967296"], ["deepen 1", "deepen 2"],
                ["deepen-relative"], ["deepen 0", f"want {FIVE}"], ["deepen 1", "deepen-relative", "deepen-relative"],
                ["deepen 1", "deepen-relative "], ["deepen-since 18446744073709551616"], ["deepen-since 1", "deepen-since 1"],
                ["deepen-not a", "deepen-since 1"], ["deepen 1", "deepen-since 1"], ["deepen-since 1", "deepen-relative"],
                ["deepen-not "], ["deepen-not @"], ["deepen-not a..b"], ["deepen-not a*"], ["deepen 1", f"shallow {FOUR}"],
                ["deepen 1", "include-tag"], [f"want {FIVE}", "deepen 1"], ["deepen-since 1", "done"]):
            with self.subTest(last, front=front), self.assertRaises(RefusedRequest) as caught:
                request_at(request(*front, last), "sha1", True)
            self.assertEqual(caught.exception.args, ("Malformed", len(request(*front, end=None))))

    def test_what_is_cut_and_what_ends_too_early(self):
        whole = request("deepen 1", f"want {FIVE}")
        for place in range(len(whole)):
            self.assertRaises(IncompleteRequest, request_at, whole[:place], "sha1", True)
        for words in (["deepen 1"], ["deepen 0"], ["deepen 1", "deepen-relative"], ["deepen-since 1"], ["deepen-not a"]):
            with self.assertRaises(RefusedRequest) as caught:
                request_at(request(*words), "sha1", True)
            self.assertEqual(caught.exception.args, ("Malformed", len(request(*words, end=None))))


class Given(unittest.TestCase):
    def setUp(self):
        self.state, self.line = history()

    def given(self, *words):
        server = Plainserver(self.state)
        server.feed(FIRST)
        return server.feed(request(*words, f"want {FIVE}", "done"))

    def assert_given(self, words, border, ids):
        reply = read_reply(self.given(*words))
        self.assertEqual((reply.border, reply.is_whole), (border, True))
        self.assertEqual([each.id for each in read_pack(reply.pack, "sha1")], sorted(ids))

    def test_a_clone_of_depth_two(self):
        self.assertEqual(self.line[3:], [FOUR, FIVE])
        given = self.given("deepen 2")
        front = f"0011shallow-info\n0035shallow {FOUR}\n0001000dpackfile\n01a0\1PLNP".encode()
        self.assertEqual((given[: len(front)], len(given), given[-4:]), (front, 17 + 53 + 4 + 13 + 0x1a0 + 4, b"0000"))
        self.assert_given(["deepen 2"], [f"shallow {FOUR}"], [FOUR, TREE.id, FIVE])

    def test_limits(self):
        self.assert_given(["deepen-since 5"], [f"shallow {FIVE}"], [TREE.id, FIVE])
        self.assert_given(["deepen-since 9"], [f"shallow {FIVE}"], [TREE.id, FIVE])
        self.assert_given(["deepen-not old"], [f"shallow {self.line[2]}"], [TREE.id, *self.line[2:]])
        self.assert_given(["deepen-since 1", "deepen-not none"], [], self.state.objects)

    def test_a_border_that_moves(self):
        """The parents of a commit that leaves the border come, and the client's objects don't."""
        held = [f"shallow {FOUR}", "deepen 1", "deepen-relative"]
        reply = read_reply(self.with_haves(held))
        self.assertEqual(reply.border, [f"shallow {self.line[2]}", f"unshallow {FOUR}"])
        self.assertEqual([each.id for each in read_pack(reply.pack, "sha1")], [self.line[2]])

    def with_haves(self, words):
        server = Plainserver(self.state)
        server.feed(FIRST)
        return server.feed(request(*words, f"want {FIVE}", f"have {FIVE}", "done"))

    def test_forms_that_are_told(self):
        asked, given = b"plain-pack-2%0A0015deepen-since 1%0A0011deepen-not a%0A0032want 00", b"0011shallow-info%0A0001"
        text = b"= serve a\n? feed %b\ngives 30 %b" % (asked, given)
        self.assertEqual(OUTCOMES["server"].names_in(text), {"deepen-since with deepen-not", "no moves"})


if __name__ == "__main__":
    unittest.main()
