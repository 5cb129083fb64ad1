"""Bundles: which texts are none and where that is told, and bundles that are written into repositories."""

import os
import re
import subprocess
import unittest

from common import ALONE, KILLED_APPLY, WithRepositories, run
from bagjulen_tools.formats.bundle import Bundle, read_bundle
from bagjulen_tools.formats.grammar import MalformedObject, is_full_name, links_in
from bagjulen_tools.formats.plainpack import Object, object_id, write_pack
from bagjulen_tools.protocol.lines import encoded, pieces
from bagjulen_tools.repository.apply import apply_bundle
from bagjulen_tools.repository.git import Repository, git
from bagjulen_tools.repository.locks import LockedFile
from bagjulen_tools.trouble import BAD_INPUT, BAD_WORDS, CHANGED, GIT_REFUSED, Trouble, read_file, write_file

MAIN, SIDE, NOTE, LAST, HEAD = "refs/heads/main", "refs/heads/side", "refs/tags/note", "refs/remotes/origin/HEAD", "HEAD"
PERSON = "A <a@x> 1 +0000"
ONE_COMMIT = b"tree 4b825dc642cb6eb9a060e54bf8d69288fbee4904\nauthor A <a@x> 1 +0000\ncommitter A <a@x> 1 +0000\n\none\n"
STEPS = [f"{when} {step}" for when in ("before", "after") for step in (
    "objects", "prepare border", "prepare HEAD", "prepare references", "prepare symbolic references", "commit border",
    "commit HEAD", "commit references", "commit symbolic references")]
FROM_MOVER = "commit "


def made(hash_name, kind, data):
    return Object(object_id(hash_name, kind, data), kind, data)


class Small:
    """Three commits, of which the first one may be left out, and a tag."""

    def __init__(self, hash_name="sha1"):
        self.hash_name = hash_name
        self.blob = made(hash_name, "blob", b"text\n")
        self.tree = made(hash_name, "tree", b"100644 file\0" + bytes.fromhex(self.blob.id))
        self.one = self._commit("one")
        self.two = self._commit("two", self.one)
        self.three = self._commit("three", self.two)
        data = f"object {self.two.id}\ntype commit\ntag note\ntagger {PERSON}\n\nnote\n"
        self.tag = made(hash_name, "tag", data.encode())

    def _commit(self, message, *parents):
        lines = [f"tree {self.tree.id}", *(f"parent {each.id}" for each in parents), f"author {PERSON}",
                 f"committer {PERSON}", "", f"{message}\n"]
        return made(self.hash_name, "commit", "\n".join(lines).encode())

    def bundle(self, border=False, **more):
        """Two branches, a tag, and two symbolic references."""
        objects = [self.blob, self.tree, self.two, self.three, self.tag, *([] if border else [self.one])]
        references = {MAIN: self.three.id, SIDE: self.two.id, NOTE: self.tag.id, LAST: f"@{MAIN}", HEAD: f"@{SIDE}", **more}
        return Bundle(self.hash_name, references, [self.two.id] if border else [], sorted(objects, key=lambda each: each.id))


class Texts(unittest.TestCase):
    def assert_refused(self, text, why):
        with self.assertRaises(Trouble) as caught:
            read_bundle(text)
        self.assertEqual((caught.exception.status, str(caught.exception)), (BAD_INPUT, f"no bundle: {why}"))

    def test_bundles_are_read_as_written(self):
        for bundle in (Bundle("sha1"), Bundle("sha256"), Small().bundle(), Small().bundle(True), Small("sha256").bundle(True)):
            text = bundle.to_bytes()
            found = read_bundle(text)
            self.assertEqual(found, bundle)
            self.assertEqual(found.to_bytes(), text)

    def test_the_examples_of_the_formats(self):
        empty = Bundle("sha1").to_bytes()
        self.assertEqual((len(empty), empty[:35]), (71, b"000dbundle 1\n000ehash sha1\n00010024"))
        unborn = Bundle("sha1", {HEAD: f"@{MAIN}"}).to_bytes()
        self.assertEqual((len(unborn), unborn[27:57]), (101, b"001eref @refs/heads/main HEAD\n"))
        self.assertEqual(read_bundle(unborn).references, {HEAD: f"@{MAIN}"})
        objects = [made("sha1", "tree", b""), made("sha1", "commit", ONE_COMMIT)]
        one = Bundle("sha1", {"refs/remotes/origin/main": objects[1].id}, [], objects).to_bytes()
        head = f"004aref {objects[1].id} refs/remotes/origin/main\n000100c2PLNP".encode()
        self.assertEqual((len(one), one[27:27 + len(head)]), (303, head))
        self.assertEqual(read_bundle(one).objects, objects)

    def test_each_cut_and_each_byte_behind(self):
        text = Small().bundle(True).to_bytes()
        for end in range(len(text)):
            self.assertRaises(Trouble, read_bundle, text[:end])
        self.assert_refused(text + b"0000", f"malformed at {len(text)}")

    def test_each_other_byte(self):
        text = Small().bundle(True).to_bytes()
        for place in range(len(text)):
            for other in {text[place] ^ 1, text[place] ^ 32, 0}:
                changed = text[:place] + bytes([other]) + text[place + 1 :]
                try:
                    self.assertEqual(read_bundle(changed).to_bytes(), changed)
                except Trouble as trouble:
                    self.assertEqual(trouble.status, BAD_INPUT)

    def test_lines_that_may_not_stand_there(self):
        digits = "1" * 40
        head = b"000dbundle 1\n000ehash sha1\n"
        first = encoded(f"ref {digits} refs/heads/b\n".encode())
        border = encoded(f"border {digits}\n".encode())
        for line in (f"ref {digits} refs/heads/a\n", f"ref {digits} refs/heads/b\n", f"ref {digits} refs/heads/c",
                     f"ref {digits} refs//c\n", f"ref {digits} main\n", f"ref {digits[1:]} refs/heads/c\n",
                     f"ref {'A' * 40} refs/heads/c\n", "ref @main refs/heads/c\n", "ref @refs/heads/c\n", "hash sha1\n"):
            self.assert_refused(head + first + encoded(line.encode()) + b"0001", "malformed at 89")
        self.assert_refused(head + first.replace(b"3e", b"3E"), "malformed at 27")
        self.assert_refused(head + border + border + b"0001", f"malformed at {27 + len(border)}")
        self.assert_refused(head + border + first + b"0001", f"malformed at {27 + len(border)}")
        self.assert_refused(b"", "malformed at 0")
        self.assert_refused(b"000dbundle 2\n", "malformed at 0")
        self.assert_refused(b"000dbundle 1\n000ehash sha2\n", "malformed at 13")
        self.assert_refused(head + b"0000", "malformed at 27")
        self.assert_refused(head + b"0001", "malformed at 31")

    def test_pieces(self):
        small = Small()
        big = made("sha1", "blob", b"x" * 70_000)
        bundle = Bundle("sha1", {"refs/tags/big": big.id}, [], [big])
        text = bundle.to_bytes()
        self.assertEqual(read_bundle(text), bundle)
        place = text.index(b"0001") + 4
        pack = write_pack([big], 2, "sha1")
        for sizes, wrong in ((64_999, place + 65_003), (65_001, place)):
            cut = b"".join(map(encoded, pieces(pack, sizes)))
            self.assert_refused(text[:place] + cut + b"0000", f"malformed at {wrong}")
        self.assert_refused(text[:-4] + b"00040000", f"malformed at {len(text) - 4}")
        self.assertEqual(read_bundle(small.bundle().to_bytes()), small.bundle())

    def test_packs(self):
        head = b"000dbundle 1\n000ehash sha1\n0001"
        small = Small()
        pack = write_pack([small.blob, small.tree], 2, "sha1")
        other = bytes([pack[41] ^ 1])
        bad = made("sha1", "commit", b"tree x\n")
        for given, why in ((write_pack([], 1, "sha1"), "its pack is malformed at 4"),
                           (b"PLNP\0\0\0\3", "its pack is malformed at 4"), (b"PACK", "its pack is malformed at 0"),
                           (pack[:11], "its pack is malformed at 8"), (pack[:40], "its pack is malformed at 12"),
                           (pack + b"x", f"its pack is malformed at {len(pack) - 20}"),
                           (pack[:41] + other + pack[42:], "the digest of its pack isn't that of its bytes"),
                           (write_pack([bad], 2, "sha1"), "its pack is malformed at 12"),
                           (write_pack([Object("1" * 40, "blob", b"")], 2, "sha1"),
                            f"an object of its pack has another id than {'1' * 40}, which is written")):
            self.assert_refused(head + encoded(given) + b"0000", why)
        self.assert_refused(head + b"0000", "its pack is malformed at 0")

    def test_what_is_no_whole_repository(self):
        small = Small()
        whole = small.bundle(True)
        parts = [(whole.references, whole.border, whole.objects[::-1]),
                 (whole.references, whole.border, whole.objects[1:]),
                 (whole.references, [], whole.objects),
                 (whole.references, [small.blob.id], small.bundle().objects),
                 (whole.references, [small.one.id, small.two.id], whole.objects),
                 (whole.references, whole.border, small.bundle().objects),
                 ({**whole.references, "refs/x": "1" * 40}, whole.border, whole.objects),
                 ({**whole.references, "refs/x": "@refs/x"}, whole.border, whole.objects),
                 ({**whole.references, **{f"refs/{n}": f"@refs/{n + 1}" for n in range(5)}}, whole.border, whole.objects)]
        for references, border, objects in parts:
            text = Bundle("sha1", references, sorted(border), objects).to_bytes()
            place = text.index(b"\n0001") + 5
            self.assert_refused(text, f"malformed at {place}: its pack holds no whole repository")
        ways = {**whole.references, **{f"refs/{n}": f"@refs/{n + 1}" for n in range(4)}}
        self.assertEqual(read_bundle(Bundle("sha1", ways, whole.border, whole.objects).to_bytes()).references, ways)


class Grammar(unittest.TestCase):
    def test_names_are_those_of_git(self):
        parts = ["a", ".", "/", "@", "{", "*", "~", "refs/", "A", ".lock", " ", "\\"]
        for name in {first + second + third for first in parts for second in parts for third in parts}:
            for full in (f"refs/{name}", f"refs/heads/{name}x"):
                taken = subprocess.run(["git", "check-ref-format", full]).returncode == 0 if len(name) < 6 else None
                if taken is not None:
                    self.assertEqual(is_full_name(full.encode()), taken, full)
        for name, is_full in (("HEAD", True), ("A_B", True), ("head", False), ("A/B", False), ("@", False), ("", False)):
            self.assertEqual(is_full_name(name.encode()), is_full, name)

    def test_objects_that_break_it(self):
        tree, end = f"tree {'1' * 40}\n", "author A\ncommitter A <a@x> 1 +0000\n"
        for kind, data in (("commit", tree), ("commit", end), ("commit", tree + "parent 1\n" + end),
                           ("commit", tree + "author A\ncommitter 1 +0000\n"), ("commit", tree + end[:-1]),
                           ("commit", tree + end.replace(" 1 ", f" {1 << 63} ")), ("tag", f"object {'1' * 40}\ntype x\n"),
                           ("tree", "100644 a\0x"), ("tree", f"100644 \0{'x' * 20}"), ("tree", f"0100644 a\0{'x' * 20}")):
            self.assertRaises(MalformedObject, links_in, Object("", kind, data.encode()), "sha1")

    def test_links(self):
        small = Small()
        found = links_in(small.two, "sha1")
        self.assertEqual((found.parents, found.others), ([small.one.id], [small.tree.id]))
        self.assertEqual(links_in(small.tag, "sha1").others, [small.two.id])
        tree = small.tree.data + b"160000 module\0" + b"x" * 20
        self.assertEqual(links_in(Object("", "tree", tree), "sha1").others, [small.blob.id])


class WithBundles(WithRepositories):
    """An empty bare repository `made`, whose `HEAD` leads to the branch that one of the bundle is."""

    def setUp(self):
        super().setUp()
        self.small = Small()
        self.made = self.path("made")
        self.init()

    def init(self, *words):
        subprocess.run(["rm", "-rf", self.made], check=True)
        git(["init", "-q", "--template=", *(words or ["--bare", "-b", "main"]), self.made])

    def apply(self, bundle):
        write_file(self.path("bundle"), bundle if isinstance(bundle, bytes) else bundle.to_bytes())
        return run("apply-bundle", self.path("bundle"), self.made)

    def state(self):
        """References as their files say them, border, and ids of objects."""
        repository = Repository(self.made)
        return repository.reference_files(), repository.border(), repository.stored_ids()

    def assert_holds(self, bundle, more=()):
        """The repository has what the bundle has, and these references, and nothing of the tool's own."""
        references, border, ids = self.state()
        self.assertEqual((references, border), ({**dict(more), **bundle.references}, bundle.border))
        self.assertLessEqual({each.id for each in bundle.objects}, ids)
        git(["-C", self.made, "fsck", "--strict"])
        self.assert_clear()

    def assert_clear(self):
        for folder, _, files in os.walk(self.made):
            self.assertFalse([each for each in files if each.endswith(".lock") or each.startswith("bagjulen")], folder)

    def assert_refused(self, bundle, status, text):
        """It is refused, and all is as it was."""
        before = self.state()
        self.assert_line(self.apply(bundle), status, text)
        self.assertEqual(self.state(), before)
        self.assert_clear()


class Applied(WithBundles):
    def test_into_an_empty_repository(self):
        for words in (["--bare", "-b", "main"], ["--bare", "-b", "other"], ["-b", "side"], ["-b", "main"]):
            for border in (False, True):
                with self.subTest(words, border=border):
                    self.init(*words)
                    bundle = self.small.bundle(border)
                    moved = 4 if words[-1] == "side" else 5
                    told = f"{len(bundle.objects)} objects stored, {moved} references moved\n".encode()
                    self.assertEqual(self.apply(bundle), (0, told, ""))
                    self.assert_holds(bundle)
                    log = Repository(self.made).text("log", "--format=%H %s", MAIN).splitlines()
                    commits = [self.small.three, self.small.two, *([] if border else [self.small.one])]
                    names = ["three", "two", "one"]
                    self.assertEqual(log, [f"{each.id} {name}" for each, name in zip(commits, names)])
                    self.assertEqual(self.apply(bundle), (0, b"0 objects stored, 0 references moved\n", ""))

    def test_sha256(self):
        bundle = Small("sha256").bundle(True)
        self.assert_refused(bundle, BAD_INPUT, "made has sha1, and the bundle sha256")
        self.init("--bare", "--object-format=sha256", "-b", "main")
        self.assertEqual(self.apply(bundle)[0], 0)
        self.assert_holds(bundle)

    def test_a_head_that_is_an_id(self):
        """Git holds the lock of `HEAD` where the name that it leads to is made."""
        for branch in ("main", "other"):
            self.init("--bare", "-b", branch)
            bundle = self.small.bundle(HEAD=self.small.one.id)
            self.assertEqual(self.apply(bundle)[0], 0)
            self.assert_holds(bundle)

    def test_an_unborn_head_and_nothing_else(self):
        bundle = Bundle("sha1", {HEAD: "@refs/heads/trunk"})
        self.assertEqual(self.apply(bundle)[1], b"0 objects stored, 1 references moved\n")
        self.assert_holds(bundle)
        self.assertEqual(self.apply(Bundle("sha1"))[0], 0)
        self.assert_holds(bundle)

    def test_a_head_that_leads_to_a_symbolic_reference(self):
        """Of names that lead on, each has its own target."""
        for target in (LAST, "refs/heads/through"):
            self.init("--bare")
            bundle = self.small.bundle(HEAD=f"@{target}", **{"refs/heads/through": f"@{SIDE}"})
            self.assertEqual(self.apply(bundle)[:2], (0, b"6 objects stored, 6 references moved\n"))
            self.assert_holds(bundle)
            self.assertEqual(self.apply(bundle)[:2], (0, b"0 objects stored, 0 references moved\n"))

    def test_into_a_repository_with_references(self):
        """Its own stay, and those of the bundle may stand already."""
        bundle = self.small.bundle(HEAD=f"@{MAIN}")
        other = self.apply(Bundle("sha1", {"refs/heads/own": self.small.one.id, MAIN: self.small.one.id}, [],
                                  sorted([self.small.one, self.small.tree, self.small.blob], key=lambda each: each.id)))
        self.assertEqual(other[0], 0)
        self.assert_refused(bundle, CHANGED, f"{MAIN} stands otherwise: the bundle has {self.small.three.id}, "
                                             f"and {self.small.one.id} stands there; nothing was moved")
        git(["-C", self.made, "update-ref", "-d", MAIN])
        self.assertEqual(self.apply(bundle), (0, b"3 objects stored, 4 references moved\n", ""))
        self.assert_holds(bundle, {"refs/heads/own": self.small.one.id}.items())

    def test_a_head_that_leads_somewhere(self):
        without = self.small.bundle()
        del without.references[HEAD]
        self.assertEqual(self.apply(without)[0], 0)
        self.assert_refused(self.small.bundle(), CHANGED, f"HEAD stands otherwise: the bundle has @{SIDE}, and @{MAIN}")
        self.assertEqual(self.apply(self.small.bundle(HEAD=f"@{MAIN}"))[1], b"0 objects stored, 0 references moved\n")

    def test_symbolic_references_that_stand(self):
        git(["-C", self.made, "symbolic-ref", LAST, SIDE])
        self.assert_refused(self.small.bundle(), CHANGED, f"{LAST} stands otherwise: the bundle has @{MAIN}, and @{SIDE}")

    def test_names_that_git_has_not(self):
        self.assert_refused(self.small.bundle(ORIG_HEAD=self.small.one.id), GIT_REFUSED, "ORIG_HEAD is neither HEAD nor below")
        for name, above in ((f"{MAIN}/below", MAIN), ("refs/heads/a/b", "refs/heads/a")):
            bundle = self.small.bundle(**{name: self.small.one.id, above: self.small.three.id})
            self.assert_refused(bundle, GIT_REFUSED, f"Git can't hold both {above} and {name}")

    def test_borders_that_cut_off(self):
        whole, cut = self.small.bundle(), self.small.bundle(True)
        self.assertEqual(self.apply(whole)[0], 0)
        self.assert_refused(cut, CHANGED, f"the bundle's border at {self.small.two.id} cuts off what references have")
        self.init()
        self.assertEqual(self.apply(cut)[0], 0)
        self.assert_refused(whole, CHANGED, f"the border at {self.small.two.id} cuts off what the bundle has")

    def test_both_borders(self):
        git(["-C", self.made, "fetch", "-q", "--depth=1", f"file://{self.server}", f"{MAIN}:refs/heads/own"])
        bundle = self.small.bundle(True)
        self.assertEqual(self.apply(bundle)[0], 0)
        references, border, _ = self.state()
        self.assertEqual(references, {**bundle.references, "refs/heads/own": self.tip})
        self.assertEqual(border, sorted([self.tip, self.small.two.id]))
        git(["-C", self.made, "fsck", "--strict"])

    def test_locks_of_others(self):
        bundle = self.small.bundle(True)
        for path in ("shallow", MAIN, LAST, HEAD):
            before = self.state()[:2]
            lock = os.path.join(self.made, f"{path}.lock")
            os.makedirs(os.path.dirname(lock), exist_ok=True)
            write_file(lock, b"")
            self.assert_line(self.apply(bundle), GIT_REFUSED, re.escape(path))
            os.remove(lock)
            self.assertEqual(self.state()[:2], before)
            self.assert_clear()
        self.assertEqual(self.apply(bundle)[0], 0)
        self.assert_holds(bundle)

    def test_objects_that_git_refuses(self):
        git(["-C", self.made, "config", "fetch.fsckObjects", "true"])
        tag = made("sha1", "tag", f"object {self.small.blob.id}\ntype blob\n".encode())
        objects = sorted([self.small.blob, tag], key=lambda each: each.id)
        self.assert_refused(Bundle("sha1", {NOTE: tag.id}, [], objects), GIT_REFUSED, "git refused")

    def test_a_branch_that_is_no_commit(self):
        bundle = Bundle("sha1", {MAIN: self.small.blob.id, HEAD: f"@{SIDE}"}, [], [self.small.blob])
        before = self.state()[:2]
        self.assert_line(self.apply(bundle), GIT_REFUSED, "non-commit object")
        self.assertEqual(self.state()[:2], before)
        self.assert_clear()

    def test_a_change_after_the_first_look(self):
        changes = [("update-ref", SIDE, self.tip), ("symbolic-ref", HEAD, "refs/heads/else"), ("symbolic-ref", LAST, SIDE)]
        for words in changes:
            self.init()
            git(["-C", self.made, "fetch", "-q", self.server, MAIN])
            with self.assertRaises(Trouble) as caught:
                apply_bundle(Repository(self.made), self.small.bundle(True),
                             reached=lambda step: step == "after objects" and git(["-C", self.made, *words]))
            self.assertEqual(caught.exception.status, CHANGED)
            self.assertIn(f"{words[1]} was changed meanwhile", str(caught.exception))
            self.assertEqual(self.state()[:2], ({HEAD: f"@{MAIN}", words[1]: words[2] if words[0] == "update-ref" else
                                                 f"@{words[2]}"}, []))
            self.assert_clear()

    def test_border_and_head_are_put_back_where_references_are_refused(self):
        """Git finds a directory in the place of a reference's file only when it moves it."""
        for branch in ("main", "other"):
            self.init("--bare", "-b", branch)
            before = self.state()[:2]
            self.apply_blocked(MAIN)
            self.assertEqual(self.state()[:2], before)

    def test_they_stay_where_a_reference_has_moved_before_one_is_refused(self):
        for branch in ("main", "other"):
            self.init("--bare", "-b", branch)
            bundle = self.small.bundle(True)
            self.apply_blocked(SIDE)
            self.assertEqual(self.state()[:2], ({MAIN: self.small.three.id, HEAD: f"@{SIDE}"}, bundle.border))
            self.assertEqual(self.apply(bundle)[0], 0)
            self.assert_holds(bundle)

    def apply_blocked(self, name):
        """A run in which a directory is in the way of a reference, which goes again."""
        place = os.path.join(self.made, name)
        with self.assertRaises(Trouble) as caught:
            apply_bundle(Repository(self.made), self.small.bundle(True),
                         reached=lambda step: step == "after commit HEAD" and self.block(place))
        self.assertEqual(caught.exception.status, GIT_REFUSED)
        os.remove(os.path.join(place, "file"))
        self.assert_clear()

    def block(self, place):
        os.makedirs(place)
        write_file(os.path.join(place, "file"), b"")

    def test_what_goes_wrong_is_told_in_a_line(self):
        text = self.small.bundle().to_bytes()
        self.assert_refused(text[:40], BAD_INPUT, "apply-bundle: no bundle: malformed at 27")
        self.assert_refused(b"# v2 git bundle\n", BAD_INPUT, "no bundle: malformed at 0")
        self.assertEqual(run("apply-bundle", self.path("none"), self.made)[0], BAD_INPUT)
        self.assertEqual(run("apply-bundle", self.path("bundle"), self.path("none"))[0], BAD_INPUT)
        self.assertEqual(run("apply-bundle", self.path("bundle"))[0], BAD_WORDS)


class Killed(WithBundles):
    """A bundle, by runs that are killed."""

    def kill(self, whom, step):
        words = [KILLED_APPLY, whom, step, self.path("bundle"), self.made]
        return subprocess.run(words, capture_output=True, env={**os.environ, **ALONE}).returncode

    def test_the_tool_is_killed(self):
        bundle = self.small.bundle(True)
        write_file(self.path("bundle"), bundle.to_bytes())
        for branch in ("main", "other"):
            for step in STEPS:
                with self.subTest(step, branch=branch):
                    self.init("--bare", "-b", branch)
                    before = self.state()[:2]
                    self.assertEqual(self.kill("tool", step), -9)
                    after = (bundle.references, bundle.border) if FROM_MOVER in step else before
                    self.assertEqual(self.state()[:2], after)
                    self.assert_ends_well(bundle)

    def test_the_process_that_moves_references_is_killed(self):
        bundle = self.small.bundle(True)
        write_file(self.path("bundle"), bundle.to_bytes())
        for branch in ("main", "other"):
            for step in (each for each in STEPS if FROM_MOVER in each):
                with self.subTest(step, branch=branch):
                    self.init("--bare", "-b", branch)
                    self.assertEqual(self.kill("mover", step), GIT_REFUSED)
                    self.assert_ends_well(bundle)

    def assert_ends_well(self, bundle):
        git(["-C", self.made, "fsck", "--strict"])
        self.assertEqual(self.apply(bundle)[0], 0)
        self.assert_holds(bundle)

    def test_locks_of_a_run_that_was_killed(self):
        repository = Repository(self.made)
        file = LockedFile(repository.common_dir, repository.place(HEAD), b"x")
        file.take()
        self.assert_line(self.apply(self.small.bundle()), GIT_REFUSED, "HEAD.lock")
        os.close(file._descriptor)
        self.assertEqual(self.apply(self.small.bundle())[0], 0)
        self.assert_holds(self.small.bundle())


class Taken(WithBundles):
    """Bundles of repositories."""

    def take(self):
        return run("bundle-from-git", self.made, "-o", self.path("taken"))

    def test_a_bundle_comes_back(self):
        for border in (False, True):
            self.init()
            text = self.small.bundle(border).to_bytes()
            self.apply(text)
            git(["-C", self.made, "hash-object", "-w", "--stdin"], given=b"nobody reaches it")
            git(["-C", self.made, "pack-refs", "--all"])
            self.assertEqual(self.take(), (0, b"", ""))
            self.assertEqual(read_file(self.path("taken")), text)
            self.assertEqual(run("bundle-from-git", self.made)[1], text)

    def test_a_repository_that_isnt_whole(self):
        self.apply(self.small.bundle())
        git(["-C", self.made, "symbolic-ref", "refs/heads/loop", "refs/heads/loop"])
        self.assert_line(self.take(), BAD_INPUT, "a reference leads to no object")


if __name__ == "__main__":
    unittest.main()
