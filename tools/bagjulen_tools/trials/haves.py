"""What is told of a repository to a server that has none of it: by the rules, by the engine, and by real Git."""

import os
import re
from dataclasses import dataclass, field

from bagjulen_tools.formats.gitpack import store
from bagjulen_tools.formats.plainpack import Object, object_id, write_pack
from bagjulen_tools.formats.scene import Scene
from bagjulen_tools.protocol.lines import Mark, encoded, text_line, text_of
from bagjulen_tools.remote.conversation import DONE, converse
from bagjulen_tools.repository.git import Repository, git, run_git
from bagjulen_tools.trouble import write_file

FIRST_WINDOW, LAST_WINDOW = 16, 1024
TRACED = re.compile(r"fetch> (have [0-9a-f]+|done|0000)$", re.MULTILINE)
SPEC = "+refs/heads/main:refs/remotes/origin/main"


def thing(kind, data):
    """An object."""
    return Object(object_id("sha1", kind, data), kind, data)


EMPTY_TREE = thing("tree", b"")


def commit(seconds, parents, message=""):
    """A commit over the empty tree."""
    lines = [f"tree {EMPTY_TREE.id}", *(f"parent {parent}" for parent in parents), "author A <a@x> 1 +0000",
             f"committer A <a@x> {seconds} +0000", "", message or str(seconds), ""]
    return thing("commit", "\n".join(lines).encode())


def tag(target, name):
    """An annotated tag of a commit."""
    return thing("tag", f"object {target}\ntype commit\ntag {name}\ntagger A <a@x> 1 +0000\n\n{name}\n".encode())


OTHER = commit(1_000_000_000, [], "of the server alone")


@dataclass
class Client:
    """A repository that fetches. Its objects are commits and tags over the empty tree."""

    objects: list[Object]
    references: dict[str, str]
    algorithm: str
    border: list[str] = field(default_factory=list)

    def scene(self):
        """Its scene, without what the server says."""
        return Scene(
            hash_name="sha1", git_dir="/w/.git", work_tree="/w", references=self.references, border=self.border,
            config=["[fetch]", f"negotiationAlgorithm = {self.algorithm}"], objects=[EMPTY_TREE, *self.objects],
            address="/srv/a.git", specs=[SPEC], tags="none")


class Stranger:
    """A server with one commit that the client doesn't have. It acknowledges nothing."""

    refusal = None

    def greeting(self):
        return said("version 2", "ls-refs=unborn", "fetch=shallow plain-pack", "object-format=sha1")

    def answer(self, request):
        if b"command=fetch\n" not in request:
            return said(f"{OTHER.id} refs/heads/main")
        if DONE not in request:
            return said("acknowledgments", "NAK")
        pack = write_pack([EMPTY_TREE, OTHER], 1, "sha1")
        return b"".join(map(encoded, [b"packfile\n", b"\1" + pack, Mark.FLUSH]))


def said(*lines):
    """Text lines and a flush."""
    return b"".join(map(encoded, [*map(text_line, lines), Mark.FLUSH]))


def asked_of(report):
    """The windows of the requests that a report tells."""
    requests = [request for request in report.requests() if request[0] == b"command=fetch\n"]
    return [[words[1] for words in map(words_of, request) if words[0] == "have"] for request in requests]


def words_of(line):
    """The words of a line. A mark has none that is used."""
    return [""] if isinstance(line, Mark) else text_of(line).split(" ")


def asked_by_engine(client, engine, server=None):
    """The windows that the engine asks a server for, or the stranger."""
    scene = client.scene()
    return asked_of(converse(scene, server or Stranger(), engine))


def asked_by_git(folder, client, commits=(OTHER,)):
    """The windows that real Git asks for, over version 2. The server has these commits, its branch at the last one."""
    ours, theirs = (os.path.join(folder, name) for name in ("client.git", "server.git"))
    made(ours, client.objects, client.references)
    made(theirs, commits, {"refs/heads/main": commits[-1].id})
    if client.border:
        write_file(os.path.join(ours, "shallow"), "".join(f"{digits}\n" for digits in client.border).encode())
    words = ["-C", ours, "-c", f"fetch.negotiationAlgorithm={client.algorithm}", "fetch", "-q",
             "--no-auto-maintenance", "--no-tags", theirs, SPEC]
    _, _, messages = run_git(words, more={"GIT_TRACE_PACKET": "1", "GIT_PROTOCOL": "version=2"})
    return windows_traced(messages)


def made(path, objects, references):
    """Makes a repository with these objects and references."""
    git(["init", "-q", "--bare", "--template=", "-b", "none", path])
    store(Repository(path), [EMPTY_TREE, *objects])
    given = "".join(f"create {name} {digits}\n" for name, digits in references.items()).encode()
    git(["-C", path, "update-ref", "--stdin"], given)


def windows_traced(messages):
    """The haves of each request in a trace of Git's lines. The first request lists, and has none."""
    windows, window = [], []
    for line in TRACED.findall(messages):
        if line == "0000":
            windows.append(window)
            window = []
        elif line != "done":
            window.append(line[5:])
    return windows[1:]


def told_first(windows):
    """The windows without what was told before. Those that have nothing else are left out."""
    known, found = set(), []
    for window in windows:
        found.append([digits for digits in window if digits not in known])
        known.update(window)
    return list(filter(None, found))


# What `skipping` tells.


def parents_of(each):
    """The parents of a commit."""
    head = each.data.decode().partition("\n\n")[0]
    return [line.removeprefix("parent ") for line in head.split("\n") if line.startswith("parent ")]


def seconds_of(each):
    """When a commit was committed."""
    head = each.data.decode().partition("\n\n")[0]
    return int(head.rpartition("committer ")[2].split(" ")[2])


class Skipping:
    """The walk of `skipping`, by its rules or as Git 2.39.5 goes it.

    Git doesn't know the time of a parent that it queues, unless a reference leads to it; so such parents come last, in
    the order in which they were queued. And it tells a commit whose parents were all taken before it.
    """

    def __init__(self, client, as_git):
        self.commits = {each.id: each for each in client.objects if each.kind == "commit"}
        self.border, self.as_git = client.border, as_git
        self.queue, self.places, self.taken = {}, {}, set()
        targets = {each.id: each.data.decode()[7:47] for each in client.objects if each.kind == "tag"}
        self.tips = {targets.get(digits, digits) for _, digits in sorted(client.references.items())}
        for _, digits in sorted(client.references.items()):
            self._put(targets.get(digits, digits))

    def _put(self, digits):
        if digits not in self.queue:
            self.queue[digits], self.places[digits] = (0, 0), len(self.places)

    def _rank(self, digits):
        is_known = not self.as_git or digits in self.tips
        return (-seconds_of(self.commits[digits]) if is_known else 0), self.places[digits]

    def told(self):
        """The ids that are told, in order."""
        found = []
        while self.queue:
            digits = min(self.queue, key=self._rank)
            if self._take(digits):
                found.append(digits)
        return found

    def _take(self, digits):
        """Takes a commit off the queue, and puts its parents on. Answers whether it is told."""
        first, left = self.queue.pop(digits)
        self.taken.add(digits)
        next_first = first if left else first * 3 // 2 + 1
        next_pair = (next_first, left - 1 if left else next_first)
        parents = [] if digits in self.border else parents_of(self.commits[digits])
        stored = [each for each in parents if each in self.commits]
        waiting = [each for each in stored if each not in self.taken]
        for parent in waiting:
            self._put(parent)
            self.queue[parent] = max(self.queue[parent], next_pair, key=lambda pair: pair[0])
        return left == 0 or not (waiting if self.as_git else stored)


# A line of commits.


def line_of(count):
    """So many commits, each the parent of the next one, at the seconds from 1 on."""
    made_so_far = []
    for seconds in range(1, count + 1):
        made_so_far.append(commit(seconds, [made_so_far[-1].id] if made_so_far else []))
    return made_so_far


def told(line, algorithm):
    """The ids that an algorithm tells of a line, the latest first."""
    backwards = [each.id for each in reversed(line)]
    if algorithm == "noop":
        return []
    if algorithm == "consecutive":
        return backwards
    found, first, left = [], 0, 0
    for place, digits in enumerate(backwards):
        if left == 0 or place == len(backwards) - 1:
            found.append(digits)
            first = first * 3 // 2 + 1
            left = first
        else:
            left -= 1
    return found


def windows_of(ids):
    """The ids by windows of 16, 32 and so on up to 1,024. The last one isn't full."""
    windows, size, place = [], FIRST_WINDOW, 0
    while len(ids) - place >= size:
        windows.append(ids[place : place + size])
        place, size = place + size, min(2 * size, LAST_WINDOW)
    return [*windows, ids[place:]]


def scene_of_line(client, windows):
    """The whole scene of a client that tells these windows, without the engine."""
    scene, stranger = client.scene(), Stranger()
    fetch = [b"command=fetch\n"]
    scene.server = [stranger.greeting(), stranger.answer([]), *(stranger.answer(fetch) for _ in windows[1:]),
                    stranger.answer([*fetch, DONE])]
    return scene
