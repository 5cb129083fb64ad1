"""The rows of fetch_rows that are checked. Scenes and ids are put together here, with hashlib; each answer is written by
hand from docs/SCENES.md. INPUT gets the rows, and ANSWERS what they answer.
"""

import hashlib
import struct
import sys

CODES = {"commit": 1, "tree": 2, "blob": 3, "tag": 4}
NO_ID = "f" * 40
REF = "refs/heads/x"


class Object:
    """An object: its id in hex, its kind and its bytes."""

    def __init__(self, kind, data, hash_name="sha1"):
        self.id = hashlib.new(hash_name, f"{kind} {len(data)}\0".encode() + data).hexdigest()
        self.kind, self.data = kind, data


def commit(tree, seconds, message, *parents, hash_name="sha1"):
    """A commit of these parents."""
    lines = [f"tree {tree.id}", *(f"parent {each.id}" for each in parents), f"author A <a@x> {seconds} +0000",
             f"committer A <a@x> {seconds} +0000", "", message, ""]
    return Object("commit", "\n".join(lines).encode(), hash_name)


def tag(target, kind, name):
    """An annotated tag."""
    return Object("tag", f"object {target}\ntype {kind}\ntag {name}\ntagger A <a@x> 1 +0000\n\n{name}\n".encode())


def tree(*entries):
    """A tree of modes, names and ids."""
    return Object("tree", b"".join(f"{mode} {name}\0".encode() + bytes.fromhex(digits) for mode, name, digits in entries))


def line(payload):
    """A line."""
    return b"%04x%s" % (len(payload) + 4, payload)


def pack(objects, hash_name="sha1", version=2):
    """A plain pack."""
    text = b"PLNP" + struct.pack(">II", version, len(objects))
    for each in objects:
        text += bytes([CODES[each.kind]]) + struct.pack(">I" if version == 1 else ">Q", len(each.data))
        text += (b"" if version == 1 else bytes.fromhex(each.id)) + each.data
    return text + hashlib.new(hash_name, text).digest()


def head(references=(), border=(), hash_name="sha1"):
    """The lines up to the objects."""
    texts = ["scene 1", f"hash {hash_name}", "git-dir /s.git", *(f"ref {target} {name}" for name, target in references),
             *(f"border {digits}" for digits in border)]
    return b"".join(line(f"{text}\n".encode()) for text in texts) + b"0001"


def scene(objects, references=(), border=(), hash_name="sha1", version=2):
    """A server scene, its pack in one line."""
    return head(references, border, hash_name) + line(pack(objects, hash_name, version)) + b"0000"


ROWS = []


def row(about, given, status, *answer, ends=""):
    """A row of a scene, what is written, and the status."""
    ROWS.append((f"= check {about}\n", given, ends, "".join(f"{each}\n" for each in answer) + f"== status {status}\n"))


E = tree()
C1 = commit(E, 1, "one")
C2 = commit(E, 2, "two", C1)
C3 = commit(E, 3, "three", C2)
assert C1.id == "bc6e39d85183dbf480419262896d4ffa452774ab"
assert E.id == "4b825dc642cb6eb9a060e54bf8d69288fbee4904"


def whole():
    """Repositories in which nothing is found."""
    row("the repository that the first scene leaves", scene([E, C1], [("refs/remotes/origin/main", C1.id)]), 0, "ok")
    row("no objects and no references", scene([]), 0, "ok")
    row("a pack of version 1", scene([E, C1], [(REF, C1.id)], version=1), 0, "ok")
    data = pack([E, C1])
    row("a pack in two lines", head([(REF, C1.id)]) + line(data[:100]) + line(data[100:]) + b"0000", 0, "ok")
    other = Object("tree", b"", "sha256")
    one = commit(other, 1, "one", hash_name="sha256")
    row("ids of SHA-256", scene([other, one], [(REF, one.id)], hash_name="sha256"), 0, "ok")
    row("an unborn HEAD", scene([], [("HEAD", "@refs/heads/main")]), 0, "ok")
    row("a name that leads to an absent one over another", scene([], [("HEAD", f"@{REF}"), (REF, "@refs/heads/y")]), 0, "ok")
    row("a symbolic reference", scene([E, C1], [("HEAD", f"@{REF}"), (REF, C1.id)]), 0, "ok")
    row("a commit of the border, whose parent isn't there", scene([E, C2], [(REF, C2.id)], [C2.id]), 0, "ok")
    named = tag(C1.id, "commit", "v1")
    row("a tag", scene([E, C1, named], [("refs/tags/v1", named.id)]), 0, "ok")
    blob = Object("blob", b"")
    row("a reference to a blob", scene([blob], [(REF, blob.id)]), 0, "ok")
    module = tree(("160000", "module", NO_ID))
    row("a submodule whose commit isn't there", scene([module], [(REF, module.id)]), 0, "ok")


def missing():
    """Links that lead to nothing."""
    row("a commit without its tree, a reference to nothing", scene([C1], [(REF, NO_ID)]), 1,
        f"missing {C1.id} {E.id}", f"broken {REF} MissingObject {NO_ID}", f"unreached {C1.id}", "found 3")
    twice = tree(("100644", "a", NO_ID), ("100644", "b", NO_ID), ("100644", "c", "e" * 40))
    row("a tree that names a missing blob twice", scene([twice], [(REF, twice.id)]), 1,
        f"missing {twice.id} {NO_ID}", f"missing {twice.id} {'e' * 40}", "found 2")
    merge = commit(E, 4, "merge", C3, C2)
    row("the parents of a merge, in their order", scene([E, merge], [(REF, merge.id)]), 1,
        f"missing {merge.id} {C3.id}", f"missing {merge.id} {C2.id}", "found 2")
    links = sorted([(C1.id, E.id), (C2.id, E.id), (C3.id, E.id)])
    row("the objects that link, by their ids", scene([C3, C2, C1], [(REF, C3.id)]), 1,
        *(f"missing {here} {there}" for here, there in links), "found 3")
    row("a border of nothing", scene([], border=[NO_ID]), 1, f"missing {NO_ID} {NO_ID}", "found 1")
    row("a border of a tree, behind a link", scene([E, C2], [(REF, C2.id)], [E.id]), 1,
        f"missing {C2.id} {C1.id}", f"missing {E.id} {E.id}", "found 2")
    lost = tag(C1.id, "commit", "v1")
    row("a tag of nothing", scene([lost], [("refs/tags/v1", lost.id)]), 1, f"missing {lost.id} {C1.id}", "found 1")


def broken():
    """References that lead to nothing."""
    row("a name that leads to itself", scene([], [(REF, f"@{REF}")]), 1, f"broken {REF} Cycle", "found 1")
    row("two names that lead to each other", scene([], [("refs/a", "@refs/b"), ("refs/b", "@refs/a")]), 1,
        "broken refs/a Cycle", "broken refs/b Cycle", "found 2")
    names = [f"refs/{letter}" for letter in "abcdef"]
    way = [(name, f"@{after}") for name, after in zip(names, names[1:])]
    row("five names on the way to a sixth", scene([E, C1], [*way, (names[-1], C1.id)]), 1, "broken refs/a Depth", "found 1")
    row("six names in a circle", scene([], [*way, (names[-1], "@refs/a")]), 1, *(f"broken {name} Depth" for name in names),
        "found 6")
    row("names by their order, and not that of the scene", scene([], [("refs/b", NO_ID), ("HEAD", "@refs/b"), ("refs/a", NO_ID)]),
        1, *(f"broken {name} MissingObject {NO_ID}" for name in ("HEAD", "refs/a", "refs/b")), "found 3")
    lost = tag(C1.id, "commit", "v1")
    outer = tag(lost.id, "tag", "v2")
    row("a name that leads to a tag of nothing", scene([lost, outer], [("HEAD", "@refs/tags/v2"), ("refs/tags/v2", outer.id)]), 1,
        f"missing {lost.id} {C1.id}", f"broken HEAD MissingObject {C1.id}", "found 2")


def unreached():
    """Objects that no reference reaches."""
    row("no reference", scene([E, C1, C2]), 1, *(f"unreached {digits}" for digits in sorted([E.id, C1.id, C2.id])), "found 3")
    row("a commit behind the one that is named", scene([E, C1, C2, C3], [(REF, C2.id)]), 1, f"unreached {C3.id}", "found 1")
    row("the parent of a commit of the border", scene([E, C1, C2], [(REF, C2.id)], [C2.id]), 1, f"unreached {C1.id}", "found 1")
    row("a commit behind the border, by another way", scene([E, C1, C2], [(REF, C2.id), ("refs/heads/y", C1.id)], [C2.id]), 0, "ok")
    blobs = sorted((Object("blob", str(number).encode()) for number in range(12)), key=lambda each: each.id)
    row("twelve blobs", scene(blobs[::-1]), 1, *(f"unreached {each.id}" for each in blobs), "found 12")


def malformed():
    """What is no server scene."""
    good = [E, C1]
    front = head([(REF, C1.id)])
    data = line(pack(good))
    row("no byte", b"", 4, "malformed 0")
    row("another first line", b"000cscene 2\n" + scene(good)[12:], 4, "malformed 0")
    row("a delimiter after the objects", front + data + b"0001", 4, f"malformed {len(front + data)}")
    row("a remote after the objects", front + data + b"0001" + line(b"remote /a\n") + b"0000", 4, f"malformed {len(front + data)}")
    row("no flush", front + data, 4, f"malformed {len(front + data)}")
    row("a flush after the flush", front + data + b"00000000", 4, f"malformed {len(front + data) + 4}")
    row("a byte after the flush", front + data + b"0000x", 4, f"malformed {len(front + data) + 4}")
    row("no pack", front + b"0000", 4, f"malformed {len(front)}")
    row("a delimiter in place of the pack", front + b"00010000", 4, f"malformed {len(front)}")
    broken_pack = pack(good)[:-1] + b"\0"
    row("a pack with another digest in two lines, before what may not follow",
        front + line(broken_pack[:50]) + line(broken_pack[50:]) + b"0001", 4, f"malformed {len(front)}")
    row("a name twice", scene(good, [(REF, C1.id), (REF, C1.id)]), 4, f"malformed {len(head([(REF, C1.id)])) - 4}")
    row("the digits of another hash", scene(good, [(REF, "0" * 64)]), 4, f"malformed {len(head()) - 4}")


def failing():
    """Ends that fail."""
    given = scene([E, C1])
    row("a source that fails at once", given, 2, ends="ends 0 -\n")
    row("a source that fails at its end", given, 2, ends="ends 1 -\n")
    row("a sink that fails", given, 3, ends="ends - 0\n")
    row("a sink without memory", given, 5, ends="ends - full\n")
    row("a source and a sink that fail later", scene([C2, C1, E], [(REF, C2.id)]), 0, "ok", ends="ends 2 1\n")


def main(arguments: list[str]) -> int:
    if len(arguments) != 2:
        sys.exit("usage: checked-scenes INPUT ANSWERS")
    whole()
    missing()
    broken()
    unreached()
    malformed()
    failing()
    ROWS.append(("= words check\n", None, "", "malformed 0\n== status 4\n"))
    ROWS.append(("= words check x\n", None, "", "malformed word 2\n== status 4\n"))
    with open(arguments[0], "wb") as inputs, open(arguments[1], "wb") as answers:
        for title, data, ends, answer in ROWS:
            inputs.write(title.encode() + (b"" if data is None else b"scene %d\n%s\n" % (len(data), data)) + ends.encode())
            answers.write((title + answer).encode())
    return 0
