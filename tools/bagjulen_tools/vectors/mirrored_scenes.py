"""The rows of mirror_rows but those that are fetched. Scenes are put together by `checked-scenes`, beside this. What a mirror
holds is worked out here, from the objects' own texts: each reference under refs/ that leads to an id, as it, and all that is
reached from these. So are the lengths of a server's replies. Refusals and malformed places are written by hand from
docs/SCENES.md. INPUT gets the rows, and ANSWERS what they answer.
"""

import sys

from bagjulen_tools.vectors.checked_scenes import (
    C1,
    C2,
    C3,
    E,
    NO_ID,
    REF,
    Object,
    commit,
    head,
    line,
    pack,
    scene,
    tag,
    tree,
)

EACH = tuple(range(1, 9))
INPUTS, ANSWERS = [], []


def links(each):
    """The ids that an object names, but for submodules."""
    if each.kind == "tree":
        found, rest, width = [], each.data, len(each.id) // 2
        while rest:
            mode, rest = rest.split(b" ", 1)
            _, rest = rest.split(b"\0", 1)
            digits, rest = rest[:width].hex(), rest[width:]
            if int(mode, 8) != 0o160000:
                found.append(digits)
        return found
    if each.kind == "blob":
        return []
    headers = each.data.split(b"\n\n", 1)[0].decode().split("\n")
    return [text.split(" ")[1] for text in headers if text.split(" ")[0] in ("tree", "parent", "object")]


def id_at(references, name):
    """The id that a name leads to, or None where it is unborn."""
    while name in references and references[name].startswith("@"):
        name = references[name][1:]
    return references.get(name)


def mirror(objects, references):
    """The report of the mirror of these."""
    stored, references = {each.id: each for each in objects}, dict(references)
    born = {name: id_at(references, name) for name in references if name.startswith("refs/")}
    born = {name: digits for name, digits in born.items() if digits is not None}
    reached, waiting = set(), list(born.values())
    while waiting:
        digits = waiting.pop()
        if digits not in reached:
            reached.add(digits)
            waiting += links(stored[digits])
    named = [f"ref {born[name]} {name}" for name in sorted(born, key=str.encode)]
    return [*named, *(f"id {each}" for each in sorted(reached)), "ok"]


def begin(whose, about, given, lines=()):
    """The input of a row of a scene, and the first line of its answer."""
    INPUTS.append(f"= {whose} {about}\nscene {len(given)}\n".encode() + given + b"\n")
    INPUTS.extend(f"{line}\n".encode() for line in lines)
    ANSWERS.append(f"= {whose} {about}\n")


def row(about, given, *runs):
    """A row of a scene, and for each run the words, the status, and what is written."""
    begin("mirror", about, given, [words for words, _, _ in runs])
    last = None
    for words, status, answer in runs:
        told = [*answer, f"== status {status}"]
        ANSWERS.extend(f"{each}\n" for each in [f"== {words}", *(["== the same"] if told == last else told)])
        last = told


def done(about, objects, references, workers=(1, 2, 8), hash_name="sha1"):
    """A row of a scene that is mirrored, by each of these counts of workers alike."""
    answer = mirror(objects, references)
    row(about, scene(objects, references, hash_name=hash_name), *((f"mirror {count}", 0, answer) for count in workers))


def refused(about, given, token, workers=(1, 8)):
    """A row of a scene that is refused."""
    row(about, given, *((f"mirror {count}", 1, [f"refused {token}"]) for count in workers))


def whole():
    """Repositories that are mirrored."""
    text = Object("blob", b"text\n")
    full = tree(("100644", "file", text.id))
    main, side, old = commit(full, 4, "main", C3), commit(E, 5, "side", C2), C1
    named = tag(C2.id, "commit", "v1")
    done("three branches, two tags and a symbolic HEAD", [E, C1, C2, C3, text, full, main, side, named],
         [("HEAD", "@refs/heads/main"), ("refs/heads/main", main.id), ("refs/heads/old", old.id), ("refs/heads/side", side.id),
          ("refs/tags/v1", named.id), ("refs/tags/v2", C3.id)], EACH)
    done("no references, and an object", [E], [])
    done("nothing", [], [])
    done("an unborn HEAD", [], [("HEAD", "@refs/heads/main")])
    done("two names at one commit, in two shares", [E, C1], [(REF, C1.id), ("refs/heads/y", C1.id)])
    done("fewer names than workers", [E, C1, C2], [(REF, C2.id)], EACH)
    done("histories that share their beginning", [E, C1, C2, C3, side],
         [("refs/heads/a", C1.id), ("refs/heads/b", C2.id), ("refs/heads/c", C3.id), ("refs/heads/d", side.id)], EACH)
    done("an object that no reference reaches", [E, C1, C2], [(REF, C1.id)])
    done("a reference outside refs/", [E, C1, C2], [("ORIG_HEAD", C2.id), (REF, C1.id)])
    done("a symbolic reference under refs/, as its id", [E, C1], [(REF, C1.id), ("refs/remotes/o/HEAD", f"@{REF}")])
    done("a symbolic reference to an absent one", [E, C1], [(REF, C1.id), ("refs/remotes/o/HEAD", "@refs/remotes/o/main")])
    blob = Object("blob", b"")
    outer = tag(named.id, "tag", "v2")
    done("names of a blob, a tree and a tag of a tag", [E, C1, C2, blob, named, outer],
         [("refs/notes/blob", blob.id), ("refs/notes/tree", E.id), ("refs/tags/v2", outer.id)])
    module = tree(("160000", "module", NO_ID))
    done("a submodule whose commit isn't there", [module], [(REF, module.id)])
    done("nine names", [E, C1, C2, C3], [(f"refs/heads/{number}", (C1, C2, C3)[number % 3].id) for number in range(9)], EACH)
    other = Object("tree", b"", "sha256")
    one = commit(other, 1, "one", hash_name="sha256")
    done("ids of SHA-256", [other, one], [(REF, one.id)], hash_name="sha256")


def not_mirrored():
    """Repositories that aren't, by the first cause."""
    good = scene([E, C1], [(REF, C1.id)])
    row("another count of workers than one to eight", good,
        *((f"mirror {count}", 1, [f"refused Workers {count}"]) for count in (0, 9, 4294967295)))
    refused("a border", scene([E, C2], [(REF, C2.id)], [C2.id]), "ShallowServer")
    refused("a border, and a link that leads to nothing", scene([C2], [(REF, C2.id)], [C1.id]), "ShallowServer")
    refused("a link that leads to nothing", scene([E, C2], [(REF, C2.id)]), f"NotClosed {C2.id} {C1.id}")
    refused("a name of what isn't there", scene([E, C1], [(REF, NO_ID), ("refs/heads/y", C1.id)]), f"NotServable {REF}")
    refused("names that lead to each other", scene([], [("refs/b", "@refs/a"), ("refs/a", "@refs/b")]), "NotServable refs/a")
    longer = "refs/" + "a" * 29996
    refused("a name of 30,001 bytes", scene([E, C1], [(longer, C1.id)]), f"NotServable {longer}", (1,))
    row("workers are counted before the repository is looked at", scene([C1], [(REF, C1.id)]),
        ("mirror 9", 1, ["refused Workers 9"]))


def malformed():
    """Words and scenes that break their grammar."""
    good = scene([E, C1], [(REF, C1.id)])
    row("words", good, *((words, 4, [f"malformed word {number}"]) for words, number in (
        ("mirror", 2), ("mirror 01", 2), ("mirror -1", 2), ("mirror x", 2), ("mirror 4294967296", 2), ("mirror 1 x", 3),
        ("mirror x x", 2), ("mirrors 1", 1), ("race", 1))))
    front = head([(REF, C1.id)]) + line(pack([E, C1]))
    for about, given, place in (("no byte", b"", 0), ("a delimiter after the objects", front + b"0001", len(front)),
                                ("no flush", front, len(front)), ("a byte after the flush", front + b"0000x", len(front) + 4)):
        row(about, given, *((f"mirror {count}", 4, [f"malformed {place}"]) for count in (1, 9)))


def greeting_length(hash_name="sha1"):
    """How many bytes the greeting of a server has."""
    return reply_length(["version 2", "ls-refs=unborn", "fetch=shallow plain-pack plain-pack-2", f"object-format={hash_name}"])


def reply_length(lines):
    """How many bytes these lines have, each with its four digits and a line feed, with a flush behind."""
    return sum(4 + len(text) + 1 for text in lines) + 4


def given_length(objects):
    """How many bytes the reply with the pack of these objects has, where it needs one band."""
    return reply_length(["packfile"]) + 4 + 1 + len(pack_of(objects))


def pack_of(objects):
    """The plain pack of these objects."""
    return pack(sorted(objects, key=lambda each: each.id))


def bounds(about, objects, references, *runs):
    """A row of a scene that is mirrored with other bounds of replies: a count of workers, a bound, and the refusal, or None."""
    begin("bounds", about, scene(objects, references), [f"{workers} {bound}" for workers, bound, _ in runs])
    for workers, bound, token in runs:
        told = mirror(objects, references) if token is None else [f"refused {token}"]
        ANSWERS.extend(f"{each}\n" for each in [f"== {workers} {bound}", *told])


def replies_that_are_too_long():
    """Mirrors by a bound that a greeting, a listing or a pack passes, the least worker's told first."""
    named = [("HEAD", "@refs/heads/main"), ("refs/heads/main", C1.id)]
    greeting, given = greeting_length(), given_length([E, C1])
    listing = reply_length([f"{C1.id} HEAD symref-target:refs/heads/main", f"{C1.id} refs/heads/main"])
    runs = [(bound, f"ReplyTooLong {bound}") for bound in (1, greeting - 1, greeting, listing - 1)]
    runs += [(bound, f"Worker 0 ReplyTooLong {bound}") for bound in (listing, given - 1)] + [(given, None), (1 << 30, None)]
    bounds("a greeting, a listing and a pack", [E, C1], named, *((workers, *run) for run in runs for workers in (1, 8)))
    text = Object("blob", b"a text that is longer than others\n" * 20)
    full = tree(("100644", "file", text.id))
    large, small = commit(full, 2, "large"), C1
    stored = [E, C1, text, full, large]
    one, both = given_length([text, full, large]), given_length(stored)
    bounds("a second worker whose pack is too long", stored, [("refs/heads/a", small.id), ("refs/heads/b", large.id)],
           (2, one - 1, f"Worker 1 ReplyTooLong {one - 1}"), (8, one - 1, f"Worker 1 ReplyTooLong {one - 1}"), (2, one, None),
           (1, one, f"Worker 0 ReplyTooLong {one}"), (1, both - 1, f"Worker 0 ReplyTooLong {both - 1}"), (1, both, None))
    bounds("two workers whose packs are too long", stored, [("refs/heads/a", large.id), ("refs/heads/b", large.id)],
           (1, one - 1, f"Worker 0 ReplyTooLong {one - 1}"), (2, one - 1, f"Worker 0 ReplyTooLong {one - 1}"), (2, one, None))
    bounds("workers are counted before a listing", [E, C1], named, (9, 1, "Workers 9"), (0, 1, "Workers 0"))
    bounds("what isn't served is told before a listing", [C1], named, (1, 1, f"NotClosed {C1.id} {E.id}"))


def gated(about, objects, references, entries=4):
    """A row of a scene that is mirrored by two workers who wait for each other: each takes a pack, and then commits."""
    begin("gated", about, scene(objects, references))
    ANSWERS.extend(f"{each}\n" for each in [*mirror(objects, references), f"== entries {entries}"])


def workers_at_once():
    """Workers of whom each is asked for nothing before the other one was asked for it too."""
    gated("two names of two histories", [E, C1, C2, C3], [("refs/heads/a", C3.id), ("refs/heads/b", C1.id)])
    gated("two names at one commit", [E, C1], [("HEAD", f"@{REF}"), (REF, C1.id), ("refs/heads/y", C1.id)])
    gated("no references, so no workers", [E], [], 0)
    gated("four names", [E, C1, C2, C3], [(f"refs/heads/{number}", (C1, C2, C3)[number % 3].id) for number in range(4)])


def main(arguments: list[str]) -> int:
    if len(arguments) != 2:
        sys.exit("usage: mirrored-scenes INPUT ANSWERS")
    whole()
    not_mirrored()
    malformed()
    replies_that_are_too_long()
    workers_at_once()
    with open(arguments[0], "wb") as inputs, open(arguments[1], "w", encoding="utf-8") as answers:
        inputs.writelines(INPUTS)
        answers.writelines(ANSWERS)
    return 0
