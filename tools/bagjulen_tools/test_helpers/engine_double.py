"""Stands in for the engine in the checks of the tools.

It fetches by one refspec without a star into a name that is absent or up to date, finds nothing in a repository that it
checks, and mirrors all that stands in one. BEHAVIOUR in the environment makes it answer `malformed`, report a refusal, leave
the references out of its report, tell what it has first, or want what nobody has.
"""

import os
import sys

from bagjulen_tools.formats.plainpack import read_pack
from bagjulen_tools.formats.scene import packs_in, read_scene
from bagjulen_tools.protocol.lines import Mark, placed_lines, text_of

BEHAVIOUR = os.environ.get("BEHAVIOUR", "")
ALONE = {"malformed": ("malformed 12", 4)}


def say(*lines):
    """Writes lines of a report."""
    print("".join(f"{line}\n" for line in lines), end="")


def say_request(command, *lines):
    """Writes the lines of a request that was sent."""
    say(f'> "command={command}\\n"', '> "object-format=sha1\\n"', "> 0001")
    say(*(f'> "{line}\\n"' for line in lines), "> 0000")


def listed(said):
    """The references that a listing tells."""
    lines = [text_of(line) for _, line in placed_lines(said) if line is not Mark.FLUSH]
    return {name: digits for digits, name in (line.split(" ")[:2] for line in lines)}


def state(references, objects, logs=()):
    """What stands afterwards."""
    yield from (f"ref {references[name]} {name}" for name in sorted(references))
    yield from logs
    yield from (f"id {digits}" for digits in sorted({each.id for each in objects}))


def asks_for_more(scene, want):
    """Writes the requests for an id, as far as it has answers, and tells whether an answer is missing."""
    asked = ["plain-pack-2", f"want {'1' * 40 if BEHAVIOUR == 'wants nothing' else want}"]
    if BEHAVIOUR == "tells first":
        say_request("fetch", *asked, *(f"have {each.id}" for each in scene.objects if each.kind == "commit"))
        if len(scene.server) < 3 or list(packs_in(scene.server[2])):
            return len(scene.server) < 3
    say_request("fetch", *asked, "done")
    return not list(packs_in(scene.server[-1]))


def fetch(scene):
    """Writes the report of a scene, and answers the status."""
    source, _, destination = scene.specs[0].removeprefix("+").partition(":")
    say(f'> "git-upload-pack {scene.address}\\x00\\x00version=2\\x00"')
    say_request("ls-refs", "symrefs", "peel")
    if len(scene.server) < 2:
        say("refused Malformed 0", *state(scene.references, scene.objects))
        return 1
    want, held = listed(scene.server[1]).get(source), {each.id for each in scene.objects}
    if want is None:
        say(*state(scene.references, scene.objects), "ok")
        return 0
    if want not in held and asks_for_more(scene, want) or BEHAVIOUR == "refused":
        say("refused Malformed 0", *state(scene.references, scene.objects))
        return 1
    mode = "up-to-date" if scene.references.get(destination) == want else "new"
    say(f"map 0 {source} -> {destination}: {mode}")
    kept = {} if BEHAVIOUR == "forgets" else {destination: want}
    logs = [f"log {destination} {'0' * 40} {want} fetch: storing ref"] if mode == "new" else []
    say(*state(scene.references | kept, [*scene.objects, *scene.received()], logs), "ok")
    return 0


def mirror(data):
    """Writes the report of a mirror of all that the scene of a server has, and answers the status."""
    if BEHAVIOUR == "refused":
        say("refused ShallowServer")
        return 1
    parts = [[]]
    for _, line in placed_lines(data):
        if line is Mark.DELIMITER:
            parts.append([])
        elif line is not Mark.FLUSH:
            parts[-1].append(line)
    words = [text_of(line).split(" ") for line in parts[0]]
    references = {word[2]: word[1] for word in words if word[0] == "ref" and word[2].startswith("refs/")}
    say(*state({} if BEHAVIOUR == "forgets" else references, read_pack(b"".join(parts[1]), words[1][1])), "ok")
    return 0


def main(arguments: list[str]) -> int:
    if arguments == ["--version"]:
        say("bagjulen, its double")
        return 0
    if BEHAVIOUR in ALONE:
        text, status = ALONE[BEHAVIOUR]
        say(text)
        return status
    if arguments == ["check"]:
        say("ok")
        return 0
    given = sys.stdin.buffer.read()
    return mirror(given) if arguments[0] == "mirror" else fetch(read_scene(given))
