"""A real repository mirrored by the engine into another, and what Git's own mirror of it has otherwise."""

import os
from collections.abc import Iterator, Set
from dataclasses import dataclass

from bagjulen_tools.engine import Engine
from bagjulen_tools.files import clear_folder
from bagjulen_tools.formats.refusals import refusal_words
from bagjulen_tools.formats.report import Report
from bagjulen_tools.formats.scene import Scene
from bagjulen_tools.protocol.lines import encoded_text
from bagjulen_tools.repository.apply import apply
from bagjulen_tools.repository.git import Repository, git, run_git
from bagjulen_tools.repository.reached import reached_state
from bagjulen_tools.trouble import BAD_INPUT, DIFFERENT, Trouble

# The section that Git writes for a mirror.
REMOTE = (("url", ""), ("fetch", "+refs/*:refs/*"), ("mirror", "true"))


@dataclass
class Mirrored:
    """What came of a mirror: how many objects were stored, references made or moved, and references removed;
    and the ids of the objects that stood there before.
    """

    objects: int
    references: int
    removed: int
    ids_before: set[str]


def mirror(server: Repository, place: str, workers: int, engine: Engine) -> Mirrored:
    """Mirrors a repository by so many workers of the engine into a new bare repository, or into the one that
    was made so.

    Where a new one can't be written, nothing of it stays.
    """
    address = os.path.abspath(server.path)
    client = standing_mirror(place, address)
    state = reached_state(server)
    report = engine.mirror(state.to_server_bytes(), workers)
    if report.refused is not None:
        raise Trouble(DIFFERENT, f"the mirror was refused: {refusal_words(report.refused)}")
    if client is not None:
        return _write(client, state, report)
    was_there = os.path.isdir(place)
    try:
        client = made(place, state.hash_name)
        for key, value in REMOTE:
            client.git("config", f"remote.origin.{key}", value or address)
        return _write(client, state, report)
    except BaseException:
        clear_folder(place, was_there)
        raise


def standing_mirror(place: str, address: str) -> Repository | None:
    """The mirror of an address that stands at a place already, or None where nothing stands there."""
    if not os.path.lexists(place) or os.path.isdir(place) and not os.listdir(place):
        return None
    found = Repository(place) if os.path.isfile(os.path.join(place, "HEAD")) else None
    if found is None or not os.path.samefile(found.common_dir, place):
        raise Trouble(BAD_INPUT, f"{place} is there already, and is neither an empty directory nor a mirror")
    entries = dict(found.entries())
    if entries.get("remote.origin.mirror") != "true" or entries.get("remote.origin.url") != address:
        raise Trouble(BAD_INPUT, f"{place} is there already, and is no mirror of {address}")
    return found


def made(place: str, hash_name: str) -> Repository:
    """An empty bare repository."""
    git(["init", "-q", "--bare", "--template=", "-b", "main", f"--object-format={hash_name}", place])
    return Repository(place)


def _write(client: Repository, state: Scene, report: Report) -> Mirrored:
    """Writes a mirror. First goes what the server hasn't any more: no name is in the way of another."""
    before, stored = client.references(), client.stored_ids()
    gone = {name: target for name, target in before.items() if name not in {"HEAD", *report.references}}
    lines = [f"delete {name}" + (f" {target}" if target[0] != "@" else "") for name, target in gone.items()]
    given = encoded_text("".join(f"{line}\n" for line in lines))
    client.git("update-ref", "--no-deref", "--stdin", given=given)
    # What stood in the client is what the report is compared with, and the objects' bytes are those of the
    # server.
    standing = {name: target for name, target in before.items() if name not in gone}
    scene = Scene(hash_name=state.hash_name, git_dir=client.git_dir, references=standing,
                  border=client.border(), objects=state.objects)
    objects, references = apply(client, scene, report)
    _point_head(client, state.references["HEAD"], report)
    return Mirrored(objects, references, len(gone), stored)


def _point_head(client: Repository, target: str, report: Report) -> None:
    """Has `HEAD` stand where the server has it, but where no reference of the mirror reaches that."""
    if target.startswith("@"):
        client.git("symbolic-ref", "HEAD", target[1:])
    elif target in report.ids:
        client.git("update-ref", "--no-deref", "HEAD", target)


def mirrored_by_git(server: Repository, place: str) -> Repository:
    """Git's own mirror of a repository."""
    git(["clone", "-q", "--mirror", f"file://{os.path.abspath(server.path)}", place])
    return Repository(place)


def differences(ours: Repository, theirs: Repository, ids_before: Set[str] = frozenset()) -> Iterator[str]:
    """What two mirrors have otherwise, in words: references under `refs/`, the objects that these reach, and
    what `git fsck` says. Ours may have objects that stood there before.
    """
    mine, real = ours.direct_references(), theirs.direct_references()
    for name in sorted(name for name in mine.keys() | real.keys() if mine.get(name) != real.get(name)):
        yield f"{name} is {real.get(name)} by Git, and {mine.get(name)} by the engine"
    stored, reached = ours.stored_ids(), reached_ids(theirs)
    for who, ids in (("Git", reached - stored), ("the engine", stored - reached - ids_before)):
        if ids:
            yield f"{len(ids)} objects are there by {who} alone, {min(ids)} among them"
    told = [fsck(each) for each in (theirs, ours)]
    if told[0] != told[1]:
        yield f"git fsck says {told[0]} of Git's mirror, and {told[1]} of the engine's"


def reached_ids(repository: Repository) -> set[str]:
    """The ids of the objects that references under `refs/` reach."""
    return set(repository.text("rev-list", "--objects", "--no-object-names", "--glob=refs/*").split())


def fsck(repository: Repository) -> tuple[int, list[str]]:
    """The status of `git fsck` and its words, but for those about what nothing reaches and where `HEAD`
    leads.
    """
    status, out, messages = run_git(["-C", repository.path, "fsck", "--full", "--no-progress"])
    lines = out.decode(errors="replace").splitlines() + messages.splitlines()
    return status, sorted(line for line in lines if not line.startswith(("dangling", "notice")))
