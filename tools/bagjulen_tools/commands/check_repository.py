"""Checks real repositories by the engine and by `git fsck --connectivity-only`, and compares what both find.

Each REPOSITORY is taken with its references, border and objects, without logs, index and work trees, and
none is changed. With --damage each is harmed first, in one to three of six ways that the seed draws: a file,
a tree or a commit is gone, a reference has an id that isn't there, names lead in a circle, a commit enters
the border. Differences that have a reason are counted by it. An object that can't be read is told and counts
as one that isn't there; a repository that can't be read, or of which the engine can't read the scene, is
told and passed over: in both cases the status is 3, unless it is 1.
"""

import argparse
import os
from collections import Counter
from random import Random

from bagjulen_tools.engine import MALFORMED, PROGRAM, Engine
from bagjulen_tools.files import temporary_folder
from bagjulen_tools.formats.scene import Scene
from bagjulen_tools.protocol.lines import decoded_text
from bagjulen_tools.repository.fsck import (
    UNEXPLAINED,
    differences,
    laid_out,
    read_state,
    told_by_engine,
    told_by_git,
)
from bagjulen_tools.repository.git import Repository
from bagjulen_tools.trials.damage import Damage
from bagjulen_tools.trouble import BAD_INPUT, DIFFERENT, DONE, GIT_REFUSED, ToolParser, Trouble

# What is counted where a repository, or an object of one, can't be read.
NOT_READ = "not read"


def words(given: list[str]) -> argparse.Namespace:
    """What the words say."""
    parser = ToolParser(__doc__, "something is found otherwise, for no reason that is known")
    parser.add_argument("repositories", metavar="REPOSITORY", nargs="+", help="a repository on this machine")
    parser.add_argument("--damage", metavar="SEED", help="harm a copy of each; any text")
    parser.add_argument("--copies", metavar="N", type=int, default=1, help="how many copies of each (1)")
    parser.add_argument("--engine", default=PROGRAM, metavar="PROGRAM", help="the engine (bagjulen beside tools/)")
    return parser.parse_intermixed_args(given)


def compared(state: Scene, engine: Engine) -> tuple[list[str], list[str]]:
    """How a repository came out, in words, and the reasons for what differs."""
    status, written = engine.check(state.to_server_bytes())
    if status == MALFORMED:
        return [f"the engine can't read it: {decoded_text(written).strip()}"], [NOT_READ]
    ours = told_by_engine(status, written)
    with temporary_folder() as folder:
        theirs = told_by_git(laid_out(state, folder))
    found = list(differences(state, ours, theirs))
    told = f"{len(ours.links)} links, {len(ours.broken)} references, {len(ours.unreached)} objects"
    others = [f"{reason}: {what}" for reason, what in found if reason == UNEXPLAINED]
    return [told, *others], [reason for reason, _ in found]


def checked(path: str, number: int, asked: argparse.Namespace, engine: Engine) -> set[str]:
    """Checks a repository, tells of it, and answers what is counted."""
    try:
        state, damaged = read_state(Repository(path))
        random = Random(f"{asked.damage}/{os.path.basename(path)}/{number}")
        harm = [] if asked.damage is None else Damage(random, state).some(random.randint(1, 3))
        told, reasons = compared(state, engine)
    except Trouble as trouble:
        if trouble.status not in (BAD_INPUT, GIT_REFUSED):
            raise
        print(f"{path}: {trouble}", flush=True)
        return {NOT_READ}
    lost = [f"the object {digits} can't be read, and counts as missing: {why}"
            for digits, why in damaged.items()]
    first = f"{path}: {', '.join(harm) or 'as it stands'}: {told[0]}"
    print(first, *lost, *told[1:], sep="\n    ", flush=True)
    return set(reasons) | ({NOT_READ} if damaged else set()) or {"alike"}


def main(arguments: list[str]) -> int:
    """Checks each, and returns 1 where something differs, or else 3 where something wasn't read."""
    asked = words(arguments)
    engine = Engine(asked.engine)
    counts: Counter[str] = Counter()
    for path in asked.repositories:
        for number in range(asked.copies):
            counts.update(checked(path, number, asked, engine))
    for reason, count in sorted(counts.items()):
        print(f"{count:6} {reason}")
    if counts[UNEXPLAINED]:
        return DIFFERENT
    return BAD_INPUT if counts[NOT_READ] else DONE
