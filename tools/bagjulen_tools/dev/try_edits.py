"""Tries wrong bodies: the edits of crates/NAME/wrong-bodies and crates/NAME/must-fail, each of which the prover must refuse.

With no NAME all crates that have edits are tried. An edit is tried on a copy of its crate, over a copy of what `rt check`
kept in the crate's out/, so that it costs the check of what it changes; a crate that has nothing kept is checked whole
first. Libraries below that aren't built are built first, in their folders. The verdict on an edit is that of
`rt must-fail`, by its own functions. A crate that isn't proved itself says nothing of its edits.

Printed is a line for each edit: refused, with the first goal that isn't proved; let through; not applied, with the reason.
"""

import importlib.machinery
import importlib.util
import itertools
import os
import queue
import shutil
import signal
import sys
import tempfile
from collections import Counter
from concurrent.futures import ThreadPoolExecutor, as_completed
from dataclasses import dataclass

from bagjulen_tools.paths import TOP
from bagjulen_tools.trouble import BAD_WORDS, DIFFERENT, DONE, ENGINE_FAILED, ToolParser, Trouble

FOLDERS = ("wrong-bodies", "must-fail")
ENDING = ".edit"
ONE_JOB = ["--jobs", "1"]
REFUSED, LET_THROUGH, NOT_APPLIED = "refused", "let through", "not applied"
# How `rt must-fail` tells them, after the edit's name.
OUTCOMES = {"refused, as it must be": REFUSED, "NOT REFUSED": LET_THROUGH, "BAD EDIT": NOT_APPLIED}


def words(given):
    """What the words say."""
    parser = ToolParser(__doc__, "an edit isn't refused, or a crate isn't proved itself")
    parser.add_argument("names", metavar="NAME", nargs="*", help="a crate, by its folder's name")
    parser.add_argument("--jobs", metavar="N", type=int, default=len(os.sched_getaffinity(0)),
                        help="checks at once (one a processor); each takes 0.5 to 4 GB")
    parser.add_argument("--repository", metavar="FOLDER", default=TOP, help="the top of the repository (this one)")
    asked = parser.parse_args(given)
    if asked.jobs < 1:
        raise Trouble(BAD_WORDS, "--jobs is 1 or more (--help tells more)")
    return asked


def toolchain():
    """The command `rt`, as a module."""
    path = shutil.which("rt")
    if path is None:
        raise Trouble(ENGINE_FAILED, "there is no `rt`, the toolchain that proves (README.md)")
    loader = importlib.machinery.SourceFileLoader("rt", os.path.realpath(path))
    found = importlib.util.module_from_spec(importlib.util.spec_from_loader("rt", loader))
    loader.exec_module(found)
    return found


@dataclass
class Tried:
    """An edit, and what became of it: the goal that isn't proved, or why it couldn't be applied."""

    crate: str
    edit: str
    outcome: str
    why: str


class Crate:
    """A crate with its edits, and copies of its kept work, of which each check that runs has one of its own."""

    def __init__(self, rt, made, room):
        self.name, self._rt, self._made, self._room = made.name, rt, made, room
        self.edits = [os.path.join(made.folder, folder, file) for folder in FOLDERS
                      for file in files_in(os.path.join(made.folder, folder)) if file.endswith(ENDING)]
        self._copies, self._count = queue.SimpleQueue(), itertools.count()

    def build_below(self):
        """Builds the libraries below that aren't built."""
        for dep in self._made.below():
            if not dep.is_built():
                print(f"{dep.name}: building it, below {self.name}", file=sys.stderr, flush=True)
                if dep.build_rlib(ONE_JOB, anew=False) != 0:
                    raise Trouble(ENGINE_FAILED, f"{dep.name}, below {self.name}, can't be built")

    def is_proved(self, jobs):
        """Whether the crate itself is proved. What was kept of it, or comes of this check, is there for its edits."""
        self._origin = os.path.join(self._made.folder, "out", "incremental")
        first = self._copy(self._origin)
        ran = self._rt.checked(self._made, {}, ONE_JOB, first)
        if not os.path.isdir(self._origin) and min(jobs, len(self.edits)) > 1:
            self._origin = self._copy(first)
        self._copies.put(first)
        return ran.returncode == 0

    def _copy(self, kept):
        """A copy of kept work, or an empty folder where there is none."""
        target = os.path.join(self._room, f"{self.name}-{next(self._count)}")
        if os.path.isdir(kept):
            shutil.copytree(kept, target)
        else:
            os.mkdir(target)
        return target

    def try_edit(self, edit):
        """What becomes of an edit."""
        try:
            kept = self._copies.get_nowait()
        except queue.Empty:
            kept = self._copy(self._origin)
        _, text = self._rt.must_fail(self._made, edit, ONE_JOB, kept)
        self._copies.put(kept)
        file = os.path.basename(edit)
        told = text.partition(f"{file}: ")[2]
        front = next((each for each in OUTCOMES if told.startswith(each)), "")
        outcome = OUTCOMES.get(front, NOT_APPLIED)
        why = told.removeprefix(front).strip(": \n").removeprefix("note: ")
        return Tried(self.name, file.removesuffix(ENDING), outcome, why)


def files_in(folder):
    return sorted(os.listdir(folder)) if os.path.isdir(folder) else []


def end_cleanly(room):
    """Has the copies go where the tool is told to end. The checks that run end with it."""
    def stop(number, _):
        shutil.rmtree(room, ignore_errors=True)
        os._exit(128 + number)

    signal.signal(signal.SIGTERM, stop)


def crates_of(rt, asked, room):
    """The crates whose edits are tried, lowest first."""
    os.chdir(asked.repository)
    found = [Crate(rt, each, room) for each in rt.rtlib.crates_below(os.getcwd())]
    unknown = set(asked.names) - {each.name for each in found if each.edits}
    if unknown:
        raise Trouble(BAD_WORDS, f"{min(unknown)} is no crate with edits")
    return [each for each in found if each.edits and (each.name in asked.names or not asked.names)]


def tried_of(crates, jobs):
    """What becomes of each edit, in the order in which it is known, and of each crate that isn't proved itself."""
    with ThreadPoolExecutor(jobs) as pool:
        checks = {pool.submit(each.is_proved, jobs): each for each in crates}
        edits = []
        for done in as_completed(checks):
            crate = checks[done]
            if done.result():
                edits += [pool.submit(crate.try_edit, edit) for edit in crate.edits]
            else:
                yield Tried(crate.name, "(the crate itself)", NOT_APPLIED, "it isn't proved, so its edits weren't tried")
        yield from (each.result() for each in as_completed(edits))


def main(arguments: list[str]) -> int:
    asked, rt = words(arguments), toolchain()
    with tempfile.TemporaryDirectory(prefix="try-edits-") as room:
        end_cleanly(room)
        crates = crates_of(rt, asked, room)
        rt.rtlib.guarded()
        for each in crates:
            each.build_below()
        counts: Counter[str] = Counter()
        for each in tried_of(crates, asked.jobs):
            counts[each.outcome] += 1
            print(f"{each.crate:18} {each.edit:50} {each.outcome:11} {each.why}", flush=True)
    print(*(f"{counts[outcome]} {outcome}" for outcome in OUTCOMES.values()), sep=", ")
    return DONE if set(counts) <= {REFUSED} else DIFFERENT
