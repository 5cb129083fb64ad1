"""What is tried of the program and of crates/serve_rows: how its input is made, which words run it, and what has to come."""

import glob
import os

from bagjulen_tools.engine import BUILT
from bagjulen_tools.formats import rows
from bagjulen_tools.paths import TOP
from bagjulen_tools.trials import row_server
from bagjulen_tools.trials.expectations import answer_of
from bagjulen_tools.trials.findings import findings, mirrored, state_in
from bagjulen_tools.trials.mutation import Mutator
from bagjulen_tools.trials.random_input import Repositories
from bagjulen_tools.trouble import read_file


def scenes():
    """The scenes that are changed."""
    yield from (scene for _, scene, _ in rows.scenes())
    yield from map(read_file, sorted(glob.glob(os.path.join(TOP, "examples", "*.scene"))))


class Trial:
    """What is tried. `make` makes the input of a seed and a number, and the words that it is run with."""

    program = BUILT

    def __init__(self, asked):
        self.asked = asked

    def answer(self, given, words):
        """The status and the text that are to come, or None where they aren't known."""


class SceneTrial(Trial):
    """Fetches, and races."""

    def __init__(self, asked):
        super().__init__(asked)
        mutator = Mutator(list(scenes()))
        self._make = mutator.race if asked == "race" else mutator.scene

    def make(self, seed, number):
        return self._make(seed, number), [self.asked]


class RepositoryTrial(Trial):
    """Checks, and mirrors. Of a scene that is read all is known that is written."""

    def make(self, seed, number):
        if self.asked == "check":
            return Repositories().scene(seed, number), ["check"]
        workers, scene = Repositories().mirror(seed, number)
        return scene, ["mirror", str(workers)]

    def answer(self, given, words):
        state = state_in(given)
        if state is None:
            return None
        text, status = findings(state) if self.asked == "check" else mirrored(state, int(words[1]))
        return status, text


class RowTrial(Trial):
    """Servers that are fed with pieces, and bundles that are read. All is known that is written."""

    program = row_server.BUILT

    def make(self, seed, number):
        return getattr(Repositories(), self.asked)(seed, number), []

    def answer(self, given, words):
        text = answer_of(given)
        return None if text is None else (0, text)


TRIALS = {"fetch": SceneTrial, "race": SceneTrial, "check": RepositoryTrial, "mirror": RepositoryTrial, "server": RowTrial, "bundle": RowTrial}
