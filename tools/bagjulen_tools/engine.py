"""The engine, run on scenes."""

import os

from bagjulen_tools.formats.report import Report, read_report
from bagjulen_tools.paths import TOP
from bagjulen_tools.processes import run_program
from bagjulen_tools.protocol.address import anonymous
from bagjulen_tools.protocol.lines import decoded_text, line_at, text_of
from bagjulen_tools.trouble import BAD_INPUT, BAD_WORDS, ENGINE_FAILED, Trouble

# The script that builds the program at its first use.
SCRIPT = os.path.join(TOP, "bagjulen")
# The program that tools run where no word names one: that of the environment, or else of the repository.
PROGRAM = os.environ.get("BAGJULEN") or SCRIPT
# The same for tools that run it many times or measure it: no script stands between.
OWN = os.path.join(TOP, "crates", "bagjulen", "out", "bagjulen")
BUILT = os.environ.get("BAGJULEN") or OWN
MALFORMED = 4
# What its statuses say, and those of the script that builds it. A signal has a negative one.
ENDS = {
    2: "couldn't read what it was given",
    3: "couldn't write its report",
    5: "ran out of memory",
    69: "isn't built, and can't be built here",
    126: "can't be run",
    127: "wasn't found",
    -9: "was killed",
    -11: "crashed",
}
# Lines of a scene that the caller's words give.
GIVEN = ("remote ", "fetch ", "extra ", "option ")


class Engine:
    """The program that fetches, checks and mirrors what scenes say."""

    def __init__(self, program: str) -> None:
        self.program = program

    def start(self) -> None:
        """Starts it once, before there is anything to do: where it has to be built, that is told and done now."""
        if self.program == SCRIPT and os.access(OWN, os.X_OK):
            return
        self.version()

    def version(self) -> str:
        """What it says of its version."""
        return decoded_text(self._ended(["--version"], b"")[1]).strip()

    def fetch(self, scene: bytes) -> Report:
        """The report of a scene."""
        return self._report(["fetch"], scene)

    def mirror(self, scene: bytes, workers: int) -> Report:
        """The report of a mirror of the scene of a server, by so many workers."""
        return self._report(["mirror", str(workers)], scene)

    def check(self, scene: bytes) -> tuple[int, bytes]:
        """The status of a check of a server's scene, 0, 1 or that of one that isn't read, and what is written."""
        return self._ended(["check"], scene)

    def _report(self, words: list[str], scene: bytes) -> Report:
        status, written = self._ended(words, scene)
        if status == MALFORMED:
            raise malformed(scene, decoded_text(written).strip())
        try:
            return read_report(written)
        except Trouble as trouble:
            raise Trouble(ENGINE_FAILED, f"the engine wrote {trouble}") from None

    def _ended(self, words: list[str], scene: bytes) -> tuple[int, bytes]:
        """The status of a run, and what it wrote. Its messages are shown."""
        try:
            ended = run_program([self.program, *words], scene, shows_messages=True, is_group=True)
        except OSError as error:
            raise Trouble(ENGINE_FAILED, f"can't run {self.program}: {error.strerror}") from None
        if ended.returncode not in (0, 1, MALFORMED):
            why = ENDS.get(ended.returncode) or f"ended with status {ended.returncode}"
            raise Trouble(ENGINE_FAILED, f"the engine {why} ({self.program})")
        return ended.returncode, ended.stdout


def malformed(scene: bytes, told: str) -> Trouble:
    """The trouble with a scene that the engine can't read, with the line where it stops."""
    place = told.removeprefix("malformed ")
    if not place.isdigit() or int(place) >= len(scene):
        return Trouble(ENGINE_FAILED, f"the engine wrote {told!r}")
    line, _ = line_at(scene, int(place))
    if not isinstance(line, bytes):
        return Trouble(BAD_INPUT, f"the engine can't read the scene at {place}")
    text = text_of(line)
    if text.startswith("fetch "):
        return Trouble(BAD_WORDS, f"invalid refspec '{text.removeprefix('fetch ')}'")
    status = BAD_WORDS if text.startswith(GIVEN) else BAD_INPUT
    if text.startswith("remote "):
        text = f"remote {anonymous(text.removeprefix('remote '))}"
    return Trouble(status, f"the engine can't read the line {text[:100]!r}")
