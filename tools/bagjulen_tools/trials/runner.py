"""The program, run on input that may be anything, within bounds of time and memory, and input made as short as may be."""

import os
import resource
import signal
from collections.abc import Callable
from dataclasses import dataclass

from bagjulen_tools.trials.outcomes import MALFORMED, OUTCOMES
from bagjulen_tools.trouble import ENGINE_FAILED, Trouble

MEBIBYTE = 1 << 20
MOST_TRIES = 100_000
NO_MEMORY = 5
# A race or a mirror has eight threads at most, each with a stack of so many bytes.
STACKS = {"race": 8 * 8 * MEBIBYTE, "mirror": 8 * 8 * MEBIBYTE}


@dataclass
class ProgramExit:
    """How the program ended: its status, below 0 for a signal, what it wrote, and what it took.

    Seconds are of the processor; memory is the most bytes that were resident, at least those of who ran it.
    """

    status: int
    written: bytes
    seconds: float
    memory: int
    is_late: bool
    asked: str = "fetch"

    def fault(self, given, answer=None):
        """What is wrong about it, in a word or two, or None. Where the status and the text that are to come are known, they
        have to be these.
        """
        if self.is_late:
            return "late"
        if self.status < 0:
            return f"signal {-self.status}"
        if self.status == NO_MEMORY:
            return "out of memory"
        forms = OUTCOMES[self.asked].forms
        if self.status not in forms:
            return f"status {self.status}"
        match = forms[self.status].fullmatch(self.written)
        if match is None:
            return f"lines with status {self.status}"
        if self.status == MALFORMED:
            return "place" if int(match[1]) > len(given) else None
        return "another answer" if answer not in (None, (self.status, self.written)) else None

    def word(self):
        """The status, and with a refusal its name; of a race the last one's."""
        if self.asked not in ("fetch", "race"):
            return f"status {self.status}"
        match = OUTCOMES[self.asked].forms[1].fullmatch(self.written) if self.status == 1 else None
        return f"status {self.status}" if match is None else f"status 1, {match[match.lastindex].decode()}"

    def names(self):
        """The names of refusals, or of what is found, that are told."""
        return OUTCOMES[self.asked].names_in(self.written) if self.status >= 0 else set()


class Runner:
    """Runs the program on input, one run at a time. Its process has to be its own, with one thread: it sets bounds of
    memory, that of data for as long as the program is started, so that what makes input has more.
    """

    def __init__(self, program, seconds, mebibytes, asked="fetch"):
        self.program, self.seconds, self.asked, self.running, self.is_late = program, seconds, asked, None, False
        self.given, self.taken = os.memfd_create("given"), os.memfd_create("report")
        self.files = [(os.POSIX_SPAWN_DUP2, self.given, 0), (os.POSIX_SPAWN_DUP2, self.taken, 1),
                      (os.POSIX_SPAWN_OPEN, 2, os.devnull, os.O_WRONLY, 0)]
        self.own = resource.getrlimit(resource.RLIMIT_DATA)
        self.bound = mebibytes * MEBIBYTE + STACKS.get(asked, 0), self.own[1]
        resource.setrlimit(resource.RLIMIT_CORE, (0, 0))
        signal.signal(signal.SIGALRM, self._stop)

    def _stop(self, *_):
        self.is_late = True
        os.kill(self.running, signal.SIGKILL)

    def run(self, given, words):
        """How the program ends on an input, with these words."""
        self.is_late = False
        os.ftruncate(self.taken, 0)
        os.ftruncate(self.given, 0)
        os.pwrite(self.given, given, 0)
        os.lseek(self.given, 0, os.SEEK_SET)
        os.lseek(self.taken, 0, os.SEEK_SET)
        resource.setrlimit(resource.RLIMIT_DATA, self.bound)
        try:
            self.running = os.posix_spawn(self.program, [self.program, *words], {}, file_actions=self.files)
        except OSError as error:
            raise Trouble(ENGINE_FAILED, f"can't run {self.program}: {error.strerror}") from None
        finally:
            resource.setrlimit(resource.RLIMIT_DATA, self.own)
        signal.setitimer(signal.ITIMER_REAL, self.seconds)
        _, status, used = os.wait4(self.running, 0)
        signal.setitimer(signal.ITIMER_REAL, 0)
        written = os.pread(self.taken, os.fstat(self.taken).st_size, 0)
        seconds = used.ru_utime + used.ru_stime
        return ProgramExit(os.waitstatus_to_exitcode(status), written, seconds, used.ru_maxrss * 1024, self.is_late, self.asked)


def minimised(scene: bytes, fails: Callable[[bytes], bool], most: int = MOST_TRIES) -> bytes:
    """A scene that fails too and has no part, of those tried, that could go. So many are tried at the most."""
    size, tries = len(scene), 0
    while size:
        size = min(size, len(scene))
        begin = 0
        while begin < len(scene) and tries < most:
            shorter, tries = scene[:begin] + scene[begin + size :], tries + 1
            if fails(shorter):
                scene = shorter
            else:
                begin += size
        size //= 2
    return scene
