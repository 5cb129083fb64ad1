"""Runs the program on input with much of one kind, and on such as announces more than it sends, and tells memory and time.

For each: its bytes, how the run ended, and the most bytes that were in use at once. They have to be bounded by what was
received: FACTOR bytes for each byte of the input, and 64 KiB. What has a size is run with --size of its kind and with twice
as many, each three times; twice as much may take 2.3 times the processor time at most, where it takes a tenth of a second
or more. `--only WORD` runs those with WORD in their descriptions.
"""

import tempfile

from bagjulen_tools.engine import BUILT
from bagjulen_tools.trials import allocations, row_server
from bagjulen_tools.trials.attacks import OF_A_SIZE, announced
from bagjulen_tools.trials.runner import Runner
from bagjulen_tools.trouble import DIFFERENT, DONE, ToolParser

BESIDE = 64 << 10
TIMES, MOST, LEAST_SECONDS = 3, 2.3, 0.1
# Bounds of a run to be timed.
SECONDS, MEBIBYTES = 600, 16 << 10


def words(given):
    """What the words say."""
    parser = ToolParser(__doc__, "more memory was in use, or twice as much took longer")
    parser.add_argument("factor", metavar="FACTOR", nargs="?", type=int, default=40, help="bytes in use a byte (40)")
    parser.add_argument("--size", metavar="N", type=int, default=100_000, help="how many of a kind (100000)")
    parser.add_argument("--only", metavar="WORD", default="", help="those with this word in their descriptions")
    parser.add_argument("--engine", default=BUILT, metavar="PROGRAM", help="the built program")
    parser.add_argument("--rows", default=row_server.BUILT, metavar="PROGRAM", help="that of crates/serve_rows")
    return parser.parse_args(given)


class Attacked:
    """The programs, with what counts their bytes and their time."""

    def __init__(self, directory, asked):
        self.asked, self.others = asked, 0
        self.programs = {True: asked.rows, False: asked.engine}
        self.directory = directory

    def memory(self, about, words, given):
        """Tells how a run ends, and the most bytes in use."""
        counter = allocations.Counter(self.directory, self.programs[words is None], words or [])
        ended = counter.fetch(given)
        is_more = ended.most > BESIDE + self.asked.factor * len(given)
        self.others += is_more
        print(f"{about}: {len(given)} bytes, {ending(ended)}, at most {ended.most} bytes in use{' (MORE)' * is_more}", flush=True)

    def time(self, make, size):
        """The least processor time of some runs, and how the last one ended."""
        words, given = make(size)
        runner = Runner(self.programs[words is None], SECONDS, MEBIBYTES, "server" if words is None else words[0])
        return min(runner.run(given, words or []).seconds for _ in range(TIMES))

    def both(self, make):
        """Memory with a size, and time with this and with twice as much."""
        about = make.__doc__.partition(".")[0]
        self.memory(f"{self.asked.size}: {about}", *make(self.asked.size))
        first, second = (self.time(make, size) for size in (self.asked.size, 2 * self.asked.size))
        ratio = second / max(first, 0.001)
        is_more = ratio > MOST and second >= LEAST_SECONDS
        self.others += is_more
        print(f"    {first:.2f} seconds, with twice as much {second:.2f}: {ratio:.2f} times{' (MORE)' * is_more}", flush=True)


def ending(ended):
    """How a run ended: the line of its refusal, or its status."""
    told = [line for line in ended.written.split(b"\n") if line.startswith(b"refused ")]
    return told[0][:80].decode() if told else f"status {ended.status}"


def main(arguments: list[str]) -> int:
    asked = words(arguments)
    with tempfile.TemporaryDirectory() as directory:
        attacked = Attacked(directory, asked)
        for about, run_words, data in announced():
            if asked.only in about:
                attacked.memory(about, run_words, data)
        for make in OF_A_SIZE:
            if asked.only in (make.__doc__ or ""):
                attacked.both(make)
    print(f"{attacked.others} with more than {asked.factor} bytes in use for each byte and {BESIDE}, or {MOST} times the time")
    return DIFFERENT if attacked.others else DONE
