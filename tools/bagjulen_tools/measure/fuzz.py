"""Runs the program on COUNT inputs that were made at random, and looks at how each run ends.

What is tried is said by --of:
  fetch   scenes of examples/ and of crates/fetch_rows, changed in bytes, lines, lengths, counts and order
  race    races, each of the repository of such a scene and of the jobs of up to nine, some of them changed
  check   scenes of servers, most of them harmed, some of them changed
  mirror  the same, with a count of workers
  server  servers of random repositories, fed with pieces of requests that are whole, cut or changed (crates/serve_rows)
  bundle  bundles that are read, most of them changed, and written, saved and loaded (crates/serve_rows)

The input of a seed and a number is always the same. Each run has to end within the bounds of time and memory, with a status
and with lines that docs/SCENES.md or docs/evidence/rows.md has for it. Of the last four all is known that has to be written:
it is worked out from docs/FORMATS.md and docs/SCENES.md by the tool itself, unless the input is one that isn't read. Input
of which that isn't so is cut down to the least that ends in the same way, and saved as SEED-NUMBER.input.

What was found is counted by status, and by the names of refusals that are told, of which each on the tool's list has to be
met with --each. The threads of a race or a mirror may take the memory of their stacks beside the bound.
"""

import os
import signal
from collections import Counter
from multiprocessing import Pool

from bagjulen_tools.trials.outcomes import OUTCOMES
from bagjulen_tools.trials.runner import MEBIBYTE, MOST_TRIES, Runner, minimised
from bagjulen_tools.trials.trial import TRIALS
from bagjulen_tools.trouble import BAD_WORDS, DIFFERENT, DONE, ENGINE_FAILED, ToolParser, Trouble, write_file

AT_ONCE = 500


def words(given):
    """What the words say."""
    parser = ToolParser(__doc__, "a run ended otherwise, or a name wasn't met")
    parser.add_argument("count", metavar="COUNT", type=int, help="how many inputs")
    parser.add_argument("seed", metavar="SEED", help="any text")
    parser.add_argument("--of", choices=sorted(TRIALS), default="fetch", help="what is tried (fetch)")
    parser.add_argument("--each", action="store_true", help="each name on the list has to be met")
    parser.add_argument("--first", metavar="N", type=int, default=0, help="begin with this input (0)")
    parser.add_argument("--jobs", metavar="N", type=int, default=os.cpu_count(), help="at once (one a processor)")
    parser.add_argument("--seconds", metavar="N", type=float, default=20, help="time for a run (20)")
    parser.add_argument("--memory", metavar="MIB", type=int, default=64, help="memory for a run (64)")
    parser.add_argument("--tries", metavar="N", type=int, default=MOST_TRIES, help="so many runs at the most to make an input shorter")
    parser.add_argument("-o", dest="output", metavar="FOLDER", default=".", help="where inputs are saved (here)")
    parser.add_argument("--engine", metavar="PROGRAM", help="the built program, or that of crates/serve_rows")
    asked = parser.parse_args(given)
    if asked.count < 0 or asked.first < 0 or asked.jobs < 1 or asked.seconds <= 0 or asked.memory < 1:
        raise Trouble(BAD_WORDS, "a number is too small (--help tells more)")
    asked.engine = asked.engine or TRIALS[asked.of].program
    return asked


class Found:
    """What was found: how runs ended, the names that were told, the most of time, memory and lines, and faults."""

    def __init__(self):
        self.ends, self.names, self.most, self.faults = Counter(), Counter(), (0, 0, 0), []

    def add(self, ended):
        self.ends[ended.word()] += 1
        self.names.update(ended.names())
        self.most = tuple(map(max, self.most, (ended.seconds, ended.memory, ended.written.count(b"\n"))))

    def join(self, other):
        self.ends, self.names = self.ends + other.ends, self.names + other.names
        self.most = tuple(map(max, self.most, other.most))


class Job:
    """What one process does, with what it found."""

    made = None

    def __init__(self, asked):
        signal.signal(signal.SIGINT, signal.SIG_IGN)
        self.asked, self.trial = asked, TRIALS[asked.of](asked.of)
        self.runner = Runner(asked.engine, asked.seconds, asked.memory, asked.of)
        Job.made = self

    def run(self, numbers):
        """How the inputs of these numbers end."""
        found = Found()
        for number in numbers:
            given, words = self.trial.make(self.asked.seed, number)
            ended, fault = self.ended(given, words)
            found.add(ended)
            if fault is not None:
                shorter = minimised(given, lambda less: self.ended(less, words)[1] == fault, self.asked.tries)
                found.faults.append((number, fault, shorter, words))
        return found

    def ended(self, given, words):
        """How a run ended, and what is wrong about it."""
        ended = self.runner.run(given, words)
        return ended, ended.fault(given, self.trial.answer(given, words))


def run_job(numbers):
    try:
        return Job.made.run(numbers)
    except Trouble as trouble:
        return trouble.status, str(trouble)


def save(asked, number, fault, given, words):
    """Saves an input that was found, and tells of it."""
    path = os.path.join(asked.output, f"{asked.seed}-{number}.input")
    write_file(path, given)
    print(f"input {number}: {fault}, by {len(given)} bytes in {path} and the words {words}", flush=True)


def ran(asked):
    """What all inputs came to. Faults are saved as they come."""
    last, found = asked.first + asked.count, Found()
    parts = [range(at, min(at + AT_ONCE, last)) for at in range(asked.first, last, AT_ONCE)]
    with Pool(asked.jobs, Job, (asked,)) as pool:
        for part in pool.imap_unordered(run_job, parts):
            if not isinstance(part, Found):
                raise Trouble(*part)
            found.join(part)
            for fault in part.faults:
                save(asked, *fault)
                found.faults.append(fault)
    return found


def main(arguments: list[str]) -> int:
    asked = words(arguments)
    if not os.access(asked.engine, os.X_OK):
        raise Trouble(ENGINE_FAILED, f"there is no program {asked.engine}")
    found = ran(asked)
    for word, count in sorted(found.ends.items()):
        print(f"{count} with {word}")
    for name, count in sorted(found.names.items()):
        print(f"{count} tell {name}")
    unmet = [name for name in OUTCOMES[asked.of].names if name not in found.names]
    print(f"names on the list that weren't met: {', '.join(unmet) or 'none'}")
    most = found.most
    print(f"at most {most[0]:.2f} seconds, {most[1] // MEBIBYTE} MiB with those of the tool, and {most[2]} lines")
    print(f"{asked.count} inputs, {len(found.faults)} ended otherwise")
    return DIFFERENT if found.faults or asked.each and unmet else DONE
