"""Races eight jobs COUNT times, in scenes that are made at random, and replays each journal.

The repository of a scene has the end of a line of commits, with a border. Its jobs bring more of the line or what is before
the border, some of them to the same references; some bring half a pack, are refused by their server, or are dry runs. The
scene of a seed and a number is always the same, and what its jobs enter depends on the order of their steps. The state
that a race tells has to be what its journal makes of the scene's repository, and a job's entries are a take and a commit,
a commit, or none; a refused one's are a take or none. A scene that comes out otherwise is saved as SEED-NUMBER.race.

Each scene is raced --times times. What was found is counted: the refusals by their names, and the journals that differ.

With --mirrors repositories that are made at random are mirrored by eight workers, --times times each. The report of each has
to be the one that docs/SCENES.md has, which the tool works out by itself, whatever the order of the workers' steps.
"""

import os
import random
import subprocess
from collections import Counter

from bagjulen_tools.engine import BUILT
from bagjulen_tools.trials.findings import mirrored
from bagjulen_tools.trials.races import fault_of, race_at_random, read_race
from bagjulen_tools.trials.random_input import scene_of
from bagjulen_tools.trials.served import Maker
from bagjulen_tools.trouble import BAD_WORDS, DIFFERENT, DONE, ENGINE_FAILED, ToolParser, Trouble, write_file

WORKERS = 8


def words(given):
    """What the words say."""
    parser = ToolParser(__doc__, "a race came out otherwise")
    parser.add_argument("count", metavar="COUNT", type=int, help="how many scenes")
    parser.add_argument("seed", metavar="SEED", help="any text")
    parser.add_argument("--times", metavar="N", type=int, default=10, help="how often each is raced (10)")
    parser.add_argument("--mirrors", action="store_true", help="mirror repositories by eight workers")
    parser.add_argument("-o", dest="output", metavar="FOLDER", default=".", help="where scenes are saved (here)")
    parser.add_argument("--engine", default=BUILT, metavar="PROGRAM", help="the built program")
    asked = parser.parse_args(given)
    if asked.count < 0 or asked.times < 1:
        raise Trouble(BAD_WORDS, "a number is too small (--help tells more)")
    return asked


def run(program, data, *words):
    """How the program ends with these words."""
    try:
        return subprocess.run([program, *words], input=data, capture_output=True)
    except OSError as error:
        raise Trouble(ENGINE_FAILED, f"can't run {program}: {error.strerror}") from None


def race(program, data):
    """The report of a race."""
    ended = run(program, data, "race")
    if ended.returncode not in (0, 1):
        raise Trouble(ENGINE_FAILED, f"{program} ended with status {ended.returncode}")
    report = read_race(ended.stdout)
    if ended.returncode != bool(report.refused):
        raise Trouble(ENGINE_FAILED, f"{program} ended with status {ended.returncode} and {len(report.refused)} refusals")
    return report


def mirror_all(asked):
    """Mirrors repositories. How many came out otherwise."""
    faults = 0
    for number in range(asked.count):
        maker = Maker("", f"mirror {asked.seed} {number}")
        maker.plan()
        data, (text, status) = scene_of(maker.state()), mirrored(maker.state(), WORKERS)
        for _ in range(asked.times):
            ended = run(asked.engine, data, "mirror", str(WORKERS))
            if (ended.returncode, ended.stdout) != (status, text):
                faults += 1
                path = os.path.join(asked.output, f"{asked.seed}-{number}.mirror")
                write_file(path, data)
                print(f"repository {number}: another report, with status {ended.returncode}, saved as {path}", flush=True)
                break
    print(f"{asked.count} repositories, each mirrored {asked.times} times by {WORKERS} workers: {faults} came out otherwise")
    return faults


def race_all(asked):
    """Races scenes. How many came out otherwise."""
    refusals, journals, faults = Counter(), 0, 0
    for number in range(asked.count):
        scene = race_at_random(random.Random(f"{asked.seed} {number}"))
        data = scene.to_bytes()
        seen = set()
        for _ in range(asked.times):
            report = race(asked.engine, data)
            fault = fault_of(scene, report)
            if fault is not None:
                faults += 1
                path = os.path.join(asked.output, f"{asked.seed}-{number}.race")
                write_file(path, data)
                print(f"scene {number}: {fault}, saved as {path}", flush=True)
                break
            refusals.update(token.split(" ")[0] for token in report.refused.values())
            seen.add(tuple((entry.kind, entry.number, tuple(entry.lines)) for entry in report.journal))
        journals += len(seen)
    print(f"{asked.count} scenes, each raced {asked.times} times: {journals} journals")
    for name, count in sorted(refusals.items()):
        print(f"{count:8} {name}")
    return faults


def main(arguments: list[str]) -> int:
    asked = words(arguments)
    return DIFFERENT if (mirror_all if asked.mirrors else race_all)(asked) else DONE
