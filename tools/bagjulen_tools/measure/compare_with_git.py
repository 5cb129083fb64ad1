"""Fetches random pairs of repositories by real `git fetch` and by the engine, and prints where they differ.

COUNT pairs are made from SEED, always the same ones. Verdicts, references, border and refusals are compared. Each
difference is printed with the title in docs/DIFFERENCES.md that it falls under, or `UNEXPLAINED`.

Levels: `plain` pairs have one refspec, and no reference moves; `still` ones have any refspecs, tags, border and depth;
in `direct` ones references move; `whole` ones also have HEAD, symbolic references, work trees and all negotiators,
and only in these has a client a work tree.
"""

import os
import shutil
import tempfile
from collections import Counter

from bagjulen_tools.engine import PROGRAM, Engine
from bagjulen_tools.trials.comparison import compare
from bagjulen_tools.trials.pairs import LEVELS, Maker
from bagjulen_tools.trouble import BAD_INPUT, DIFFERENT, DONE, ToolParser, Trouble, write_file

UNEXPLAINED = "UNEXPLAINED"
# No configuration of this machine is to count.
ALONE = {"GIT_CONFIG_NOSYSTEM": "1", "GIT_CONFIG_GLOBAL": os.devnull}


def natural(word):
    """A number from 0 on."""
    if not word.isdecimal():
        raise ValueError(word)
    return int(word)


def words(given):
    """What the words say."""
    parser = ToolParser(__doc__, "some difference is unexplained")
    parser.add_argument("count", metavar="COUNT", nargs="?", type=natural, default=100, help="how many pairs (100)")
    parser.add_argument("seed", metavar="SEED", nargs="?", default="1", help="any text (1)")
    parser.add_argument("--first", metavar="N", type=natural, default=0, help="begin with this pair (0)")
    parser.add_argument("--level", choices=LEVELS, default="whole", help="what pairs may have (whole)")
    parser.add_argument("--keep", metavar="FOLDER", help="keep the pairs with an unexplained difference here")
    parser.add_argument("--engine", default=PROGRAM, metavar="PROGRAM", help="the engine (bagjulen beside tools/)")
    return parser.parse_intermixed_args(given)


def compared(number, asked, engine):
    """How a pair came out: the reasons of its differences."""
    with tempfile.TemporaryDirectory() as folder:
        pair = Maker(folder, f"{asked.seed}/{number}", asked.level).pair()
        try:
            fetched = compare(pair, engine)
        except Trouble as trouble:
            raise Trouble(trouble.status, f"pair {number}: {trouble}") from None
        return tell(number, fetched, asked.keep, folder)


def tell(number, fetched, keep, folder):
    """Prints the differences of a pair, and answers their reasons."""
    differences = [(each, reason or UNEXPLAINED) for each, reason in fetched.differences()]
    if differences:
        print(f"pair {number}: {fetched.pair}")
    for each, reason in differences:
        print(f"  {each}: {reason}", flush=True)
    reasons = [reason for _, reason in differences]
    if keep is not None and UNEXPLAINED in reasons:
        copy(fetched, folder, os.path.join(keep, str(number)))
    return reasons


def copy(fetched, folder, target):
    """Keeps a pair, as real Git left it, with its scene."""
    try:
        shutil.copytree(folder, target, symlinks=True, dirs_exist_ok=True)
    except (OSError, shutil.Error) as error:
        raise Trouble(BAD_INPUT, f"can't keep a pair in {target}: {error}") from None
    write_file(os.path.join(target, "scene"), fetched.scene)


def main(arguments: list[str]) -> int:
    asked = words(arguments)
    os.environ.update(ALONE)
    engine = Engine(asked.engine)
    counts: Counter[str] = Counter()
    for number in range(asked.first, asked.first + asked.count):
        reasons = compared(number, asked, engine)
        counts.update(set(reasons) or {"alike"})
    print(f"{asked.count} pairs of seed {asked.seed}, level {asked.level}:")
    for reason, count in sorted(counts.items()):
        print(f"{count:6} {reason}")
    return DIFFERENT if counts[UNEXPLAINED] else DONE
