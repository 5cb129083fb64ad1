"""Counts the lines of definitions that a definition stands on.

For each FILE of a specs/ folder: how many files of definitions it imports, over all that they import, itself included, and
how many lines these have, without empty lines, comments and imports. Without a FILE, the lines of each crate: code, the
contracts in it, definitions, and proofs. What the toolchain writes of a crate's types isn't counted.
"""

import glob
import os
import re

from bagjulen_tools.paths import TOP
from bagjulen_tools.trouble import BAD_INPUT, DONE, ToolParser, Trouble

IMPORT = re.compile(r"^use Rattle\.(\w+)\.specs\.([\w.]+?)(?:\.\{| as |\s*$)")
ASIDE = ("--", "use ", "pub use ", "mod ", "pub mod ")
CONTRACT = ("ensures", "requires", "decreases", "ghost use", "#[tactic")


def read(path):
    with open(path, encoding="utf-8") as file:
        return file.read().splitlines()


def counted(path):
    """How many lines of a file of definitions or proofs say something."""
    return sum(1 for line in read(path) if line.strip() and not line.strip().startswith(ASIDE))


def file_of(crate, module):
    """The file of a module of definitions; a name in it may stand after the module's."""
    parts = module.split(".")
    for count in range(len(parts), 0, -1):
        path = os.path.join("crates", crate, "specs", *parts[:count]) + ".antt"
        if os.path.exists(path):
            return path
    return None


def imported(path):
    found = (file_of(*match.groups()) for line in read(path) if (match := IMPORT.match(line)))
    return [each for each in found if each]


def all_below(path):
    """A file and all that it imports."""
    found, left = set(), [path]
    while left:
        path = left.pop()
        if path not in found:
            found.add(path)
            left += imported(path)
    return found


def code_and_contracts(paths):
    lines = [line.strip() for path in paths for line in read(path)]
    said = [line for line in lines if line and not line.startswith("//")]
    contracts = sum(line.startswith(CONTRACT) for line in said)
    return len(said) - contracts, contracts


def sizes():
    """The lines of each crate: code, contracts, definitions, proofs."""
    for crate in sorted(os.listdir("crates")):
        files = {each: glob.glob(f"crates/{crate}/{each}/**/*", recursive=True) for each in ("src", "specs", "proofs")}
        code = code_and_contracts([path for path in files["src"] if path.endswith(".rt")])
        yield (crate, *code, *(sum(counted(path) for path in files[each] if path.endswith(".antt")) for each in ("specs", "proofs")))


def main(arguments: list[str]) -> int:
    words = ToolParser(__doc__)
    words.add_argument("files", nargs="*", metavar="FILE", help="a file of definitions, from the top")
    files = words.parse_args(arguments).files
    os.chdir(TOP)
    for path in files:
        if not os.path.exists(path):
            raise Trouble(BAD_INPUT, f"there is no file {path}")
        below = all_below(path)
        print(f"{path}: {len(below)} files, {sum(map(counted, below))} lines")
    if files:
        together = set().union(*map(all_below, files))
        print(f"together: {len(together)} files, {sum(map(counted, together))} lines")
        return DONE
    rows = list(sizes())
    rows.append(("all", *(sum(column) for column in list(zip(*rows))[1:])))
    for row in [("crate", "code", "contracts", "definitions", "proofs"), *rows]:
        print("{:18} {:>7} {:>10} {:>12} {:>8}".format(*row))
    return DONE
