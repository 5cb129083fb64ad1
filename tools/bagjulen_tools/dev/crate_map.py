"""Writes the list and the picture of the crates into docs/ARCHITECTURE.md, from crates.txt.

What stands between the two marks of that page is made anew: a picture (an arrow leads to a crate that another stands on,
those left out that follow from others), and a row for each crate with what it is for, the comment above its line in
crates.txt. With --check nothing is written, and the status says whether the page is up to date.
"""

import os
from dataclasses import dataclass

from bagjulen_tools.paths import TOP
from bagjulen_tools.trouble import BAD_INPUT, DIFFERENT, DONE, ToolParser, Trouble

PAGE = "docs/ARCHITECTURE.md"
BEGIN, END = "<!-- made by tools/dev/crate-map from crates.txt -->\n", "<!-- as far as here -->\n"
TESTS = ("tests: ", "tests of ")


@dataclass
class Crate:
    """A line of crates.txt, with the comment above it."""

    name: str
    purpose: str
    below: list

    def is_test(self):
        return self.purpose.startswith(TESTS)


def crates():
    """The crates of this repository, in the order of crates.txt, each with those of this repository that it stands on."""
    found, purpose = [], ""
    with open("crates.txt", encoding="utf-8") as file:
        for line in map(str.strip, file):
            if line.startswith("#"):
                purpose = line.lstrip("# ")
            elif line:
                head, _, below = line.partition(":")
                found.append(Crate(head.split()[0], purpose, below.split()))
                purpose = ""
    names = {crate.name for crate in found}
    for crate in found:
        crate.below = [name for name in crate.below if name in names]
    return found


def arrows(found):
    """From each crate to those that it stands on, but for those that another one of these stands on already."""
    below = {crate.name: crate.below for crate in found}
    known = {}

    def all_below(name):
        if name not in known:
            known[name] = set(below[name]).union(*map(all_below, below[name]))
        return known[name]

    for crate in found:
        others = set().union(*map(all_below, crate.below))
        yield from ((crate.name, name) for name in crate.below if name not in others)


def short(name):
    return name.removeprefix("fetch_")


def picture(found):
    shown = [crate for crate in found if not crate.is_test()]
    lines = [f"    {short(above)}-->{short(below)}" for above, below in arrows(shown)]
    return ["```mermaid", "graph TD", *lines, "```"]


def named(crate):
    return f"| [{crate.name}](../crates/{crate.name}/README.md) | {crate.purpose.removeprefix('tests: ')} |"


def made():
    found = crates()
    libraries = [crate for crate in found if not crate.is_test()]
    tests = [crate for crate in found if crate.is_test()]
    parts = [
        picture(found),
        ["| Crate | What it is for |", "|---|---|", *map(named, libraries)],
        ["| Tests | What they try |", "|---|---|", *map(named, tests)],
    ]
    return "\n" + "\n\n".join("\n".join(part) for part in parts) + "\n\n"


def main(arguments: list[str]) -> int:
    words = ToolParser(__doc__, "with --check: the page isn't up to date")
    words.add_argument("--check", action="store_true", help="write nothing")
    is_check = words.parse_args(arguments).check
    os.chdir(TOP)
    with open(PAGE, encoding="utf-8") as file:
        text = file.read()
    if text.count(BEGIN) != 1 or text.count(END) != 1:
        raise Trouble(BAD_INPUT, f"{PAGE} lacks a mark: {BEGIN.strip()} or {END.strip()}")
    head, _, rest = text.partition(BEGIN)
    now = head + BEGIN + made() + END + rest.partition(END)[2]
    if is_check:
        return DONE if now == text else DIFFERENT
    with open(PAGE, "w", encoding="utf-8") as file:
        file.write(now)
    return DONE
