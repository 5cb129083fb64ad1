"""Writes what documents quote from sources anew.

A quotation is a fenced block below a line that says what it is of: a function, by the file that has it and its name, or
what a program prints below one of its titles, by the file of that output and the title:

    <!-- quoted: crates/examples/src/first_fetch.rt first_fetch -->
    <!-- quoted: crates/examples/stdout the first fetch -->

The block gets the function from its doc comment to its end, or the lines from below `= <title>` up to the next title. With
--check nothing is written, and the status says whether all quotations are equal to their sources.
"""

import glob
import os

from bagjulen_tools.dev.quotations import renewed
from bagjulen_tools.paths import TOP
from bagjulen_tools.trouble import DIFFERENT, DONE, ToolParser


def differing():
    """The pages that have a quotation which differs from its source, each with what it should be."""
    for page in sorted([*glob.glob("*.md"), *glob.glob("docs/*.md"), *glob.glob("crates/*/README.md")]):
        with open(page, encoding="utf-8") as file:
            old = file.read()
        new = renewed(old)
        if new != old:
            yield page, new


def main(arguments: list[str]) -> int:
    words = ToolParser(__doc__, "a quotation differs from its source (--check)")
    words.add_argument("--check", action="store_true", help="write nothing")
    check = words.parse_args(arguments).check
    os.chdir(TOP)
    pages = list(differing())
    for page, new in pages:
        if check:
            print(f"{page}: a quotation differs from its source")
            continue
        with open(page, "w", encoding="utf-8") as file:
            file.write(new)
    return DIFFERENT if check and pages else DONE
