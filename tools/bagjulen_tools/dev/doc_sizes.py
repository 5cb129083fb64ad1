"""Lists documents that are longer than they may be, and tells how many words each has.

The top README has at most 110 lines and 1,000 words, a page 1,500 unless it is named here, the README of a crate 900, and a
promise (what an item of a list in a library's README says of the call that it begins with, or a cell of a table there) 25.
Words are what blanks separate, as `wc -w` counts them. Clauses that a promise names at its end aren't counted to it. Pages of
docs/evidence aren't counted, and reference pages have no bound.
"""

import os
import re
import subprocess

from bagjulen_tools.paths import TOP
from bagjulen_tools.trouble import DIFFERENT, DONE, ToolParser

README = "README.md"
LINES = {README: 110}
WORDS = {README: 1_000, "docs/REAL-GIT.md": 2_400, "docs/PROVED.md": 1_700, "docs/DECISIONS.md": 1_900, "docs/SCENES.md": 2_100}
REFERENCE = {f"docs/{name}.md" for name in ("POLICY", "REFUSALS", "USING", "FORMATS", "DIFFERENCES")} | {"CHANGELOG.md"}
OF_A_PAGE, OF_A_CRATE, OF_A_PROMISE = 1_500, 900, 25
OF_ROWS = "rows/README.md"
ASIDE = "docs/evidence/"


def documents():
    """The documents of this repository, each with its text."""
    for path in subprocess.check_output(["git", "ls-files", "*.md"], text=True, cwd=TOP).splitlines():
        if not path.startswith(ASIDE):
            with open(os.path.join(TOP, path), encoding="utf-8") as file:
                yield path, file.read()


def count(text):
    """How many words a text has."""
    return len(text.split())


def promises(text):
    """The promises in a text, each with the number of its line: of an item what stands behind the call, without its clauses."""
    for number, line in enumerate(text.splitlines(), 1):
        item = re.match(r"- `[^:]*(?:::[^:]*)*:( .*)|  - (.*)", line)
        if item:
            yield number, re.sub(r" \([^()]*\)$", "", item[1] or item[2])
        elif line.startswith("|"):
            yield from ((number, cell) for cell in re.split(r"(?<!\\)\|", line.strip().strip("|")))


def too_long(path, text):
    """What of a document is longer than it may be."""
    is_of_crate = path.startswith("crates/")
    most = OF_A_CRATE if is_of_crate else WORDS.get(path, OF_A_PAGE)
    if path not in REFERENCE and count(text) > most:
        yield f"{path}: {count(text)} words, where {most} may be"
    lines = text.count("\n")
    if lines > LINES.get(path, lines):
        yield f"{path}: {lines} lines, where {LINES[path]} may be"
    for number, promise in promises(text) if is_of_crate and not path.endswith(OF_ROWS) else ():
        if count(promise) > OF_A_PROMISE:
            yield f"{path}:{number}: {count(promise)} words in a promise, where {OF_A_PROMISE} may be"


def main(arguments: list[str]) -> int:
    ToolParser(__doc__, "something is listed").parse_args(arguments)
    texts = dict(documents())
    found = [each for path, text in texts.items() for each in too_long(path, text)]
    words = sum(map(count, texts.values()))
    print(*found, f"{len(found)} listed, {words} words in {len(texts)} documents", sep="\n")
    return DIFFERENT if found else DONE
