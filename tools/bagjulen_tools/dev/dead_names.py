"""Lists what the documents name that isn't there.

In the documents at the top, in docs/ and in the README of each crate, listed are links and paths that lead to no file, to
no heading, or to a file that lacks the name that the link has in backticks; and words of code in backticks that stand in no
code, definition, proof or tool. Lines that are indented as an example aren't looked at, and of docs/evidence, which speaks
of earlier code too, the links alone. Listed too are the pages that tools/dev/crate-map and tools/dev/call-index make, where
they aren't up to date. What tools/dev/names-aside has is passed over.
"""

import glob
import os
import re
import subprocess

from bagjulen_tools.paths import TOP
from bagjulen_tools.trouble import DIFFERENT, DONE, ToolParser

WORD = re.compile(r"[A-Za-z_][A-Za-z0-9_?']*")
NAME = re.compile(r"[A-Za-z_][\w?']*((::|\.)[A-Za-z_][\w?']*)*(\(\))?")
FILE = re.compile(r"[\w-]+(/[\w.*-]+)+/?|[\w-]+\.(rt|antt|md|edit|scene)")
PLAIN_PATH = re.compile(r"\b(?:docs|crates|tools|examples)/[\w./-]+")
LINK = re.compile(r"\[((?:[^\]`]|`[^`]*`)*)\]\(([^)]+)\)")
HEADING = re.compile(r"^#+ (.*)$", re.M)
# What a repository of Git has, and no file of this one.
OF_GIT = ("refs/", "heads/", "origin/", "objects/", "info/", "logs/", "remotes/", "tags/", "git/", "hooks/")
ASIDE = "tools/dev/names-aside"
MADE = ("tools/dev/crate-map", "tools/dev/call-index")


def read(path):
    with open(path, encoding="utf-8", errors="replace") as file:
        return file.read()


def aside():
    """The words that are passed over."""
    return {word for line in read(ASIDE).splitlines() if not line.startswith("#") for word in line.split()}


def words_in(paths):
    """All words of these files, and the files' own names."""
    found = set()
    for path in paths:
        found |= set(WORD.findall(read(path))) | {os.path.splitext(os.path.basename(path))[0]}
    return found


def is_path(text, document, files):
    """Whether a path leads to a file, from the top, from the crates, or from the document's folder."""
    text = text.rstrip("/").replace("NAME", "*")
    folder = os.path.dirname(document)
    tried = (text, os.path.join("crates", text), *(os.path.join(folder, each, text) for each in ("", "src", "specs")))
    return any(glob.glob(each) for each in tried) or any(each.endswith("/" + text) for each in files)


def anchors(path):
    """What leads to the headings of a page."""
    return {re.sub(r"[^\w\- ]", "", heading.lower()).replace(" ", "-") for heading in HEADING.findall(read(path))}


def dead_link(document, shown, link):
    """Why a link leads nowhere, if it does."""
    path, _, anchor = link.partition("#")
    path = os.path.normpath(os.path.join(os.path.dirname(document), path)) if path else document
    if not os.path.exists(path):
        return f"no file {link}"
    if anchor and anchor not in anchors(path):
        return f"no heading {link}"
    if os.path.isfile(path):
        text = read(path)
        for name in re.findall(r"`([^`]+)`", shown):
            parts = WORD.findall(name)
            # The modules above a name need not stand in its file.
            named = [part for part in parts[:-1] if part[0].isupper()] + parts[-1:]
            if NAME.fullmatch(name) and not all(part in text for part in named):
                return f"no name {name} in {link}"
    return None


def dead_in(document, files, words, passed=frozenset()):
    """What a document names that isn't there, with its line."""
    for number, line in enumerate(read(document).splitlines(), 1):
        for shown, link in LINK.findall(line):
            why = None if link.startswith("http") else dead_link(document, shown, link)
            if why:
                yield f"{document}:{number}: {why}"
        if line.startswith("    ") or document.startswith("docs/evidence/"):
            continue
        for path in PLAIN_PATH.findall(re.sub(r"`[^`]*`", "", line)):
            if not is_path(path.rstrip("."), document, files):
                yield f"{document}:{number}: no file {path}"
        for text in re.findall(r"`([^`]+)`", line):
            if text in passed or text.startswith(OF_GIT):
                continue
            if FILE.fullmatch(text):
                if not is_path(text, document, files):
                    yield f"{document}:{number}: no file {text}"
            elif NAME.fullmatch(text):
                for part in WORD.findall(text):
                    if part not in words and part not in passed:
                        yield f"{document}:{number}: no name {part}"


def stale():
    """The pages that are made by a tool, and aren't up to date."""
    for tool in MADE:
        if subprocess.run([tool, "--check"], check=False).returncode != DONE:
            yield f"{tool} would write its page otherwise: run it"


def main(arguments: list[str]) -> int:
    ToolParser(__doc__, "something is listed").parse_args(arguments)
    os.chdir(TOP)
    files = [path for path in glob.glob("**/*", recursive=True) if os.path.isfile(path)
             and not any(part in path for part in ("/out/", "/__pycache__/"))]
    code = [path for path in files if path.endswith((".rt", ".antt", ".edit")) or path.startswith("tools/")]
    words, passed = words_in([*code, "bagjulen", "crates.txt"]), aside()
    documents = sorted([*glob.glob("*.md"), *glob.glob("docs/**/*.md", recursive=True), *glob.glob("crates/*/README.md")])
    found = [each for document in documents for each in dead_in(document, files, words, passed)]
    found += stale()
    print(*found, f"{len(found)} listed", sep="\n")
    return DIFFERENT if found else DONE
