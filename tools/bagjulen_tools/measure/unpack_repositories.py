"""Lays out repositories that others made for their own tests, and prints where each comes to stand, a line a repository.

They are those of Debian's packages `libgit2-fixtures` and `golang-github-go-git-go-git-fixtures-dev`, each of which may be
missing. FOLDER is made. What is no repository at all is laid out too, so that it can be seen refused.

    tools/measure/compare-clones $(tools/measure/unpack-repositories FOLDER)
"""

import base64
import gzip
import io
import os
import re
import shutil
import tarfile

from bagjulen_tools.trouble import BAD_INPUT, DONE, ToolParser, Trouble

LIBGIT2 = "/usr/share/doc/libgit2-fixtures/examples"
GO_GIT = "/usr/share/gocode/src/github.com/go-git/go-git-fixtures/data.go"
# A file in the Go text: its name, and its bytes in base64 below.
ENTRY = re.compile(r'\t"/data/((?:git|worktree)-\w+)\.tgz": \{')
BYTES = re.compile(r"compressed: `([^`]*)`", re.S)


def of_libgit2(source, folder):
    """Copies each directory `NAME.git`, and each `.gitted` as the repository of the directory that it stands in."""
    for at, folders, _ in sorted(os.walk(source)):
        for name in sorted(folders):
            path = os.path.join(at, name)
            if name == ".gitted" or name.endswith(".git"):
                shown = os.path.relpath(at if name == ".gitted" else path, source)
                target = os.path.join(folder, shown.replace("/", "-"))
                shutil.copytree(path, target, symlinks=True)
                yield target
        folders[:] = [name for name in folders if name != ".gitted" and not name.endswith(".git")]


def repositories_in(folder):
    """The repositories in a folder, or the folder itself where there is none."""
    found = [at for at, folders, files in sorted(os.walk(folder)) if "objects" in folders and "HEAD" in files]
    return found or [folder]


def of_go_git(source, folder):
    """Unpacks the archives that stand in a Go text."""
    with open(source, encoding="utf-8") as file:
        text = file.read()
    for entry in ENTRY.finditer(text):
        packed = gzip.decompress(base64.b64decode(BYTES.search(text, entry.end())[1]))
        target = os.path.join(folder, entry[1])
        with tarfile.open(fileobj=io.BytesIO(packed)) as archive:
            archive.extractall(target, filter="data")
        yield from repositories_in(target)


def main(arguments: list[str]) -> int:
    parser = ToolParser(__doc__)
    parser.add_argument("folder", metavar="FOLDER", help="where they come to stand; it may not be there yet")
    folder = os.path.abspath(parser.parse_args(arguments).folder)
    sources = [(of_libgit2, LIBGIT2, "libgit2"), (of_go_git, GO_GIT, "go-git")]
    found = [each for each in sources if os.path.exists(each[1])]
    if not found:
        raise Trouble(BAD_INPUT, f"there is neither {LIBGIT2} nor {GO_GIT}; install their packages")
    if os.path.exists(folder):
        raise Trouble(BAD_INPUT, f"{folder} is there already")
    for lay_out, source, name in found:
        for path in lay_out(source, os.path.join(folder, name)):
            print(path)
    return DONE
