"""Writes docs/calls.csv: the public calls of each library, each with the first sentence of its doc comment.

A call is public where its crate's root hands it out, under the name that callers write: a function, a method of a type, a
method of a trait, or a law, which is a function without a body. Copies (`try_clone`) are left out. With --check nothing is
written, and the status says whether the table is up to date.
"""

import csv
import io
import os
import re
from dataclasses import dataclass, field

from bagjulen_tools.paths import TOP
from bagjulen_tools.trouble import DIFFERENT, DONE, ToolParser

PAGE = "docs/calls.csv"
HEAD = ["crate", "call", "file", "says"]
ITEM = re.compile(r"(?P<pub>pub )?(?:const )?(?P<kind>fn|struct|enum|trait|type|mod) (?P<name>\w+)")
USE = re.compile(r"pub use ([\w:]+?)(?:::\{([^}]*)\}|::(\*))?;")
IMPL = re.compile(r"impl(?:<.*?>)? (?:(?P<of>[\w:<>', ]+) for )?(?P<name>\w+)")
METHOD = re.compile(r"    (?P<pub>pub )?(?:const )?fn (?P<name>\w+)")


@dataclass
class Module:
    """A file, the modules in it, and what it hands out."""

    path: str
    lines: list
    children: dict = field(default_factory=dict)
    opened: set = field(default_factory=set)


def module(path, folder):
    """The module of a file, with those below it."""
    with open(path, encoding="utf-8") as file:
        found = Module(path, file.read().splitlines())
    for line in found.lines:
        match = re.match(r"(pub )?mod (\w+);", line)
        if match:
            name = match.group(2)
            below = os.path.join(folder, name)
            found.children[name] = module(below + ".rt", below)
            if match.group(1):
                found.opened.add(name)
    return found


def first_sentence(lines, at):
    """The first sentence of the doc comment above a line."""
    texts = []
    for line in reversed(lines[:at]):
        line = line.strip()
        if line.startswith("///"):
            texts.append(line[3:].strip())
        elif not line.startswith(("#[", "//", ")]")) or not line:
            break
    text = " ".join(reversed(texts))
    return re.split(r"(?<=[.!?])\s+(?=[A-Z`])", text, maxsplit=1)[0].removesuffix(".")


def used(text):
    """What the `pub use` items of a file hand out: the path's parts and the name."""
    for path, names, star in USE.findall(text):
        parts = [part for part in path.split("::") if part != "crate"]
        if star:
            yield parts, "*"
        elif names:
            for name in re.split(r",\s*", names.strip().rstrip(",")):
                yield parts, name.split(" as ")[0].strip()
        else:
            yield parts[:-1], parts[-1]


def reached(root, here, parts):
    """The module at a path from a module or from the root."""
    for start in (here, root):
        found = start
        for part in parts:
            found = found.children.get(part) if found else None
        if found:
            return found
    return None


def handed_out(root):
    """The items that a crate's root hands out: of a file and a name in it, the modules under which callers find it."""
    found, seen, left = {}, set(), [("", root)]
    while left:
        under, here = left.pop(0)
        if here.path in seen:
            continue
        seen.add(here.path)
        for line in here.lines:
            match = ITEM.match(line)
            if match and match["pub"] and match["kind"] != "mod":
                found.setdefault((here.path, match["name"]), under)
        for parts, name in used("\n".join(here.lines)):
            home = reached(root, here, parts)
            if home is None:
                continue
            if name in home.children:
                left.append((f"{under}{name}::", home.children[name]))
            else:
                found.setdefault((home.path, name), under)
        left += [(f"{under}{name}::", here.children[name]) for name in sorted(here.opened)]
    return found


def modules_of(found):
    yield found
    for child in found.children.values():
        yield from modules_of(child)


def calls_of(here, names, types):
    """The public calls in a file: their names and first sentences. Both are told with the modules above a name."""
    owner, is_open = None, False
    for at, line in enumerate(here.lines):
        if line.startswith("}"):
            owner = None
        elif (match := ITEM.match(line)) and match["kind"] == "fn":
            if match["pub"] and match["name"] in names:
                yield names[match["name"]] + match["name"], first_sentence(here.lines, at)
        elif (match := ITEM.match(line)) and match["kind"] == "trait":
            owner, is_open = match["name"], match["name"] in names and bool(match["pub"])
        elif (match := IMPL.match(line)) and line.startswith("impl"):
            owner, is_open = match["name"], False if match["of"] else None
        elif owner and (match := METHOD.match(line)):
            if is_open or (is_open is None and match["pub"] and owner in types):
                yield f"{names.get(owner, types.get(owner, ''))}{owner}::{match['name']}", first_sentence(here.lines, at)


def rows_of(crate):
    """The rows of a crate."""
    folder = os.path.join("crates", crate, "src")
    root = module(os.path.join(folder, "lib.rt"), folder)
    out = handed_out(root)
    types = {name: under for (_, name), under in out.items()}
    for here in sorted(modules_of(root), key=lambda each: each.path):
        names = {name: under for (path, name), under in out.items() if path == here.path}
        for name, says in calls_of(here, names, types):
            if not name.endswith("::try_clone"):
                yield crate, name, here.path, says


def made():
    crates = [name for name in sorted(os.listdir("crates")) if os.path.exists(f"crates/{name}/src/lib.rt") and not name.endswith("rows")]
    text = io.StringIO()
    csv.writer(text, lineterminator="\n").writerows([HEAD, *(row for crate in crates for row in rows_of(crate))])
    return text.getvalue()


def main(arguments: list[str]) -> int:
    words = ToolParser(__doc__, "with --check: the table isn't up to date")
    words.add_argument("--check", action="store_true", help="write nothing")
    is_check = words.parse_args(arguments).check
    os.chdir(TOP)
    text = made()
    if is_check:
        with open(PAGE, encoding="utf-8") as file:
            return DONE if file.read() == text else DIFFERENT
    with open(PAGE, "w", encoding="utf-8") as file:
        file.write(text)
    return DONE
