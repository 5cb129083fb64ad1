"""Lists what is long or undocumented in the crates: what CONTRIBUTING.md says of their form.

Listed are functions with more than 40 lines of code, their contract aside, or more than six arguments, `self` among them,
or with an output before the allocator; files with more than 500 lines, and lines with more than 140 columns, in src/ and
specs/, attributes aside; public types that own something and have no `try_clone`; public items, methods of public traits,
fields and variants without a doc comment, and public definitions in specs/ without a comment. What a comment `// Long: ..`,
`// Many arguments: ..` or `// Not copied: ..` stands above has its reason beside it, and is not listed for that. The texts
are read line by line, in the layout of `rt fmt`.

With --counts the numbers alone are told, kind by kind. With --numbers it counts functions, clauses and the parameters and
fields of records instead: what a contract asks of its reader.
"""

import glob
import os
import re
from collections import Counter
from dataclasses import dataclass

from bagjulen_tools.paths import TOP
from bagjulen_tools.trouble import DIFFERENT, DONE, ToolParser

CODE_LINES, ARGUMENTS, FILE_LINES, COLUMNS, MANY_CLAUSES = 40, 6, 500, 140, 10
TESTS = "rows"
FUNCTION = re.compile(r"( *)(?:pub(?:\([a-z]+\))? )?(?:const )?fn (\w+)")
ITEM = re.compile(r" *pub (?:const |unsafe )?(fn|struct|enum|trait|type|const|static) (\w+)")
FIELD = re.compile(r" *pub (\w+):")
DEFINITION = re.compile(r"(?:(?:abbrev|unfoldable) )?pub (?:(?:record|data) )?([^\s:(]+)")
METHOD = re.compile(r" {4}fn (\w+)")
VARIANT = re.compile(r"    (?:    )?([A-Z]\w*)(?:\(.*\),| \{.*|,| = .*,)$")
TYPE = re.compile(r"pub (?:struct|enum) (\w+)(<[^{(;]*)?")
IMPL = re.compile(r"impl\b(?:<.*?>)? (?:.* for )?(?:\w+::)*(\w+)")
REASONS = {"lines": "// Long: ", "arguments": "// Many arguments: ", "try_clone": "// Not copied: "}
CONTRACT = re.compile(r"\s*(requires|ensures|decreases|ghost|#\[tactic)")
OUTPUT = re.compile(r"\w+: &mut (?:Vec|List|Text)\b")
CLAUSE = re.compile(r"\s*ensures\*? (\w*)")
RECORD = re.compile(r"(?:(?:abbrev|unfoldable) )?pub record (\S+)(.*)")
PARAMETERS = re.compile(r"[({]([^(){}:]*) :")
# The names of clauses that say who of those that are lent may be blamed.
BLAME = set("""cause transport client asked interrupted stopped uninterrupted questions keep_file in_the_way remove_keep_file
    removable may_fail unread early dry told listing open_repo follow_symref counts file_counts listing_counts
    open_repo_counts follow_symref_counts""".split())


@dataclass
class Line:
    """A line of a file, with its number."""

    number: int
    text: str

    def indent(self):
        return len(self.text) - len(self.text.lstrip())


def lines_of(path):
    with open(path, encoding="utf-8") as file:
        return [Line(number, text.rstrip("\n")) for number, text in enumerate(file, 1)]


def body_of(lines, at):
    """The lines of the item that begins here, up to the one that closes it."""
    indent = lines[at].indent()
    for end_at in range(at, len(lines)):
        text = lines[end_at].text
        if text.startswith(" " * indent + "}") or end_at == at and text.endswith(("}", ";")):
            return lines[at : end_at + 1]
        if text == " " * indent + "{}" or end_at > at and lines[end_at].indent() == indent and text.endswith(";"):
            return lines[at : end_at + 1]
    return lines[at:]


def arguments(body, name):
    """The arguments of a function, `self` among them."""
    text = " ".join(line.text for line in body).split(f"fn {name}", 1)[1]
    if text.startswith("<"):
        text = text[len("".join(inner(text[1:]))) + 2 :]
    listed = "".join(inner(text[1:]))
    parts = [""]
    for depth, c in depths(listed):
        if c == "," and depth == 0:
            parts.append("")
        else:
            parts[-1] += c
    return [part.strip() for part in parts if part.strip()]


def inner(text):
    """What stands before the bracket that closes one which stands before the text."""
    for depth, c in depths(text):
        if depth < 0:
            return
        yield c


def depths(text):
    """Each letter of a text with the number of brackets around it. The `>` of an arrow is none."""
    depth = 0
    for before, c in zip(" " + text, text):
        if c in ")]}" or c == ">" and before not in "-=":
            depth -= 1
        yield depth, c
        if c in "([{<":
            depth += 1


def contract_of(body):
    """The lines of a function's contract: they stand deeper than its signature, before its body or the next item."""
    begin = next((at for at, line in enumerate(body) if CONTRACT.match(line.text)), len(body))
    deep = (at for at in range(begin, len(body)) if body[at].text and body[at].indent() <= body[0].indent())
    return body[begin : next(deep, len(body))]


def code_lines(body):
    """How many lines of a function are neither contract nor comment."""
    contract = contract_of(body)
    return sum(line not in contract and not CONTRACT.match(line.text) and not line.text.lstrip().startswith("//")
               and line.text.strip() != "" for line in body)


def is_documented(lines, at):
    """Whether a doc comment stands above this line, attributes and other comments aside."""
    while at > 0 and lines[at - 1].text.lstrip().startswith(("#[", ")]", "// ")):
        at -= 1
    return at > 0 and lines[at - 1].text.lstrip().startswith("///")


def has_reason(lines, at, of):
    """Whether a reason for this many lines or arguments stands above, among attributes and comments."""
    while at > 0 and lines[at - 1].text.lstrip().startswith(("#[", ")]", "//")):
        at -= 1
        if lines[at].text.lstrip().startswith(REASONS[of]):
            return True
    return False


def functions(path, lines):
    """Functions that are long, or have many arguments, without a reason beside them, or an output before the allocator."""
    for at, line in enumerate(lines):
        match = FUNCTION.match(line.text)
        if match is None:
            continue
        body = body_of(lines, at)
        given = arguments(body, match[2])
        for of, count, most in (("lines", code_lines(body), CODE_LINES), ("arguments", len(given), ARGUMENTS)):
            if count > most and not has_reason(lines, at, of):
                yield f"functions with many {of}", f"{path}:{line.number}: {match[2]} has {count} {of}"
        alloc = next((n for n, each in enumerate(given) if each.startswith("alloc: ")), 0)
        if any(OUTPUT.match(each) for each in given[:alloc]):
            yield "outputs before an allocator", f"{path}:{line.number}: {match[2]} has its output before the allocator"


def wide(path, lines):
    """Lines with more columns than fit. An attribute stands on one line in the layout, however long it is."""
    shown = (line for line in lines if not line.text.lstrip().startswith("#["))
    yield from (f"{path}:{line.number}: {len(line.text)} columns" for line in shown if len(line.text) > COLUMNS)


def copied_in(lines):
    """The names of the types that have a `try_clone` in these lines."""
    name = None
    for line in lines:
        if line.indent() == 0 and line.text:
            match = IMPL.match(line.text)
            name = match[1] if match else name if line.text.startswith(("}", ")", "where", ">")) else None
        elif name is not None and line.text.lstrip().startswith(("pub fn try_clone(", "fn try_clone(")):
            yield name


def uncopied(path, lines, copied):
    """Public types that own something and are none of the copied ones. Those that hold a loan, which has a lifetime, may."""
    for at, line in enumerate(lines):
        match = TYPE.match(line.text)
        if match and match[1] not in copied and "'" not in (match[2] or "") and is_owning(lines, at):
            if not has_reason(lines, at, "try_clone"):
                yield f"{path}:{line.number}: {match[1]} has no try_clone"


def is_owning(lines, at):
    """Whether the type in this line is derived as one that is dropped, and not copied bit by bit."""
    derived = ""
    while at > 0 and lines[at - 1].text.lstrip().startswith(("#[", ")]", "//")):
        at -= 1
        derived += lines[at].text if lines[at].text.startswith("#[derive(") else ""
    return "Drop" in derived and "Copy" not in derived


def undocumented(path, lines):
    """Public items, methods of public traits, fields and variants without a doc comment."""
    within = None
    for at, line in enumerate(lines):
        if line.indent() == 0 and line.text:
            match = re.match(r"pub (enum|struct|trait) (\w+)", line.text)
            if match or line.text == "}" or line.text.endswith(";"):
                within = match[1] if match and not line.text.endswith((";", "}")) else None
        match = ITEM.match(line.text) or FIELD.match(line.text)
        if match is None and within == "trait":
            match = METHOD.match(line.text)
        if match is None and within == "enum" and line.indent() == 4:
            match = VARIANT.match(line.text)
        if match is None and within == "enum" and line.indent() == 8:
            match = re.match(r" {8}(\w+): ", line.text)
        if match and not is_documented(lines, at):
            yield f"{path}:{line.number}: {match[match.lastindex]} has no doc comment"


def uncommented(path, lines):
    """Public definitions without a comment above them."""
    for at, line in enumerate(lines):
        match = DEFINITION.match(line.text)
        if match and match[1] not in ("mod", "use") and not (at > 0 and lines[at - 1].text.startswith("--")):
            yield f"{path}:{line.number}: {match[1]} has no comment"


def found_in(crate):
    """What is listed of a crate, each with its kind."""
    folder, is_test = os.path.join(TOP, "crates", crate), crate.endswith(TESTS)
    files = {os.path.relpath(path, TOP): lines_of(path) for end in ("src/**/*.rt", "specs/*.antt")
             for path in sorted(glob.glob(os.path.join(folder, end), recursive=True))}
    copied = {name for lines in files.values() for name in copied_in(lines)}
    for name, lines in files.items():
        yield from (("lines that are wide", each) for each in wide(name, lines))
        if len(lines) > FILE_LINES:
            yield "files that are long", f"{name}: {len(lines)} lines"
        if name.endswith(".antt"):
            yield from (("definitions without a comment", each) for each in uncommented(name, lines))
            continue
        yield from functions(name, lines)
        if not lines or not lines[0].text.startswith("//!"):
            yield "files that don't say what they are", f"{name}:1: no line says what the file is"
        if not is_test:
            yield from (("items without a doc comment", each) for each in undocumented(name, lines))
            yield from (("owning types without try_clone", each) for each in uncopied(name, lines, copied))


def clauses_of(path, lines):
    """Each function in these lines: the names of its clauses, its own name, and its file."""
    for at, line in enumerate(lines):
        match = FUNCTION.match(line.text)
        if match:
            found = (CLAUSE.match(each.text) for each in contract_of(body_of(lines, at)))
            yield [each[1] for each in found if each], match[2], path


def records_of(path, lines):
    """Each public record in these lines: how many parameters and fields it has, its name, and its file."""
    for at, line in enumerate(lines):
        match = RECORD.match(line.text)
        if match:
            end_at = next((n for n in range(at + 1, len(lines)) if lines[n].text and lines[n].indent() == 0), len(lines))
            # The head goes up to its `where`, on whichever line that stands.
            head = " ".join(each.text.strip() for each in lines[at:end_at]).partition(" where")[0]
            front = head.rpartition(" : Type")[0]
            fields = sum(each.text.startswith("  pub ") for each in lines[at:end_at])
            yield sum(len(each.split()) for each in PARAMETERS.findall(front)), fields, match[1], path


def numbers(crates):
    """What is told with --numbers, line by line."""
    files = [(path, lines_of(os.path.join(TOP, path))) for crate in crates for end in ("src/**/*.rt", "specs/**/*.antt")
             for path in sorted(glob.glob(os.path.join("crates", crate, end), root_dir=TOP, recursive=True))]
    functions = [each for path, lines in files if path.endswith(".rt") for each in clauses_of(path, lines)]
    records = [each for path, lines in files if path.endswith(".antt") for each in records_of(path, lines)]
    names = [name for clauses, _, _ in functions for name in clauses]
    yield len(functions), "functions"
    yield len(names), "clauses"
    yield sum(name in BLAME for name in names), "clauses that say who may be blamed, by their names"
    yield sum(len(clauses) >= MANY_CLAUSES for clauses, _, _ in functions), "functions with ten clauses or more"
    for clauses, name, path in sorted(functions, key=lambda each: -len(each[0]))[:5]:
        yield len(clauses), f"clauses of {name} ({path})"
    for at, what in enumerate(("parameters", "fields")):
        for each in sorted(records, key=lambda each: -each[at])[:2]:
            yield each[at], f"{what} of the record {each[2]} ({each[3]})"


def main(arguments: list[str]) -> int:
    parser = ToolParser(__doc__, "something is listed")
    parser.add_argument("crates", metavar="CRATE", nargs="*", help="these alone")
    parser.add_argument("--counts", action="store_true", help="tell the numbers alone")
    parser.add_argument("--numbers", action="store_true", help="count functions, clauses and records instead")
    asked = parser.parse_args(arguments)
    crates = asked.crates or sorted(os.listdir(os.path.join(TOP, "crates")))
    if asked.numbers:
        print(*(f"{count:6} {what}" for count, what in numbers(crates)), sep="\n")
        return DONE
    found = [each for crate in crates for each in found_in(crate)]
    if asked.counts:
        print(*(f"{count:6} {kind}" for kind, count in sorted(Counter(kind for kind, _ in found).items())), sep="\n")
    else:
        print(*(text for _, text in found), f"{len(found)} listed", sep="\n")
    return DIFFERENT if found else DONE
