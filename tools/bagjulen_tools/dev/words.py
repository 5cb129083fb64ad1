"""Writes docs/words.csv, the book of words: each public definition of specs/, each fact (a field of a record), and each call
of docs/calls.csv, with its kind, crate, file and one line.

With --check nothing is written, and the status says whether the book is of this tree and keeps the rules. They are: no name
of a definition stands twice with two meanings; no body stands twice, in specs/ from three lines on with its signature and in
code from three lines on, where names that a body binds and its own are not compared; no record and no definition has more
than six parameters, no public call more than ten clauses, no record more than eight fields; and no definition or function
is named by a bare participle. What is let pass stands in tools/dev/words-aside with its reason, twenty at most. With --count
the numbers of what breaks each rule are told, exceptions among them, and with --list each of these.
"""

import csv
import glob
import io
import os
import re
from collections import Counter, defaultdict
from collections.abc import Iterable, Iterator
from dataclasses import dataclass

from bagjulen_tools.paths import TOP
from bagjulen_tools.trouble import DIFFERENT, DONE, ToolParser

PAGE, CALLS, ASIDE = "docs/words.csv", "docs/calls.csv", "tools/dev/words-aside"
HEAD = ["name", "kind", "crate", "file", "says"]
PARAMETERS, CLAUSES, FIELDS, BODY_LINES, EXCEPTIONS = 6, 10, 8, 3, 20

NAMES_TWICE = "names that stand twice"
SPECS_TWICE, CODE_TWICE = "bodies of definitions that stand twice", "bodies of functions that stand twice"
MANY_PARAMETERS, MANY_CLAUSES, MANY_FIELDS = "heads of many parameters", "calls of many clauses", "records of many fields"
PARTICIPLES, FUNCTION_PARTICIPLES = "definitions named by a participle", "functions named by a participle"
KINDS = (NAMES_TWICE, SPECS_TWICE, CODE_TWICE, MANY_PARAMETERS, MANY_CLAUSES, MANY_FIELDS, PARTICIPLES, FUNCTION_PARTICIPLES)

# Participles that don't end in -ed, and adjectives that say as little.
IRREGULAR = set("""told held kept sent heard said shown fed lent met found made born left lost written taken given chosen known
    drawn begun done gone seen hidden broken spoken cut put split shut thrown built bound brought bought caught dealt felt got
    hung laid led meant paid sold sought spent spelt stuck taught thought torn understood won wound risen grown fallen forgotten
    frozen undone unmet unread untold unsent unseen unheard unknown unborn unlent alone apart bare open early late whole""".split())
NOUNS = {"feed", "seed", "need", "speed", "deed", "bed", "red", "embed"}

IMPORT = re.compile(r"^use (Rattle[\w.]+?)(?:\.\{([^}]*)\}| as (\S+)|$)", re.M)
ITEM = re.compile(r"((?:(?:abbrev|unfoldable|pub|record|data) )*)([^\s:({]+)")
WORD = re.compile(r"[^\s(){}\[\],;.]+")
BINDERS = re.compile(r"λ ([^.()]*)\.|[({]((?:[^\s(){}:.,;=]+ )+): |\blet (\S+)")
FIELD = re.compile(r"^  pub ([^\s:]+) :", re.M)
FUNCTION = re.compile(r"^( *)((?:pub(?:\([a-z]+\))? )?(?:const )?fn (\w+))", re.M)
CONTRACT = re.compile(r"\s*(?:requires|ensures|decreases|ghost)\b")
OWNER = re.compile(r"^(?:pub )?(?:impl(?:<.*?>)? (?:.* for )?(?:\w+::)*(\w+)|trait (\w+))", re.M)
TOKEN = re.compile(r'"(?:[^"\\]|\\.)*"|\w+|[^\s\w]')
LOCAL = re.compile(r"(\w+): |\blet (?:mut )?\(?(\w+)|\bfor \(?(\w+)|\|(\w+)\||(?:Some|Ok|Err)\((\w+)\)")


@dataclass
class Definition:
    """A definition of specs/: its signature and its clauses, the comment above it, and where its file's names come from."""

    name: str
    kind: str
    file: str
    head: str
    body: str
    says: str
    imports: dict[str, str]

    @property
    def place(self) -> str:
        return f"{self.file}: {self.name}"


@dataclass
class Function:
    """A function of src/: what owns it, and its text from its name on."""

    name: str
    owner: str
    file: str
    text: str

    @property
    def place(self) -> str:
        return f"{self.file}: {self.owner}{'::' if self.owner else ''}{self.name}"


def read(path: str) -> str:
    with open(path, encoding="utf-8") as file:
        return file.read()


def blocks(text: str) -> Iterator[tuple[str, list[str]]]:
    """The items of a file of definitions, each with the comments right above it."""
    comments: list[str] = []
    for block in re.split(r"^(?=\S)", text, flags=re.M):
        if block.startswith("--"):
            comments.append(block.strip("- \n"))
        elif block.strip():
            yield block, comments
            comments = []
        if block.startswith("-- ----") or block.endswith("\n\n"):
            comments = []


def imports_in(text: str) -> dict[str, str]:
    """Where each imported name of a file comes from."""
    found: dict[str, str] = {}
    for module, names, alias in IMPORT.findall(text):
        found |= {alias: module} if alias else {}
        for each in re.split(r",\s*", names.strip()) if names else ():
            original, _, local = each.partition(" as ")
            found[local or original] = f"{module}.{original}"
    return found


def definitions_in(path: str, text: str) -> list[Definition]:
    """The public definitions of a file."""
    found: list[Definition] = []
    imports = imports_in(text)
    for block, comments in blocks(text):
        match = ITEM.match(block)
        if match is None or re.match(r"(pub )?(use|mod) |unfolding ", block):
            continue
        marks, name = match.groups()
        if "pub " in marks:
            kind = "record" if "record " in marks else "data" if "data " in marks else "definition"
            head, body = parts_of(kind, block)
            found.append(Definition(name, kind, path, head, body, " ".join(comments), imports))
        elif found and not marks and name == found[-1].name:
            found[-1].body += block
    return found


def parts_of(kind: str, block: str) -> tuple[str, str]:
    """The head of an item, up to its `where` or to the end of its signature, and what follows."""
    if kind == "definition":
        return block, ""
    head, _, body = block.partition(" where")
    return head, body


def parameters(head: str) -> list[str]:
    """The names of a record's parameters. Its head may have several lines."""
    front = " ".join(head.split()).rpartition(" : Type")[0]
    return [name for names in re.findall(r"[({]([^(){}:]*) :", front) for name in names.split()]


def arrows(head: str) -> int:
    """How many parameters a signature has."""
    text = " ".join(head.split()).partition(" : ")[2]
    count, depth, part = 0, 0, ""
    for letter in text:
        depth += (letter in "({[") - (letter in ")}]")
        if letter == "→" and depth == 0:
            names = re.fullmatch(r"\s*[({]([^:(){}]*) : .*[)}]\s*", part)
            bound = [each for each in re.findall(r"[({]([^:(){}]*) : [^(){}]*(?:\([^()]*\)[^(){}]*)*[)}]", part)] if names else []
            count += sum(len(each.split()) for each in bound) if bound else 1
            part = ""
        else:
            part += letter
    return count


def alike(definition: Definition) -> str:
    """The text of a definition, its own name and the names that it binds aside, and others by where they come from."""
    text = definition.head + definition.body
    text = re.sub(r"^((?:(?:abbrev|unfoldable|pub|record|data) )*)" + re.escape(definition.name) + r"(?=[\s:(])", r"\1@", text, flags=re.M)
    bound = [name for match in BINDERS.findall(text) for names in match for name in names.split()]
    for clause in re.findall(r"^@ ([^:\n]*?) =", text, re.M):
        bound += [word for word in WORD.findall(clause) if word[0].islower()]
    numbers = definition.imports | {name: f"${at}" for at, name in enumerate(dict.fromkeys(bound))}
    # A comment is no part of a body.
    text = re.sub(r"^\s*--.*$", "", text, flags=re.M)
    return " ".join(WORD.sub(lambda match: numbers.get(match[0], match[0]), text).split())


def functions_in(path: str, text: str) -> list[Function]:
    """The functions of a file."""
    owners = [(match.start(), match[1] or match[2]) for match in OWNER.finditer(text)]
    found, matches = [], list(FUNCTION.finditer(text))
    for match, after in zip(matches, [*(each.start() for each in matches[1:]), len(text)]):
        indent = match[1]
        stop = re.compile(rf"^{indent}(?:\}}|\{{\}}$)", re.M).search(text, match.end(), after)
        owner = next((name for at, name in reversed(owners) if at < match.start()), "") if indent else ""
        found.append(Function(match[3], owner, path, text[match.start(2) : stop.end() if stop else after]))
    return found


def without_contract(text: str) -> str:
    """A function's signature and body."""
    lines, depth = [], 0
    for line in text.splitlines():
        if depth or CONTRACT.match(line):
            depth += line.count("{") - line.count("}")
        elif not line.strip().startswith("//"):
            lines.append(line)
    return "\n".join(lines)


def alike_code(function: Function) -> str:
    """The text of a function, its contract, its own name and the names that it binds aside."""
    text = re.sub(rf"\bfn {function.name}\b", "fn @", without_contract(function.text))
    text = re.sub(r"^pub(?:\(\w+\))? ", "", text)
    bound = dict.fromkeys(name for match in LOCAL.findall(text) for name in match if name)
    numbers = {name: f"${at}" for at, name in enumerate(bound)}
    return " ".join(numbers.get(token, token) for token in TOKEN.findall(text)).replace(", )", ")")


def is_participle(name: str) -> bool:
    """Whether a name is one word that tells what was done, and not to what."""
    return name.isalpha() and name.islower() and name not in NOUNS and (name.endswith("ed") or name in IRREGULAR)


def lines_of(text: str) -> int:
    return sum(bool(line.strip()) and not line.strip().startswith("--") for line in text.splitlines())


def twice(texts: Iterable[tuple[str, str]]) -> Iterator[list[str]]:
    """The places that have one text."""
    places = defaultdict(list)
    for text, place in texts:
        places[text].append(place)
    yield from (each for each in places.values() if len(each) > 1)


def breaches(definitions: list[Definition], functions: list[Function], calls: set[str]) -> Iterator[tuple[str, str]]:
    """What breaks a rule: its kind, and where it is."""
    of_name = defaultdict(list)
    for each in definitions:
        of_name[each.name].append(each)
    for name, found in of_name.items():
        if len({alike(each) for each in found}) > 1:
            yield NAMES_TWICE, f"{name}: {', '.join(each.file for each in found)}"
    # A definition with its comment has three lines where it has one clause of one line.
    for places in twice((alike(each), each.place) for each in definitions if lines_of(each.head + each.body) + bool(each.says) >= BODY_LINES):
        yield SPECS_TWICE, " = ".join(places)
    for places in twice((alike_code(each), each.place) for each in functions if is_compared(each)):
        yield CODE_TWICE, " = ".join(places)
    for each in definitions:
        count = len(parameters(each.head)) if each.kind != "definition" else arrows(each.head)
        if count > PARAMETERS:
            yield MANY_PARAMETERS, f"{each.place} has {count}"
        fields = len(FIELD.findall(each.body)) if each.kind == "record" else 0
        if fields > FIELDS:
            yield MANY_FIELDS, f"{each.place} has {fields}"
        if is_participle(each.name):
            yield PARTICIPLES, each.place
    for function in functions:
        clauses = len(re.findall(r"^\s*ensures\b", function.text, re.M))
        if clauses > CLAUSES and function.place in calls:
            yield MANY_CLAUSES, f"{function.place} has {clauses}"
        if is_participle(function.name):
            yield FUNCTION_PARTICIPLES, function.place


def is_compared(function: Function) -> bool:
    """Whether the body of a function may stand once alone: methods of traits are written for each type."""
    text = without_contract(function.text)
    return not function.owner and lines_of(text) >= BODY_LINES and "{" in text


def rows(definitions: list[Definition], calls: list[list[str]]) -> list[list[str]]:
    """The lines of the book."""
    found = []
    for each in definitions:
        crate = each.file.split("/")[1]
        found.append([each.name, each.kind, crate, each.file, each.says])
        if each.kind == "record":
            lines = each.body.splitlines()
            for at, line in enumerate(lines):
                match = FIELD.match(line)
                if match:
                    says = lines[at - 1].strip("- ") if at and lines[at - 1].strip().startswith("--") else ""
                    found.append([f"{each.name}.{match[1]}", "fact", crate, each.file, says])
    found += [[call, "call", crate, file, says] for crate, call, file, says in calls]
    return found


def made(lines: list[list[str]]) -> str:
    text = io.StringIO()
    csv.writer(text, lineterminator="\n").writerows([HEAD, *lines])
    return text.getvalue()


def aside(path: str = ASIDE) -> list[tuple[str, str]]:
    """What is let pass: a part of what is told of a breach, and the reason."""
    if not os.path.exists(path):
        return []
    lines = [line for line in read(path).splitlines() if line and not line.startswith("#")]
    return [(what.strip(), why.strip()) for what, _, why in (line.partition(" -- ") for line in lines)]


def call_places(calls: list[list[str]]) -> set[str]:
    """The calls by file, and by their names without the modules above."""
    return {f"{file}: {re.sub(r'^(?:[a-z_0-9]+::)+', '', call)}" for _, call, file, _ in calls}


def main(argv: list[str]) -> int:
    words = ToolParser(__doc__, "with --check: the book isn't of this tree, or a rule is broken; with --list: something is listed")
    words.add_argument("--check", action="store_true", help="write nothing, and tell what breaks a rule")
    words.add_argument("--count", action="store_true", help="tell the numbers alone")
    words.add_argument("--list", action="store_true", help="tell each of them")
    asked = words.parse_args(argv)
    os.chdir(TOP)
    definitions = [each for path in sorted(glob.glob("crates/*/specs/**/*.antt", recursive=True)) for each in definitions_in(path, read(path))]
    functions = [each for path in sorted(glob.glob("crates/*/src/**/*.rt", recursive=True)) for each in functions_in(path, read(path))]
    with open(CALLS, encoding="utf-8", newline="") as file:
        calls = list(csv.reader(file))[1:]
    found = list(breaches(definitions, functions, call_places(calls)))
    if asked.count:
        counts = Counter(kind for kind, _ in found)
        print(*(f"{counts[kind]:6} {kind}" for kind in KINDS), sep="\n")
        return DONE
    if asked.list:
        print(*(f"{kind}: {what}" for kind, what in found), sep="\n")
        return DIFFERENT if found else DONE
    text = made(rows(definitions, calls))
    if not asked.check:
        with open(PAGE, "w", encoding="utf-8") as file:
            file.write(text)
        return DONE
    passed = aside()
    left = [f"{kind}: {what}" for kind, what in found if not any(each in f"{kind}: {what}" for each, _ in passed)]
    left += [f"an exception has no reason: {what}" for what, why in passed if not why]
    left += [f"an exception isn't needed any more: {what}" for what, _ in passed if not any(what in f"{k}: {w}" for k, w in found)]
    if len(passed) > EXCEPTIONS:
        left.append(f"{len(passed)} exceptions, where {EXCEPTIONS} may be")
    if not os.path.exists(PAGE) or read(PAGE) != text:
        left.append(f"{PAGE} is of another tree: run tools/dev/words")
    print(*left, f"{len(left)} listed", sep="\n")
    return DIFFERENT if left else DONE
