"""Races: scenes with several jobs, what the program writes of one, and its journal replayed."""

from dataclasses import dataclass, field

from bagjulen_tools.formats.plainpack import Object, object_id, write_pack
from bagjulen_tools.formats.scene import Scene
from bagjulen_tools.protocol.lines import Mark, decoded_text, encoded, text_line
from bagjulen_tools.trouble import ENGINE_FAILED, Trouble

TREE = Object(object_id("sha1", "tree", b""), "tree", b"")
GREETING = ["version 2", "ls-refs=unborn", "fetch=shallow plain-pack", "object-format=sha1"]
CONFIG = ["[fetch]", "negotiationAlgorithm = noop"]
JOBS = 8
MOST = 12


def said(*lines):
    """Lines and a flush."""
    return b"".join(map(encoded, [*lines, Mark.FLUSH]))


def commit(number, parent):
    """The commit of a number in a line."""
    person = f"A <a@x> {number} +0000"
    lines = [f"tree {TREE.id}", *([f"parent {parent}"] if parent else []), f"author {person}", f"committer {person}", ""]
    data = "\n".join([*lines, f"{number}\n"]).encode()
    return Object(object_id("sha1", "commit", data), "commit", data)


def line_of(count):
    """That many commits, one after the other."""
    made = []
    for number in range(1, count + 1):
        made.append(commit(number, made[-1].id if made else None))
    return made


def reply(objects, *shallow):
    """What a server says to a fetch: lines of the border, and a pack."""
    about = [b"shallow-info\n", *map(text_line, shallow), Mark.DELIMITER] if shallow else []
    return said(*about, b"packfile\n", b"\1" + write_pack(objects, 1, "sha1"))


@dataclass
class RaceScene:
    """A repository, and jobs of which each is the remote's half of a scene."""

    local: Scene
    jobs: list[Scene]

    def to_bytes(self):
        """The scene as the program reads it."""
        delimiter = encoded(Mark.DELIMITER)
        first = self.local.to_bytes()
        cut = first.index(delimiter + encoded(text_line("remote ")))
        parts = [first[:cut]]
        for job in self.jobs:
            parts.append(delimiter + b"".join(map(encoded, map(text_line, job._remote()))))
            parts.append(delimiter + b"".join(map(encoded, job._server())))
        return b"".join(parts) + encoded(Mark.FLUSH)


def race_at_random(chance):
    """A race: the repository has the end of a line of commits, and each server more of the line, or what is before it."""
    line = line_of(MOST)
    first = chance.randrange(1, 5)
    last = chance.randrange(first, 7)
    local = Scene(
        hash_name="sha1", git_dir="/w/.git", work_tree="/w", config=CONFIG,
        references={f"refs/remotes/{name}/main": line[last].id for name in "ab" if chance.random() < 0.5},
        border=[line[first].id], objects=[TREE, *line[first:last + 1]])
    jobs = [job_at_random(chance, line, first, last, number) for number in range(JOBS)]
    return RaceScene(local, jobs)


def job_at_random(chance, line, first, last, number):
    """A job, whose references go where those of some others go."""
    tip = chance.randrange(last, MOST)
    options, about, objects = [], [], line[last + 1:tip + 1]
    kind = chance.choice(["plain", "plain", "plain", "deepen", "shallow", "dry", "half", "refused"])
    if kind == "deepen":
        options, about, objects = ["depth 1000"], [f"unshallow {line[first].id}"], [*line[:first], *objects]
    elif kind == "shallow":
        options, about, objects = ["depth 1"], [f"shallow {line[tip].id}"], [line[tip]]
    elif kind == "dry":
        options = ["dry-run"]
    elif kind == "half":
        objects = objects[1:]
    answer = said(b"ERR no such repository\n") if kind == "refused" else reply([TREE, *objects], *about)
    return Scene(
        hash_name="sha1", git_dir="", address=f"/srv/{number}.git", specs=[f"+refs/heads/*:refs/remotes/{chance.choice('abcd')}/*"], tags="none",
        options=options,
        server=[said(*map(text_line, GREETING)), said(text_line(f"{line[tip].id} refs/heads/main")), answer])


# ---- what the program writes


@dataclass
class Entry:
    """An entry of a journal: its kind, its pass, and the lines that it has."""

    kind: str
    number: int
    lines: list[tuple[str, str]] = field(default_factory=list)


@dataclass
class RaceReport:
    """What the report of a race says."""

    journal: list[Entry] = field(default_factory=list)
    references: dict[str, str] = field(default_factory=dict)
    border: set[str] = field(default_factory=set)
    ids: set[str] = field(default_factory=set)
    refused: dict[int, str] = field(default_factory=dict)
    is_done: bool = False


def read_race(data):
    """The report of a race that the bytes are."""
    report = RaceReport()
    for line in decoded_text(data).removesuffix("\n").split("\n"):
        word, _, value = line.partition(" ")
        if word in ("take", "commit", "delete"):
            place, number = map(int, value.split(" "))
            if place != len(report.journal):
                raise Trouble(ENGINE_FAILED, f"an entry with the place {place} stands at {len(report.journal)}")
            report.journal.append(Entry(word, number))
        elif word in ("has", "shallow", "unshallow", "set", "gone"):
            report.journal[-1].lines.append((word, value))
        elif word == "ref":
            target, name = value.split(" ", 1)
            report.references[name] = target
        elif word in ("border", "id"):
            {"border": report.border, "id": report.ids}[word].add(value)
        elif word == "refused":
            index, token = value.split(" ", 1)
            report.refused[int(index)] = token
        elif word == "ok":
            report.is_done = True
        else:
            raise Trouble(ENGINE_FAILED, f"no line of a race: {line[:100]!r}")
    return report


def replayed(local, journal):
    """References, border and ids that a journal leaves of a repository."""
    references, border, ids = dict(local.references), set(local.border), {each.id for each in local.objects}
    for entry in journal:
        for word in ("shallow", "unshallow"):
            named = {value for each, value in entry.lines if each == word}
            border = border | named if word == "shallow" else border - named
        for word, value in entry.lines:
            if word == "has":
                ids.add(value)
            elif word == "set":
                name, target = value.split(" ", 1)
                references[name] = target
            elif word == "gone":
                references.pop(value, None)
    return references, border, ids


def fault_of(scene, report):
    """What is wrong about a report, in a few words, or None."""
    if replayed(scene.local, report.journal) != (report.references, report.border, report.ids):
        return "the state isn't what the journal leaves"
    if report.is_done == bool(report.refused):
        return "`ok` and a refusal, or neither"
    for number, job in enumerate(scene.jobs):
        kinds = [entry.kind for entry in report.journal if entry.number == number]
        wanted = [[]] if "dry-run" in job.options else [["take", "commit"], ["commit"]]
        if number in report.refused:
            wanted = [[], ["take"]]
        if kinds not in wanted:
            return f"job {number} has the entries {' '.join(kinds) or 'none'}"
    return "an entry of no job" if any(entry.number >= len(scene.jobs) for entry in report.journal) else None
