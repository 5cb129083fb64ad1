"""What is found in a repository, by the engine and by `git fsck`, and where they differ."""

import os
import re
from dataclasses import dataclass, field

from bagjulen_tools.formats.bundle import followed
from bagjulen_tools.formats.gitpack import store
from bagjulen_tools.formats.scene import Scene
from bagjulen_tools.protocol.lines import decoded_text, encoded_text
from bagjulen_tools.repository.git import Repository, git, run_git
from bagjulen_tools.repository.object_reader import ObjectReader
from bagjulen_tools.trouble import ENGINE_FAILED, Trouble

INVALID = re.compile(r"error: (\S+): invalid sha1 pointer [0-9a-f]+")
LINK = re.compile(r"broken link from +\w+ ([0-9a-f]+)\n +to +\w+ ([0-9a-f]+)\n")
FSCK = ["fsck", "--connectivity-only", "--unreachable", "--no-reflogs", "--no-progress"]

# Why findings differ where nothing is wrong.
NOT_REACHED = "a link of an object that nothing reaches, which Git passes over"
ONE_LINK = "a further link to the same object, of which Git tells one"
UNBORN = "a symbolic reference to an absent name, which is no finding"
BEHIND_TAGS = "a symbolic reference that leads to a tag of nothing, of which Git tells the link alone"
NO_BORDER = "an id of the border at which no commit is stored, which Git passes over"
NO_BEGINNING = "an object, where no reference leads to one: then Git tells none that isn't reached"
UNEXPLAINED = "UNEXPLAINED"


@dataclass
class Findings:
    """What is found: links to what isn't there, objects that aren't there, references that lead to no
    object, and objects that no reference reaches.
    """

    links: set[tuple[str, str]] = field(default_factory=set)
    missing: set[str] = field(default_factory=set)
    broken: set[str] = field(default_factory=set)
    unreached: set[str] = field(default_factory=set)
    # Whether some reference leads to an object.
    has_beginning: bool = True

    def count(self):
        return len(self.links) + len(self.broken) + len(self.unreached)


def read_state(repository: Repository) -> tuple[Scene, dict[str, str]]:
    """The repository as a scene: references as their files say them, border, and the objects that can be
    read; and the ids of those that can't, with Git's words.
    """
    with ObjectReader(repository) as reader:
        state = Scene(hash_name=repository.hash_name(), git_dir=repository.git_dir,
                      references=repository.reference_files(), border=repository.border(),
                      objects=list(reader.all()))
        return state, reader.damaged


def laid_out(state, folder):
    """A bare repository of this state and nothing else: logs, an index and work trees would be beginnings
    for Git, too.
    """
    path = os.path.join(folder, "copy.git")
    git(["init", "-q", "--bare", f"--object-format={state.hash_name}", path])
    copy = Repository(path)
    store(copy, state.objects)
    direct = sorted((name, target) for name, target in state.references.items() if target[0] != "@" and name != "HEAD")
    _write(path, "packed-refs", "".join(f"{digits} {name}\n" for name, digits in direct))
    for name, target in state.references.items():
        if target[0] == "@" or name == "HEAD":
            _write(path, name, f"ref: {target[1:]}\n" if target[0] == "@" else f"{target}\n")
    if state.border:
        _write(path, "shallow", "".join(f"{digits}\n" for digits in state.border))
    return copy


def _write(folder, name, text):
    path = os.path.join(folder, name)
    os.makedirs(os.path.dirname(path), exist_ok=True)
    with open(path, "wb") as file:
        file.write(encoded_text(text))


def told_by_git(repository):
    """What `git fsck` finds."""
    _, out, messages = run_git(["-C", repository.path, *FSCK])
    text = decoded_text(out)
    lines = [line.split(" ") for line in text.splitlines()]
    return Findings(
        links=set(LINK.findall(text)),
        missing={line[2] for line in lines if line[0] == "missing"},
        broken={match[1] for match in map(INVALID.fullmatch, messages.splitlines()) if match is not None},
        unreached={line[2] for line in lines if line[0] == "unreachable"},
        has_beginning="notice: No default references" not in messages.splitlines(),
    )


def told_by_engine(status, written):
    """What the engine finds, as it writes it with this status."""
    *lines, last = decoded_text(written).splitlines() or [""]
    words = [line.split(" ") for line in lines]
    found = Findings(
        links={(line[1], line[2]) for line in words if line[0] == "missing"},
        broken={line[1] for line in words if line[0] == "broken"},
        unreached={line[1] for line in words if line[0] == "unreached"},
    )
    found.missing = {there for here, there in found.links}
    wanted = (1, f"found {len(lines)}") if lines else (0, "ok")
    if (status, last) != wanted or found.count() != len(lines):
        raise Trouble(ENGINE_FAILED, f"the engine wrote {last!r} after {len(lines)} lines, with status {status}")
    return found


def differences(state, ours, theirs):
    """Where both differ: a reason and what it is, each."""
    stored = {each.id for each in state.objects}
    links = {(here, there) for here, there in ours.links if here in stored - ours.unreached}
    for link in sorted(ours.links - theirs.links):
        yield _reason_of_link(link, stored, link in links, theirs), f"missing {link}"
    for link in sorted(theirs.links - ours.links):
        yield UNEXPLAINED, f"by Git alone missing {link}"
    for digits in sorted({there for _, there in links} ^ theirs.missing):
        yield UNEXPLAINED, f"missing {digits}"
    for name in sorted(ours.broken ^ theirs.broken):
        yield _reason(state.references, stored, name, name in ours.broken), f"broken {name}"
    for digits in sorted(ours.unreached ^ theirs.unreached):
        yield UNEXPLAINED if theirs.has_beginning or digits in theirs.unreached else NO_BEGINNING, f"unreached {digits}"


def _reason_of_link(link, stored, is_reached, theirs):
    """Why Git doesn't tell of a link."""
    here, there = link
    if here == there:
        return NO_BORDER
    if not is_reached:
        return NOT_REACHED
    return ONE_LINK if there in theirs.missing else UNEXPLAINED


def _reason(references, stored, name, is_ours):
    """Why one alone tells of a reference."""
    is_symbolic = references.get(name, "")[:1] == "@"
    end = followed(references, name)
    if is_symbolic and not is_ours and end is None:
        return UNBORN
    return BEHIND_TAGS if is_symbolic and is_ours and end in stored else UNEXPLAINED
