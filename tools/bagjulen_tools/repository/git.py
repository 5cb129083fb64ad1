"""What is asked of a real repository, and of the `git` that stands on this machine."""

import os
import re
import signal
from collections.abc import Iterable, Iterator, Mapping, Sequence

from bagjulen_tools.formats.grammar import DIGITS
from bagjulen_tools.formats.plainpack import Object
from bagjulen_tools.processes import run_program
from bagjulen_tools.protocol.lines import decoded_text
from bagjulen_tools.repository.reference_files import LOCK, read_references
from bagjulen_tools.trouble import BAD_INPUT, GIT_REFUSED, Trouble

# Nothing of the caller's repository is to reach another one, and messages are to be those of Git's source.
OWN_ENVIRONMENT = {"LC_ALL": "C", "GIT_NO_REPLACE_OBJECTS": "1", "GIT_OPTIONAL_LOCKS": "0"}
FOREIGN = ("GIT_DIR", "GIT_WORK_TREE", "GIT_INDEX_FILE", "GIT_OBJECT_DIRECTORY", "GIT_COMMON_DIR",
           "GIT_ALTERNATE_OBJECT_DIRECTORIES", "GIT_NAMESPACE", "GIT_PREFIX", "GIT_SHALLOW_FILE")
# The entry of a configuration that says where references stand, and its only value that is read here.
REF_STORAGE, FILES = "extensions.refStorage", "files"
# The words of a truth value.
TRUE, FALSE = ("true", "yes", "on"), ("false", "no", "off", "")


def environment(more: Mapping[str, str]) -> dict[str, str]:
    """The environment that Git runs in."""
    kept = {name: value for name, value in os.environ.items() if name not in FOREIGN}
    return {**kept, **OWN_ENVIRONMENT, **more}


def run_git(words: Sequence[str], given: bytes = b"",
            more: Mapping[str, str] | None = None) -> tuple[int, bytes, str]:
    """Runs Git. Answers its status, what it wrote, and its messages."""
    try:
        ended = run_program(["git", *words], given, environment(more or {}))
    except FileNotFoundError:
        raise Trouble(GIT_REFUSED, "there is no `git` on this machine") from None
    messages = decoded_text(ended.stderr)
    if ended.returncode < 0:
        messages = f"fatal: git was ended by {signal.Signals(-ended.returncode).name}\n{messages}"
    return ended.returncode, ended.stdout, messages


def git(words: Sequence[str], given: bytes = b"", more: Mapping[str, str] | None = None) -> bytes:
    """What Git writes. Its message is the trouble where it refuses."""
    status, out, messages = run_git(words, given, more)
    if status != 0:
        raise Trouble(GIT_REFUSED, f"git refused: {why(messages)}")
    return out


def why(messages: str) -> str:
    """The first line of Git's messages that says what was wrong."""
    lines = [line for line in messages.splitlines() if line.strip()]
    told = [line for line in lines if line.startswith(("fatal:", "error:"))]
    return (told or lines or ["nothing is told"])[0]


class Repository:
    """A repository on this machine. Of a path inside its work tree, Git runs at the top: in a folder below
    `git index-pack` would put its pack there.
    """

    def __init__(self, path: str) -> None:
        asked = ["--absolute-git-dir", "--git-common-dir", "--show-object-format", "--is-bare-repository",
                 "--is-inside-work-tree", "--show-cdup"]
        status, out, messages = run_git(["-C", path, "rev-parse", *asked])
        if status != 0:
            for folder in (os.path.join(path, ".git"), path):
                refuse_ref_storage(path, folder)
            raise Trouble(BAD_INPUT, f"{path} is no repository: {why(messages)}")
        self.git_dir, common, self._hash_name, is_bare, is_inside, *up = decoded_text(out).splitlines()
        self._is_bare, self._is_inside = is_bare == "true", is_inside == "true"
        self._entries: list[tuple[str, str | None]] | None = None
        self.common_dir = os.path.normpath(os.path.join(path, common))
        self.path = os.path.normpath(os.path.join(path, *up))
        refuse_ref_storage(path, self.common_dir)

    def git(self, *words, given=b"", more=None):
        """What Git writes when it runs in this repository."""
        if words[0] == "config":
            self._entries = None
        return git(["-C", self.path, *words], given, more)

    def forget_entries(self) -> None:
        """Has the configuration be read anew."""
        self._entries = None

    def text(self, *words):
        """The one line that Git writes."""
        return decoded_text(self.git(*words)).removesuffix("\n")

    def hash_name(self):
        """`sha1` or `sha256`."""
        return self._hash_name

    def truth(self, key):
        """What the configuration says of a key, which has a truth value, or None where it says nothing."""
        return truth(dict(self.entries()), key.lower())

    def work_tree(self):
        """The directory of the work tree, or None in a bare repository."""
        if self._is_bare:
            return None
        if self._is_inside:
            return os.path.realpath(self.path)
        return os.path.dirname(self.git_dir)

    def abbreviated(self, ids):
        """The commits among these ids, each with its digits that tell it from others."""
        given = "".join(f"{digits}\n" for digits in ids).encode()
        words = ["rev-list", "--no-walk=unsorted", "--ignore-missing", "--no-commit-header", "--format=%H %h", "--stdin"]
        out = decoded_text(self.git(*words, given=given)) if ids else ""
        return dict(line.split(" ") for line in out.splitlines())

    def references(self):
        """Each reference under `refs/`, and `HEAD`: an id in hex, or `@` and the name that it stands for."""
        direct = self.direct_references()
        target = symbolic_target(self.place("HEAD"))
        head = self.head() if target is None else {"HEAD": f"@{target}"}
        return direct | self._symbolic_references(direct) | head

    def reference_files(self) -> dict[str, str]:
        """Each reference as its file says it, also those that lead nowhere. It is refused where one can't be
        read.
        """
        found = read_references(self.git_dir, self.common_dir, self.hash_name())
        for name, trouble in found.unread.items():
            raise Trouble(BAD_INPUT, f"the reference {name} can't be read: {trouble}")
        return found.references

    def direct_references(self):
        """The references under `refs/` that are ids."""
        out = decoded_text(self.git("for-each-ref", "--format=%(objectname) %(symref) %(refname)"))
        lines = (line.split(" ") for line in out.split("\n")[:-1])
        return {name: digits for digits, symbolic, name in lines if not symbolic}

    def _symbolic_references(self, direct):
        """The references under `refs/` that stand for a name, also those that lead nowhere, which Git
        doesn't list.
        """
        found = {}
        for folder, _, files in os.walk(os.path.join(self.common_dir, "refs")):
            front = os.path.relpath(folder, self.common_dir)
            for file in files:
                name = f"{front}/{file}"
                if name not in direct and not name.endswith(LOCK):
                    target = symbolic_target(os.path.join(folder, file))
                    found |= {} if target is None else {name: f"@{target}"}
        return found

    def head(self):
        """`HEAD` with `@` and the name at the end of its names, or with its id."""
        status, out, _ = run_git(["-C", self.path, "symbolic-ref", "-q", "HEAD"])
        if status == 0:
            return {"HEAD": f"@{decoded_text(out).strip()}"}
        return {"HEAD": self.text("rev-parse", "--verify", "HEAD")}

    def place(self, name):
        """The file of a reference that isn't packed."""
        return os.path.join(self.git_dir if name == "HEAD" else self.common_dir, name)

    def log_place(self, name):
        """The file of a reference's log."""
        return os.path.join(self.git_dir if name == "HEAD" else self.common_dir, "logs", name)

    def shallow_file(self):
        """Where the border stands."""
        return os.path.join(self.common_dir, "shallow")

    def border(self) -> list[str]:
        """The ids of the border, ascending."""
        try:
            with open(self.shallow_file(), "rb") as file:
                lines = file.read().splitlines()
        except FileNotFoundError:
            return []
        count = DIGITS[self.hash_name()] if lines else 0
        for line in lines:
            if re.match(rb"[0-9a-fA-F]{%d}" % count, line) is None:
                told = decoded_text(line)[:100]
                raise Trouble(BAD_INPUT, f"{self.shallow_file()} has a line that is no id: {told!r}")
        return sorted({line[:count].decode("ascii").lower() for line in lines})

    def reached_commits(self):
        """The commits that references reach."""
        return set(self.text("rev-list", "--all").split())

    def worktrees(self):
        """Each branch that is checked out, with its directory."""
        found = []
        for record in self.text("worktree", "list", "--porcelain", "-z").split("\0\0"):
            values = dict(field.partition(" ")[::2] for field in record.split("\0"))
            if "branch" in values:
                found.append((values["branch"], values["worktree"]))
        return found

    def entries(self, overrides: Iterable[str] = ()) -> Iterator[tuple[str, str | None]]:
        """Each entry of the configuration in force, in order: its key, and its value or None."""
        words = [word for override in overrides for word in ("-c", override)]
        if words:
            return entries_in(self.git(*words, "config", "--list", "-z"))
        if self._entries is None:
            self._entries = list(entries_in(self.git("config", "--list", "-z")))
        return iter(self._entries)

    def objects(self):
        """All objects, each once."""
        return objects_in(self.git("cat-file", "--batch-all-objects", "--unordered", "--batch"))

    def stored_ids(self):
        """The ids of all objects. The empty tree, which Git knows by itself, is there only where it is
        stored.
        """
        out = self.git("cat-file", "--batch-all-objects", "--unordered", "--batch-check=%(objectname)")
        return set(out.decode("ascii").split())


def truth(entries: Mapping[str, str | None], *keys: str) -> bool | None:
    """The truth value of the first of these keys that the configuration has, as Git reads one."""
    for key in keys:
        if key in entries:
            value = entries[key]
            word = "true" if value is None else value.lower()
            if word in TRUE or word in FALSE:
                return word in TRUE
            number = word.rstrip("kmg") if word[-1:] in "kmg" else word
            if not number.removeprefix("-").isdecimal():
                raise Trouble(GIT_REFUSED, f"bad boolean config value '{value}' for '{key}'")
            return int(number) != 0
    return None


def entries_in(listed: bytes) -> Iterator[tuple[str, str | None]]:
    """The entries that `git config --list -z` wrote: the key of each, and its value or None."""
    for entry in decoded_text(listed).split("\0")[:-1]:
        key, has_value, value = entry.partition("\n")
        yield key, value if has_value else None


def symbolic_target(path):
    """The name that a file of references stands for, or None."""
    try:
        with open(path, "rb") as file:
            text = decoded_text(file.read(4096))
    except OSError:
        return None
    return text.removeprefix("ref:").strip() if text.startswith("ref:") else None


def refuse_ref_storage(path: str, folder: str) -> None:
    """Refuses a repository whose references stand elsewhere than in files, by its Git directory."""
    file = os.path.join(folder, "config")
    try:
        with open(file, "rb") as opened:
            is_told = REF_STORAGE.partition(".")[2].lower().encode() in opened.read().lower()
    except OSError:
        return
    if is_told:
        value = decoded_text(run_git(["config", "--file", file, "--get", REF_STORAGE])[1]).removesuffix("\n")
        if value and value != FILES:
            raise Trouble(BAD_INPUT, f"{path} has {REF_STORAGE} = {value}, and {FILES} alone is supported")


def objects_in(batch: bytes) -> list[Object]:
    """The objects that `git cat-file --batch` wrote."""
    found, place = [], 0
    while place < len(batch):
        end = batch.index(b"\n", place)
        digits, kind, *length = batch[place:end].decode("ascii").split(" ")
        if not length:
            raise Trouble(BAD_INPUT, f"the object {digits} is damaged or missing")
        place = end + 1 + int(length[0]) + 1
        found.append(Object(digits, kind, batch[end + 1 : place - 1]))
    return found
