"""Random repositories that are served, and what their clients ask."""

from dataclasses import dataclass, field
from random import Random

from bagjulen_tools.formats.gitpack import store
from bagjulen_tools.formats.links import reached, tags_from
from bagjulen_tools.formats.plainpack import Object, object_id
from bagjulen_tools.protocol.depth import Depth
from bagjulen_tools.protocol.lines import Mark, text_line
from bagjulen_tools.repository.git import Repository, git
from bagjulen_tools.trials.plain_server import State

PERSON = "A <a@x>"
BRANCHES = ["main", "dev", "side", "topic/one", "topic/two"]
TAGS = ["v1", "v2", "v3", "old/v1", "tree", "blob"]
OTHERS = ["refs/notes/commits", "refs/pull/1/head", "refs/remotes/origin/main"]
FILES = ["a", "b", "a.c", "dir/a", "dir/b", "dir/sub/c", "z"]
MODES = ["100644", "100644", "100755", "120000", "160000"]
PREFIXES = ["HEAD", "refs/heads/", "refs/tags/", "refs/", "refs/heads/main", "refs/heads/t", "refs/tags/v", "r", "zzz"]
VERSIONS = ["plain-pack", "plain-pack-2"]
TAG_TARGETS = ["commit", "commit", "commit", "tag", "tree", "blob"]


class Growth:
    """Commits over trees with folders, in which files come and go, and old ones come back. The seed decides all of it."""

    def __init__(self, random, hash_name):
        self.random, self.hash_name = random, hash_name
        self.objects, self.commits, self._files, self._seconds = {}, [], {}, 1_600_000_000

    def add(self, kind, data):
        """The id of an object, which is stored."""
        digits = object_id(self.hash_name, kind, data)
        self.objects[digits] = Object(digits, kind, data)
        return digits

    def commit(self, parents):
        """The id of a new commit."""
        files = self._changed(dict(self._files.get(parents[0], {})) if parents else {})
        self._seconds += self.random.choice([60, 60, 0, -30])
        person = f"{PERSON} {self._seconds} +0000"
        lines = [f"tree {self._tree(files)}", *(f"parent {parent}" for parent in parents), f"author {person}",
                 f"committer {person}", "", f"commit {len(self.commits)}", ""]
        digits = self.add("commit", "\n".join(lines).encode())
        self._files[digits] = files
        self.commits.append(digits)
        return digits

    def _changed(self, files):
        """Files of which some are written or removed. There are few texts, so that old ones come back."""
        for path in self.random.sample(FILES, self.random.randint(0, 2)):
            mode = self.random.choice(MODES)
            text = f"{self.random.randrange(4)}\n"
            files[path] = mode, text * self.random.choice([1, 1, 40]) if mode != "160000" else text
        for path in self.random.sample(FILES, self.random.choice([0, 0, 1])):
            files.pop(path, None)
        return files

    def _tree(self, files):
        """The id of the tree of files, which are divided by the first part of their paths."""
        entries, folders = [], {}
        for path, (mode, text) in files.items():
            name, is_below, rest = path.partition("/")
            if is_below:
                folders.setdefault(name, {})[rest] = mode, text
            else:
                entries.append((name, mode, self._leaf(mode, text)))
        entries += [(f"{name}/", "40000", self._tree(below)) for name, below in folders.items()]
        data = [f"{mode} {name.rstrip('/')}\0".encode() + bytes.fromhex(digits) for name, mode, digits in sorted(entries)]
        return self.add("tree", b"".join(data))

    def _leaf(self, mode, text):
        """The id of a file, or that of a submodule's commit, which isn't stored."""
        data = text.encode()
        return object_id(self.hash_name, "commit", data) if mode == "160000" else self.add("blob", data)

    def tag(self, name, target):
        """The id of a new tag of an object."""
        kind = self.objects[target].kind
        head = f"object {target}\ntype {kind}\ntag {name}\ntagger {PERSON} {self._seconds} +0000\n\n{name}\n"
        return self.add("tag", head.encode())

    def some(self, kind):
        """The id of some object of a kind, or of some commit where there is none."""
        found = [each.id for each in self.objects.values() if each.kind == kind]
        return self.random.choice(found or self.commits)


@dataclass
class Listing:
    """What is asked of the references."""

    hash_name: str
    unborn: bool
    prefixes: list[str]

    def lines(self):
        """The lines of the request without its flush."""
        words = ["symrefs", "peel", *(["unborn"] if self.unborn else []), *(f"ref-prefix {each}" for each in self.prefixes)]
        return [*front("ls-refs", self.hash_name), *map(text_line, words)]


@dataclass
class Fetch:
    """What is asked of the objects."""

    hash_name: str
    version: str
    include_tag: bool
    border: list[str]
    wants: list[str]
    haves: list[str]
    done: bool
    depth: Depth | None = None

    def lines(self):
        """The lines of the request without its flush."""
        words = [self.version, *(["include-tag"] if self.include_tag else []), *(f"shallow {each}" for each in self.border),
                 *(self.depth.words() if self.depth else []), *(f"want {each}" for each in self.wants),
                 *(f"have {each}" for each in self.haves), *(["done"] if self.done else [])]
        return [*front("fetch", self.hash_name), *map(text_line, words)]


def front(command, hash_name):
    """What each request begins with."""
    return [*map(text_line, (f"command={command}", f"object-format={hash_name}")), Mark.DELIMITER]


@dataclass
class Client:
    """Who asks: its objects, the border of its history, and the commits that it tells."""

    objects: dict[str, Object] = field(default_factory=dict)
    border: list[str] = field(default_factory=list)
    haves: list[str] = field(default_factory=list)


class Maker:
    """Makes a repository of at most so many commits at a path, and what its client asks. The seed decides all of it."""

    def __init__(self, path, seed, most=25):
        self.random, self.path, self.most = Random(seed), path, most
        self.hash_name = "sha256" if self._chance(0.1) else "sha1"
        self.growth = Growth(self.random, self.hash_name)
        self.references, self.symbolic = {}, {}

    def _chance(self, probability):
        return self.random.random() < probability

    # The repository.

    def plan(self):
        """Decides what the repository has, and makes nothing of it yet."""
        self._commit_all()
        self._name_all()

    def make(self):
        """Makes the repository."""
        self.plan()
        git(["init", "-q", "--bare", "--template=", "-b", "main", f"--object-format={self.hash_name}", self.path])
        made = Repository(self.path)
        store(made, list(self.growth.objects.values()))
        lines = "".join(f"update {name} {digits}\n" for name, digits in self.references.items())
        made.git("update-ref", "--stdin", given=lines.encode())
        for name, target in self.symbolic.items():
            made.git("symbolic-ref", name, target)
        if "HEAD" not in self.symbolic:
            made.git("update-ref", "--no-deref", "HEAD", self.growth.some("commit"))
        return made

    def state(self):
        """What was decided: objects by their ids, and references, each an id, or `@` and a name."""
        return State(self.hash_name, dict(self.growth.objects), self.references | {name: f"@{to}" for name, to in self.symbolic.items()})

    def _commit_all(self):
        """Commits, of which most follow the newest ones."""
        for _ in range(self.random.randint(1, self.most)):
            commits = self.growth.commits
            near = commits[-self.random.choice([1, 1, 3, 8]) :]
            parents = self.random.sample(near, min(len(near), self.random.choice([1, 1, 1, 2, 3])))
            self.growth.commit(parents if self._chance(0.95) else [])

    def _name_all(self):
        """Branches, tags, other references, and such as stand for others."""
        for name in self.random.sample(BRANCHES, self.random.randint(1, 4)):
            self.references[f"refs/heads/{name}"] = self.growth.some("commit")
        first, *rest = self.random.sample(TAGS, self.random.randint(1, 4))
        self.references[f"refs/tags/{first}"] = self.growth.tag(first, self.growth.some(self.random.choice(TAG_TARGETS)))
        for name in rest:
            self.references[f"refs/tags/{name}"] = self._tagged(name)
        for name in self.random.sample(OTHERS, self.random.randint(0, 2)):
            self.references[name] = self.growth.some("commit")
        self._name_symbolic()

    def _tagged(self, name):
        """A tag of something, or a thing itself."""
        target = self.growth.some(self.random.choice(TAG_TARGETS))
        return self.growth.tag(name, target) if self._chance(0.7) else target

    def _name_symbolic(self):
        branches = [name for name in self.references if name.startswith("refs/heads/")]
        tags = [name for name in self.references if name.startswith("refs/tags/")]
        for name, targets, probability in (
                ("HEAD", [*branches, *branches, "refs/heads/none", "refs/heads/alias"], 0.9),
                ("refs/heads/alias", branches, 0.5), ("refs/tags/newest", tags, 0.4),
                ("refs/heads/lost", ["refs/heads/none", "refs/tags/none"], 0.2),
                ("refs/remotes/origin/HEAD", [*branches, "refs/heads/alias", "refs/heads/lost"], 0.3)):
            if self._chance(probability):
                self.symbolic[name] = self.random.choice(targets)
        if not self.symbolic:
            self.symbolic["HEAD"] = branches[0]

    # What is asked.

    def requests(self, client):
        """The requests of a client, in their order."""
        listings = [self._listing() for _ in range(self.random.choice([1, 1, 2]))]
        return [*listings, *self._fetches(client)]

    def _listing(self):
        count = self.random.choice([0, 0, 1, 2, 4])
        return Listing(self.hash_name, self._chance(0.5), sorted(self.random.sample(PREFIXES, count)))

    def _fetches(self, client):
        """Rounds with more and more haves, and the request for the pack."""
        wants = self._wants()
        same = self.hash_name, self.random.choice(VERSIONS), self._chance(0.6), client.border, wants
        rounds = self.random.randint(0, 2) if client.haves else self._chance(0.1)
        ends = sorted(self.random.randint(0, len(client.haves)) for _ in range(rounds))
        depth = self._depth(client) if self._chance(1 / 3) else None
        return [*(Fetch(*same, client.haves[:end], False, depth) for end in ends), Fetch(*same, client.haves, True, depth)]

    def _depth(self, client):
        """How deep the history is to be."""
        if client.border and self._chance(0.5):
            return Depth(deepen=self.random.choice([0, 1, 1, 2, 3, 100]), relative=True)
        if self._chance(0.5):
            return Depth(deepen=self.random.choice([1, 1, 2, 2, 3, 5, 100]))
        limit = self.random.choice(["since", "since", "not", "not", "both"])
        since = 1_600_000_000 + 60 * self.random.randint(0, len(self.growth.commits)) if limit != "not" else None
        names = [*self.references, *(name.split("/", 2)[2] for name in self.references), "none"]
        return Depth(since=since, excluded=self.random.sample(names, self.random.randint(1, 2)) if limit != "since" else [])

    def _wants(self):
        """Ids of references, what tags lead to among them, and rarely one that no reference has."""
        objects = self.growth.objects
        offered = [digits for each in self.references.values() for digits in (each, tags_from(objects, each)[-1])]
        found = self.random.sample(offered, min(len(offered), self.random.randint(1, 3)))
        if self._chance(0.05):
            found.append(self.growth.some(self.random.choice(["commit", "blob"])) if self._chance(0.5) else self._absent())
        return list(dict.fromkeys(found))

    def _absent(self):
        return object_id(self.hash_name, "commit", b"absent")

    def client(self, tells):
        """Who has a part of the history, sometimes with a border or commits of its own. One that `tells` has haves."""
        if not tells:
            return Client()
        tips = self.random.sample(self.growth.commits, min(len(self.growth.commits), self.random.randint(1, 3)))
        border = self.random.sample(self.growth.commits, min(len(self.growth.commits), 2)) if self._chance(0.3) else []
        held = reached(self.growth.objects, tips, border)
        objects = {digits: each for digits, each in self.growth.objects.items() if digits in held}
        objects |= self._own(tips) if self._chance(0.4) else {}
        commits = [digits for digits, each in objects.items() if each.kind == "commit"]
        haves = self.random.sample(commits, self.random.randint(1, min(len(commits), 12)))
        return Client(objects, sorted(set(border) & held), haves)

    def _own(self, tips):
        """Commits of the client alone, with what they lead to."""
        own = Growth(self.random, self.hash_name)
        own.commit([self.random.choice(tips)])
        own.commit(own.commits)
        return own.objects
