"""Random pairs of repositories: a client as it was left by an earlier fetch, and a server that moved since."""

import os
from dataclasses import dataclass, field
from random import Random

from bagjulen_tools.formats.gitpack import store
from bagjulen_tools.repository.git import Repository, git
from bagjulen_tools.trials.history import History

LEVELS = ("plain", "still", "direct", "whole")
BRANCHES = ["main", "dev", "side", "topic", "topic/one", "topic/two"]
TAGS = ["v1", "v2", "v3"]
ALGORITHMS = ["noop", "consecutive", "skipping", None]
TRACKING = "refs/heads/*:refs/remotes/origin/*"
# `{one}` and `{two}` stand for branches, mostly of the server.
SPECS = [
    [f"+{TRACKING}"],
    [TRACKING],
    [f"+{TRACKING}", "^refs/heads/{one}"],
    [f"+{TRACKING}", "refs/tags/*:refs/tags/*"],
    [f"+{TRACKING}", "HEAD:refs/remotes/origin/first"],
    ["refs/heads/*:refs/heads/*"],
    ["+refs/heads/*:refs/heads/*"],
    ["+refs/*:refs/mirror/*"],
    ["refs/heads/{one}:refs/heads/{one}", "+refs/heads/{two}:refs/heads/copy"],
    ["refs/heads/{one}:refs/remotes/origin/main", "refs/heads/{two}:refs/remotes/origin/main"],
    ["{one}:copy"],
    ["refs/heads/{one}"],
    ["+refs/tags/*:refs/tags/*"],
]


@dataclass
class Pair:
    """A client, a server, and a fetch from one into the other."""

    client: str
    server: str
    history: History
    specs: list[str]
    tags: str = "none"
    options: list[str] = field(default_factory=list)
    has_head: bool = False

    def __str__(self):
        return " ".join([*self.specs, "--tags", self.tags, *self.options])


class Maker:
    """Makes one pair below a folder. The seed decides all of it."""

    def __init__(self, folder, seed, level):
        self.random = Random(seed)
        self.is_plain, self.moves, self.is_whole = level == "plain", level in ("direct", "whole"), level == "whole"
        self.server = os.path.join(folder, "server.git")
        self.client = os.path.join(folder, "client")
        self.hash_name = "sha256" if not self.is_plain and self._chance(0.1) else "sha1"
        self.history = History(self.random, self.hash_name)
        self.references = {}

    def pair(self):
        """The pair."""
        self.init(self.server, "--bare")
        self._begin_server()
        self._begin_client()
        self._move_server()
        return Pair(self.client, self.server, self.history, *self._fetch(), self.is_whole)

    def init(self, path, *words):
        """Makes an empty repository."""
        git(["init", "-q", "--template=", "-b", "main", f"--object-format={self.hash_name}", *words, path])

    def _chance(self, probability):
        return self.random.random() < probability

    def _fetch(self):
        """What is fetched: refspecs, tags and options."""
        names = {"one": self._branch_name(), "two": self._branch_name()}
        if self.is_plain:
            mark = self.random.choice(["", "+"])
            return [f"{mark}refs/heads/{{one}}:refs/remotes/origin/{{one}}".format(**names)], "none", []
        specs = [spec.format(**names) for spec in self.random.choice(SPECS)]
        return specs, self.random.choice(["all", "included", "included", "none"]), self._options()

    def _branch_name(self):
        """The name of a branch of the server, or rarely of none."""
        names = [name.removeprefix("refs/heads/") for name in self.references if name.startswith("refs/heads/")]
        return self.random.choice(names if names and self._chance(0.95) else BRANCHES)

    def _options(self):
        """A depth or a dry run, or mostly nothing."""
        kind = self.random.choice(["", "", "", "", "", "depth", "deepen", "since", "not", "dry-run"])
        if kind in ("depth", "deepen"):
            return [f"{kind} {self.random.randint(1, 4)}"]
        if kind == "since":
            return [f"since {self.history.seconds[self.random.choice(self.history.commits)]}"]
        if kind == "not":
            return [f"not refs/heads/{self._branch_name()}"]
        return [kind] if kind else []

    # The server.

    def _begin_server(self):
        for name in self.random.sample(BRANCHES, self.random.randint(1, 4)):
            self._branch(name)
        for name in self.random.sample(TAGS, self.random.randint(0, 2)):
            self._tag(name)
        self.write_server()

    def _any_commit(self, probability):
        """Some commit of the history, or None."""
        return self.random.choice(self.history.commits) if self.history.commits and self._chance(probability) else None

    def _branch(self, name):
        """Makes a branch, unless a name above or below it or itself stands."""
        full = f"refs/heads/{name}"
        if not any(f"{other}/".startswith(f"{full}/") or full.startswith(f"{other}/") for other in self.references):
            self.references[full] = self.history.grow(self._any_commit(0.7))

    def _tag(self, name):
        commit = self.random.choice(self.history.commits)
        self.references[f"refs/tags/{name}"] = self.history.tag(name, commit) if self._chance(0.5) else commit

    def _move_server(self):
        """Moves, makes and deletes branches and tags of the server."""
        for name in [each for each in self.references if each.startswith("refs/heads/")]:
            if self.moves and self._chance(0.5):
                self._move(name)
        for name in self.random.sample(BRANCHES, 2):
            self._branch(name)
        for name in TAGS:
            if self._chance(0.2) and (self.moves or f"refs/tags/{name}" not in self.references):
                self._tag(name)
        self.write_server()
        self._write_server_head()

    def _move(self, name):
        """Moves a branch on, elsewhere or back, or deletes it."""
        tip = self.references[name]
        self.references[name] = self.random.choice([
            lambda: self.history.grow(tip),
            lambda: self.history.grow(tip),
            lambda: self.history.grow(self._any_commit(1)),
            lambda: self._any_commit(1),
            lambda: None,
        ])()
        if self.references[name] is None:
            del self.references[name]

    def write_server(self):
        """Stores all objects in the server, and gives it these references alone."""
        server = Repository(self.server)
        store(server, self.history.objects)
        gone = server.direct_references().keys() - self.references.keys()
        self._write(server, [f"delete {name}" for name in gone])
        self._write(server, [f"update {name} {digits}" for name, digits in self.references.items()])

    def _write(self, repository, lines):
        repository.git("update-ref", "--stdin", given="".join(f"{line}\n" for line in lines).encode())

    def _write_server_head(self):
        server = Repository(self.server)
        branches = [name for name in self.references if name.startswith("refs/heads/")]
        if branches and self._chance(0.9):
            server.git("symbolic-ref", "HEAD", self.random.choice(branches))
        if self.is_whole and branches and self._chance(0.2):
            server.git("symbolic-ref", "refs/heads/alias", self.random.choice(branches))

    # The client.

    def _begin_client(self):
        self.init(self.client, *(["--bare"] if not self.is_whole or self._chance(0.3) else []))
        client = Repository(self.client)
        algorithm = self.random.choice(ALGORITHMS) if self.is_whole else "noop"
        if algorithm is not None:
            client.git("config", "fetch.negotiationAlgorithm", algorithm)
        if self._chance(0.8):
            self._fetch_before(client)
            self._make_branches(client)
        if self.is_whole:
            self._make_symbolic(client)
            self._make_worktrees(client)

    def _fetch_before(self, client):
        """Fetches from the server as it is now, sometimes a part of the history alone."""
        specs = [f"+{TRACKING}"]
        if self.is_plain:
            name = self.random.choice(list(self.references))
            specs = [f"{name}:refs/remotes/origin/{name.rpartition('/')[2]}"]
        depth = [f"--depth={self.random.randint(1, 3)}"] if not self.is_plain and self._chance(0.3) else []
        tags = ["--no-tags"] if self.is_plain or self._chance(0.4) else []
        client.git("fetch", "-q", "--no-auto-maintenance", *depth, *tags, self.server, *specs)

    def _make_branches(self, client):
        """Makes branches of the client's own, at the remote's commits or behind a commit of its own."""
        known = [each for each in client.direct_references().values() if each in self.history.seconds]
        if not self.moves or not known:
            return
        for name in self.random.sample([*BRANCHES[:3], "copy"], self.random.randint(0, 2)):
            tip = self.random.choice(known)
            if self._chance(0.3):
                tip = self._own_commit(client, tip)
            client.git("update-ref", f"refs/heads/{name}", tip)

    def _own_commit(self, client, tip):
        own = History(self.random, self.hash_name)
        own.seconds, own.clock = self.history.seconds, self.history.clock
        made = own.commit([tip])
        store(client, own.objects)
        return made

    def _make_symbolic(self, client):
        names = list(client.direct_references())
        if names and self._chance(0.3):
            client.git("symbolic-ref", "refs/remotes/origin/HEAD", self.random.choice(names))
        if names and self._chance(0.1):
            client.git("symbolic-ref", "refs/remotes/origin/side", self.random.choice(names))

    def _make_worktrees(self, client):
        branches = [name for name in client.direct_references() if name.startswith("refs/heads/")]
        if not branches:
            return
        if self._chance(0.5):
            client.git("symbolic-ref", "HEAD", branches[0])
        if len(branches) > 1 and self._chance(0.5):
            folder = f"{self.client}-tree"
            client.git("worktree", "add", "-q", "--no-checkout", "-f", folder, branches[1].removeprefix("refs/heads/"))
