"""Random histories: commits, trees, blobs and tags, made from a seed alone."""

from bagjulen_tools.formats.ancestry import links_of, reached
from bagjulen_tools.formats.plainpack import Object, object_id

PERSON = "A U Thor <author@example.org>"
BEGIN = 1_600_000_000


class History:
    """Objects that grow commit by commit."""

    def __init__(self, random, hash_name):
        self.random = random
        self.hash_name = hash_name
        self.objects = []
        self.commits = []
        self.seconds = {}
        self.clock = BEGIN
        self.has_skew = False

    def add(self, kind, data):
        """The id of a new object."""
        digits = object_id(self.hash_name, kind, data)
        self.objects.append(Object(digits, kind, data))
        return digits

    def commit(self, parents):
        """The id of a new commit with these parents and a file of its own."""
        seconds = self._next_seconds()
        blob = self.add("blob", f"text {len(self.commits)}\n".encode())
        tree = self.add("tree", b"100644 file\0" + bytes.fromhex(blob))
        lines = [f"tree {tree}", *(f"parent {parent}" for parent in parents)]
        lines += [f"author {PERSON} {seconds} +0000", f"committer {PERSON} {seconds} +0000", ""]
        digits = self.add("commit", "\n".join([*lines, f"commit {len(self.commits)}\n"]).encode())
        self.has_skew |= any(seconds < self.seconds[parent] for parent in parents)
        self.seconds[digits] = seconds
        self.commits.append(digits)
        return digits

    def _next_seconds(self):
        """Mostly later than the commit before, sometimes as late, and rarely earlier."""
        self.clock += self.random.choice([60, 60, 60, 3600, 0, 0, 0 if self.random.random() < 0.9 else -7200])
        return self.clock

    def grow(self, tip=None):
        """The id of a commit on a tip, sometimes with several between them, sometimes a merge or a root."""
        for _ in range(self.random.randint(1, 3)):
            parents = [] if tip is None else [tip]
            if tip is not None and self.commits and self.random.random() < 0.3:
                parents = list(dict.fromkeys([tip, self.random.choice(self.commits)]))
            tip = self.commit(parents)
        return tip

    def tag(self, name, target):
        """The id of a new annotated tag of a commit."""
        self.clock += 1
        head = f"object {target}\ntype commit\ntag {name}\ntagger {PERSON} {self.clock} +0000\n\n"
        return self.add("tag", f"{head}tag of {name}\n".encode())

    def links(self):
        """What each commit and each tag names directly: a commit its parents, and a tag its object."""
        return links_of(self.objects)

    def reached(self, ids):
        """These ids with all commits and tags behind them."""
        return reached(self.links(), ids)
