"""Rows and scenes of servers, bundles and mirrors that are made at random: repositories with their objects, references and
border, some of them harmed, and what is asked of them, cut into pieces, some of it changed in bytes, lines and order.
"""

from random import Random

from bagjulen_tools.formats.bundle import bundle_of
from bagjulen_tools.formats.plainpack import Object, object_id
from bagjulen_tools.formats.scene import Scene
from bagjulen_tools.protocol.lines import Mark, encoded, encoded_text, text_line
from bagjulen_tools.trials.damage import Damage
from bagjulen_tools.trials.mutation import in_bytes, in_lines, in_own_pack, in_pack, split_lines
from bagjulen_tools.trials.plain_server import LONGEST_NAME
from bagjulen_tools.trials.row_server import escaped
from bagjulen_tools.trials.served import Maker
from bagjulen_tools.trouble import Trouble

ALL = 10**9
COUNTS = (0, 1, 4, 20, 100, 5000)
SIZES = (1, 3, 4, 5, 16, 64, 1000)
WORKERS = (*range(10), 1, 2, 3, 8, 4294967295)
FIRST_LINES = (b"git-upload-pack /srv/a.git\0\0version=2\0", b"git-upload-pack  \0\0version=2\0a=b\0c\0",
               b"git-upload-pack /srv/a.git\0\0version=1\0", b"git-upload-pack /srv/a.git\0host=a\0\0version=2\0",
               b"git-upload-pack /srv/a.git\0\0version=2\0a\nb\0", b"git-upload-pack /srv/a.git\0\0version=2\0a")
DEPTHS = (
    ["deepen 1"], ["deepen 2147483647"], ["deepen 4294967295"], ["deepen 4294967296"], ["deepen 0"], ["deepen 01"], ["deepen "],
    ["deepen 1", "deepen-relative"], ["deepen 0", "deepen-relative"], ["deepen-relative"], ["deepen-relative", "deepen 1"],
    ["deepen 1", "deepen 1"], ["deepen 1", "deepen-since 1"], ["deepen-since 0"], ["deepen-since 1600000000"],
    ["deepen-since 18446744073709551615"], ["deepen-since 18446744073709551616"], ["deepen-since -1"],
    ["deepen-since 1600000000", "deepen-not main"], ["deepen-not main", "deepen-since 1"], ["deepen-not HEAD"], ["deepen-not v1"],
    ["deepen-not refs/heads/main"], ["deepen-not main", "deepen-not main"], ["deepen-not @"], ["deepen-not "], ["deepen-not a..b"],
)


class Repositories:
    """Makes what is tried of repositories. What a seed and a number make is always the same."""

    def server(self, seed, number):
        """A row in which a server is fed with pieces."""
        random = Random(f"server {seed} {number}")
        maker = self._maker(random)
        state, texts = maker.state(), [asked(random, maker) for _ in range(random.choice((1, 1, 2)))]
        if random.random() < 0.06:
            state = harmed(random, state)
        questions = [each for text in texts for each in questions_of(random, text)]
        return row(b"serve", state, questions)

    def bundle(self, seed, number):
        """A row in which bundles are read and written."""
        random = Random(f"bundle {seed} {number}")
        state = self._maker(random).state()
        if random.random() < 0.3:
            state.border = random.sample(sorted(each.id for each in state.objects.values() if each.kind == "commit"), 1)
        text = bundle_text(random, state)
        for _ in range(random.choice((0, 1, 1, 1, 2))):
            text = changed_bundle(random, text, state.hash_name)
        if random.random() < 0.3:
            state = harmed(random, state, are_own=True)
        written = random.choice(([], [], ["check", "write"], ["write", "save", "load", "files"], ["load", "save", "save", "load"]))
        questions = [b"read " + escaped(text), b"put " + escaped(text), b"load"] if random.random() < 0.8 else []
        return row(b"bundle", state, [*questions, *(word.encode() for word in written)])

    def scene(self, seed, number):
        """The scene of a server."""
        random = Random(f"scene {seed} {number}")
        scene = self._served(random, harm=0.7)
        for _ in range(random.choice((0, 0, 0, 1, 1, 2))):
            scene = random.choice((in_bytes, in_lines, in_lines, in_own_pack))(random, scene, scene)
        return scene

    def mirror(self, seed, number):
        """How many workers there are, and the scene of a server."""
        random = Random(f"mirror {seed} {number}")
        scene = self._served(random, harm=0.3)
        if random.random() < 0.2:
            scene = random.choice((in_bytes, in_lines, in_own_pack))(random, scene, scene)
        return random.choice(WORKERS), scene

    def _served(self, random, harm):
        """The scene of a server, which is harmed as often as that."""
        state = self._maker(random).state()
        return scene_of(harmed(random, state) if random.random() < harm else state)

    def _maker(self, random):
        maker = Maker("", str(random.random()), most=8)
        maker.plan()
        return maker


# ---- what is asked


def asked(random, maker):
    """A text of requests, most of them whole ones, some of it changed."""
    client = maker.client(random.random() < 0.6)
    requests = [each.lines() for each in maker.requests(client)]
    if random.random() < 0.12:
        requests = [with_depth(random, each) for each in requests]
    first = FIRST_LINES[0] if random.random() < 0.9 else random.choice(FIRST_LINES)
    text = encoded(first) + b"".join(encoded(line) for request in requests for line in [*request, Mark.FLUSH])
    if random.random() < 0.55:
        for _ in range(random.choice((1, 1, 2, 3))):
            text = random.choice((in_bytes, in_lines, in_lines, in_lines))(random, text, text)
    return text


def with_depth(random, request):
    """A request whose depth lines are others, if it has wants."""
    rest = [line for line in request if line == Mark.DELIMITER or not line.startswith(b"deepen")]
    at = next((at for at, line in enumerate(rest) if line != Mark.DELIMITER and line.startswith(b"want ")), None)
    return request if at is None else [*rest[:at], *map(text_line, random.choice(DEPTHS)), *rest[at:]]


def questions_of(random, text):
    """Questions by which a text is fed, in pieces, with bytes taken between them."""
    kind = random.random()
    if kind < 0.05 and len(text) < 3000:
        yield random.choice((b"bytes ", b"cuts ")) + escaped(text)
        return
    words = (b"send ", b"receive ") if kind < 0.3 else (b"feed ", b"give ")
    for piece in cut(random, text):
        yield words[0] + escaped(piece)
        if random.random() < 0.3:
            yield words[1] + b"%d" % random.choice(COUNTS)
        if random.random() < 0.03:
            yield b"copy"
    yield words[1] + b"%d" % (ALL if words[0] == b"feed " else 100_000)
    if random.random() < 0.5:
        yield b"fresh"


def cut(random, text):
    """The text in pieces: one, two, some of any length, or all of one length."""
    kind = random.random()
    if kind < 0.3:
        return [text]
    size = random.choice(SIZES)
    if kind < 0.5 and len(text) // size < 200:
        return [text[at : at + size] for at in range(0, len(text), size)]
    places = sorted(random.randint(0, len(text)) for _ in range(random.choice((1, 1, 2, 5, 20))))
    return [text[begin:end] for begin, end in zip([0, *places], [*places, len(text)])]


# ---- repositories


def harmed(random, state, are_own=False):
    """The repository with some harm: lost objects, names that lead to nothing or too far, a border, an object elsewhere,
    unless all are to stand at their own ids.
    """
    kind = random.choice((0, 1, 2, 3, 5, 6, 7)) if are_own else random.randrange(8)
    if kind < 4:
        scene = Scene(state.hash_name, "", references=state.references, border=state.border, objects=list(state.objects.values()))
        Damage(random, scene).some(random.randint(1, 3))
        return of_objects(state, scene.objects, scene.references, scene.border)
    objects = list(state.objects.values())
    if kind == 4:
        each = random.choice(objects)
        kind, data = ("blob", b"other\n") if random.random() < 0.5 else (each.kind, each.data)
        return of_objects(state, [*objects, Object(object_id(state.hash_name, "blob", b"%d" % random.random()), kind, data)],
                          state.references, state.border)
    lengths = (0, 1, 35_000, 40_000) if are_own else (0, 1, 10_000)
    name = "refs/heads/" + "n" * (LONGEST_NAME - 11 + random.choice(lengths))
    target = random.choice(sorted(state.references.values()))
    names = {name: target} if kind < 7 else {"refs/heads/long": f"@{name}"}
    return of_objects(state, objects, state.references | names, state.border)


def of_objects(state, objects, references, border):
    """A repository of the same hash."""
    return type(state)(state.hash_name, {each.id: each for each in objects}, references, border)


def row(whose, state, questions):
    """A row of the program of crates/serve_rows."""
    lines = [b"= %s at random" % whose, b"hash " + state.hash_name.encode()]
    for digits, each in state.objects.items():
        own = object_id(state.hash_name, each.kind, each.data) == digits
        front = b"object" if own else b"under " + digits.encode()
        lines.append(b"%s %s %s" % (front, each.kind.encode(), escaped(each.data)))
    lines += [encoded_text(f"ref {name} {target.removeprefix('@')}") for name, target in state.references.items()]
    lines += [b"border " + digits.encode() for digits in state.border[:1]]
    return b"".join(line + b"\n" for line in [*lines, *(b"? " + question for question in questions)])


def scene_of(state):
    """The scene of a server with this repository."""
    objects = sorted(state.objects.values(), key=lambda each: each.id)
    return Scene(state.hash_name, "/srv/a.git", references=state.references, border=state.border, objects=objects).to_server_bytes()


# ---- bundles


def bundle_text(random, state):
    """The bundle of a repository, or a text that is near to one."""
    try:
        return bundle_of(state.hash_name, state.references, state.border, list(state.objects.values())).to_bytes()
    except Trouble:
        return b"000dbundle 1\n000ehash sha1\n00010000"


def changed_bundle(random, text, hash_name):
    """A bundle with one change: in its bytes, its lines, or its pack, of which digest and lengths are written anew."""
    if random.random() < 0.6:
        return random.choice((in_bytes, in_lines, in_lines))(random, text, text)
    lines = split_lines(text)
    if Mark.DELIMITER.value not in lines:
        return text
    begin = lines.index(Mark.DELIMITER.value) + 1
    pack = in_pack(random, b"".join(line[4:] for line in lines[begin:-1]), hash_name)
    size = random.choice((65_000, 65_000, 65_000, 64_999, 100))
    return b"".join((*lines[:begin], *(encoded(pack[at : at + size]) for at in range(0, len(pack), size)), lines[-1]))
