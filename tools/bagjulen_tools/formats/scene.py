"""A scene: a repository, a remote, and what the remote's server says."""

from dataclasses import dataclass, field

from bagjulen_tools.formats.plainpack import MalformedPack, Object, read_pack, write_pack
from bagjulen_tools.protocol.lines import (
    MalformedLine,
    Mark,
    encoded,
    encoded_text,
    pieces,
    placed_lines,
    text_line,
    text_of,
)
from bagjulen_tools.trouble import BAD_INPUT, Trouble

LIMIT = 1 << 30
PACK_VERSION = 2


@dataclass
class Scene:
    """What a scene says. Each text line stands here without its word."""

    hash_name: str
    git_dir: str
    work_tree: str | None = None
    lenient: bool = False
    references: dict[str, str] = field(default_factory=dict)
    border: list[str] = field(default_factory=list)
    config: list[str] = field(default_factory=list)
    worktrees: list[tuple[str, str]] = field(default_factory=list)
    objects: list[Object] = field(default_factory=list)
    address: str = ""
    specs: list[str] = field(default_factory=list)
    tags: str = "included"
    extra: list[str] = field(default_factory=list)
    options: list[str] = field(default_factory=list)
    server: list[bytes] = field(default_factory=list)

    def to_bytes(self):
        """The scene as the program reads it."""
        return _joined([*self._repository(), map(text_line, self._remote()), self._server()])

    def to_server_bytes(self):
        """The scene of a server with this repository, which has no remote."""
        return _joined(self._repository())

    def _repository(self):
        return [map(text_line, self._local()), pieces(write_pack(self.objects, PACK_VERSION, self.hash_name))]

    def _local(self):
        yield "scene 1"
        yield f"hash {self.hash_name}"
        yield f"git-dir {self.git_dir}"
        if self.work_tree is not None:
            yield f"workdir {self.work_tree}"
        if self.lenient:
            yield "lenient"
        names = sorted(self.references, key=encoded_text)
        yield from (f"ref {self.references[name]} {name}" for name in names)
        yield from (f"border {digits}" for digits in sorted(self.border))
        yield from (f"config {line}" for line in self.config)
        yield from (f"worktree {branch} {directory}" for branch, directory in self.worktrees)

    def _remote(self):
        yield f"remote {self.address}"
        yield from (f"fetch {spec}" for spec in self.specs)
        yield f"tags {self.tags}"
        yield from (f"extra {spec}" for spec in self.extra)
        yield from (f"option {option}" for option in self.options)

    def _server(self):
        return [piece for said in self.server for piece in pieces(said)]

    def received(self):
        """The objects in the packs that the server sent."""
        try:
            return [each for pack in packs_in(b"".join(self.server)) for each in read_pack(pack, self.hash_name)]
        except MalformedLine as error:
            raise Trouble(BAD_INPUT, f"what the scene's server says is malformed at {error.place}") from None
        except MalformedPack as error:
            raise Trouble(BAD_INPUT, f"what the scene's server says is malformed at {error}") from None


def _joined(parts):
    """The lines of these parts, with delimiters between and a flush at the end."""
    data = encoded(Mark.DELIMITER).join(b"".join(map(encoded, part)) for part in parts) + encoded(Mark.FLUSH)
    if len(data) > LIMIT:
        raise Trouble(BAD_INPUT, f"the scene has {len(data)} bytes, and at most {LIMIT} are read")
    return data


def read_scene(data):
    """The scene that the bytes are."""
    return _read(data, 4)


def read_server_scene(data):
    """The scene of a server that the bytes are. It has no remote."""
    return _read(data, 2)


def _read(data, count):
    """The scene of so many parts that the bytes are."""
    try:
        return _scene(*_parts(data, count))
    except MalformedLine as error:
        raise Trouble(BAD_INPUT, f"no scene: malformed at {error.place}") from None
    except MalformedPack as error:
        raise Trouble(BAD_INPUT, f"no scene: its pack is malformed at {error}") from None
    except ValueError:
        raise Trouble(BAD_INPUT, "no scene: a line has too few words") from None


def _parts(data, count):
    """The lines of so many parts of a scene."""
    parts = [[]]
    for place, line in placed_lines(data):
        if len(parts) > count or parts[-1] is None:
            raise MalformedLine(place)
        if line is Mark.DELIMITER:
            parts.append([])
        elif line is Mark.FLUSH:
            parts.append(None)
        else:
            parts[-1].append(line)
    if len(parts) != count + 1 or parts.pop() is not None or None in parts:
        raise MalformedLine(len(data))
    return parts


def _scene(local, pack, remote=(), server=()):
    local, remote = ([text_of(line).partition(" ")[::2] for line in part] for part in (local, remote))
    if local[:1] != [("scene", "1")] or not _values(local, "hash"):
        raise MalformedLine(0)
    hash_name = _values(local, "hash")[0]
    if hash_name not in ("sha1", "sha256"):
        raise MalformedLine(0)
    return Scene(
        hash_name=hash_name,
        git_dir="".join(_values(local, "git-dir")),
        work_tree=next(iter(_values(local, "workdir")), None),
        lenient=bool(_values(local, "lenient")),
        references=dict(value.split(" ", 1)[::-1] for value in _values(local, "ref")),
        border=_values(local, "border"),
        config=_values(local, "config"),
        worktrees=[tuple(value.split(" ", 1)) for value in _values(local, "worktree")],
        objects=read_pack(b"".join(pack), hash_name),
        address="".join(_values(remote, "remote")),
        specs=_values(remote, "fetch"),
        tags="".join(_values(remote, "tags")),
        extra=_values(remote, "extra"),
        options=_values(remote, "option"),
        server=list(server),
    )


def _values(lines, word):
    return [value for each, value in lines if each == word]


def packs_in(said):
    """The packs in the server's bytes, each put together from its bands."""
    pack = None
    for _, line in placed_lines(said):
        if line == b"packfile\n":
            pack = []
        elif line is Mark.FLUSH and pack is not None:
            yield b"".join(pack)
            pack = None
        elif pack is not None and line[:1] == b"\1":
            pack.append(line[1:])
