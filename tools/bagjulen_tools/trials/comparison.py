"""One pair, fetched by real Git and by the engine, and where the two differ."""

from dataclasses import dataclass

from bagjulen_tools.formats.report import Report
from bagjulen_tools.formats.scene import read_scene
from bagjulen_tools.protocol.connection import local
from bagjulen_tools.protocol.upload_pack import Server
from bagjulen_tools.remote.client import scene_of
from bagjulen_tools.remote.conversation import converse
from bagjulen_tools.repository.git import Repository
from bagjulen_tools.trials.pairs import Pair
from bagjulen_tools.trials.real_fetch import RealFetch, fetch, shortened
from bagjulen_tools.trials.reasons import NOT_SENT, reason_for

NOTHING = "nothing"
REFUSAL, VERDICT, REFERENCE, BORDER = "refusal", "verdict", "reference", "border"


@dataclass(frozen=True)
class Difference:
    """A place where real Git and the engine differ.

    The key of a verdict is its source and destination as Git tells them, that of a reference its name, that of a
    border commit its id, and that of a refusal is empty.
    """

    kind: str
    key: str | tuple[str, str]
    real: str
    engine: str

    def is_of_border(self):
        return self.kind == BORDER

    def __str__(self):
        key = self.key if isinstance(self.key, str) else " -> ".join(self.key)
        return f"{f'{self.kind} {key}'.strip()}: Git has {self.real}, the engine {self.engine}"


@dataclass
class Fetched:
    """A pair, and both fetches of it.

    `refusal` tells why the server refused the engine, if it did. `theirs` are the server's references, and `before` the
    client's as they were.
    """

    pair: Pair
    scene: bytes
    refusal: str | None
    theirs: dict[str, str]
    before: dict[str, str]
    border_before: list[str]
    real: RealFetch
    report: Report

    def differences(self):
        """Each difference with the title of its reason, or None where it has none."""
        return [(each, reason_for(each, self)) for each in self._all()]

    def _all(self):
        if (self.real.refused is None) != (self.report.refused is None):
            yield Difference(REFUSAL, "", self.real.refused or NOTHING, self.report.refused or NOTHING)
        yield from _of_maps(VERDICT, self.real.verdicts, self._engine_verdicts())
        yield from _of_maps(REFERENCE, self.real.references, self._engine_references())
        yield from _of_maps(BORDER, _as_map(self.real.border), _as_map(self._engine_border()))

    def _engine_verdicts(self):
        """The engine's verdicts of mappings with a destination, but for tags that the server didn't send."""
        return {key_of(each): each.mode for each in self.report.mappings
                if each.destination is not None and each.mode != NOT_SENT}

    def _engine_references(self) -> dict[str, str]:
        """What the engine leaves, which after a refusal is what was there: of its report nothing more is read."""
        if self.report.refused is not None:
            return self.before
        head = {} if self.pair.has_head else {"HEAD": self.before["HEAD"]}
        return self.report.references | head

    def _engine_border(self) -> list[str]:
        return self.report.border if self.report.refused is None else self.border_before

    def mapping_of(self, difference):
        """The engine's mapping that a difference is about, or None."""
        return next((each for each in self.report.mappings
                     if difference.key in (key_of(each), each.destination)), None)

    def real_mode(self, mapping):
        """What Git tells of a mapping, or None."""
        return self.real.verdicts.get(key_of(mapping))

    def tags(self):
        """The ids of the annotated tags."""
        return {each.id for each in self.pair.history.objects if each.kind == "tag"}

    def stored_before(self):
        """The ids of the objects that the client had."""
        return {each.id for each in read_scene(self.scene).objects}

    def id_of(self, mapping):
        """The id that a mapping's source stands for at the server, or None where it has none."""
        digits = self.theirs.get(mapping.source)
        return self.theirs.get(digits[1:]) if digits is not None and digits.startswith("@") else digits


def key_of(mapping):
    """The source and the destination of a mapping as Git tells them."""
    return shortened(mapping.source), shortened(mapping.destination or "")


def _as_map(ids):
    return {digits: "it" for digits in ids}


def _of_maps(kind, real, engine):
    """The differences of two maps, by the keys' order."""
    for key in sorted(real.keys() | engine.keys()):
        if real.get(key) != engine.get(key):
            yield Difference(kind, key, real.get(key, NOTHING), engine.get(key, NOTHING))


def scene_for(pair):
    """The scene of a pair without what the server says."""
    scene = scene_of(Repository(pair.client), without_head=not pair.has_head)
    scene.address, scene.specs, scene.tags, scene.options = pair.server, pair.specs, pair.tags, pair.options
    return scene


def compare(pair, engine):
    """Fetches a pair by the engine, which changes nothing in it, and then by real Git."""
    scene = scene_for(pair)
    server = Server(local(pair.server))
    report = converse(scene, server, engine)
    server.close()
    client, theirs = Repository(pair.client), Repository(pair.server).references()
    before, border = client.references(), client.border()
    return Fetched(pair, scene.to_bytes(), server.refusal, theirs, before, border, fetch(client, pair), report)
