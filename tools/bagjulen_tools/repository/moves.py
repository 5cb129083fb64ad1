"""What a report or a bundle moves in a repository, and what stands against it."""

from dataclasses import dataclass

from bagjulen_tools.formats.bundle import followed
from bagjulen_tools.formats.report import LogLine
from bagjulen_tools.trouble import CHANGED, GIT_REFUSED, Trouble


@dataclass(frozen=True)
class Move:
    """A reference that moves: what it was before, None for nothing, what it will be, and its log line, or
    None.

    Values are as in a scene: an id in hex, or `@` and a name.
    """

    name: str
    old: str | None
    new: str
    log: LogLine | None

    def is_symbolic(self):
        """Whether it will stand for a name."""
        return self.new.startswith("@")

    def message(self):
        """What its reflog gets to say, or None where no line is written."""
        return None if self.log is None else self.log.message


class HeadMove(Move):
    """A `HEAD` that leads to an absent name, and comes to stand for something else."""


def moves_of(scene, report, standing):
    """The moves of a report in a repository where these references stand, without those that were made
    already.

    References that the report leaves as they were in the scene stay, wherever they stand.
    """
    logs = {line.name: line for line in report.logs}
    moves = [Move(name, scene.references.get(name), new, logs.get(name)) for name, new in report.references.items()]
    moves = [each for each in moves if each.new not in (each.old, standing.get(each.name))]
    refuse_changed(moves, standing)
    _refuse_nested(moves, standing)
    return moves


def moves_to(references: dict[str, str], standing: dict[str, str], is_forced: bool = False) -> list[Move]:
    """The moves that make these references stand, without those that stand already, where no other has one
    of the names, unless it is forced. A `HEAD` that leads to an absent name is none.
    """
    others = {name: new for name, new in references.items() if standing.get(name) != new}
    moves = [_move_to(name, new, standing, is_forced) for name, new in others.items()]
    _refuse_nested(moves, standing)
    return moves


def _move_to(name: str, new: str, standing: dict[str, str], is_forced: bool) -> Move:
    if name != "HEAD" and not name.startswith("refs/"):
        raise Trouble(GIT_REFUSED, f"{name} is neither HEAD nor below refs/, where Git has its references; nothing was moved")
    old = standing.get(name)
    if old is None:
        return Move(name, None, new, None)
    if name == "HEAD" and followed(standing, name) is None:
        return HeadMove(name, old, new, None)
    if is_forced:
        return Move(name, old, new, None)
    raise Trouble(CHANGED, f"{name} stands otherwise: the bundle has {new}, and {old} stands there; nothing was moved")


def has_begun(moves, standing):
    """Whether one of the moves was made, that of a `HEAD` that led to an absent name aside."""
    return any(standing.get(each.name) == each.new for each in moves if not isinstance(each, HeadMove))


def refuse_changed(moves, standing):
    """Refuses moves of which one doesn't find the reference as it was before."""
    for each in moves:
        if standing.get(each.name) != each.old:
            raise _changed(each.name, each.old, standing.get(each.name))


def refuse_changed_border(old, new, standing):
    """Refuses to move the border from the old ids to the new ones where it isn't as it was before."""
    for digits in sorted(set(old) ^ set(standing)):
        if standing != new:
            raise _changed(f"the border at {digits}", *("it" if digits in ids else None for ids in (old, standing)))


def _changed(what, expected, found):
    expected, found = ("nothing" if each is None else each for each in (expected, found))
    return Trouble(CHANGED, f"{what} was changed meanwhile: before was {expected}, and {found} stands there; "
                            "nothing was moved")


def _refuse_nested(moves, standing):
    """Refuses moves after which a reference would stand below another one, which Git's files can't hold."""
    made = {each.name for each in moves if each.old is None}
    names = made | standing.keys()
    for name in sorted(names):
        above = name
        while "/" in above:
            above = above.rpartition("/")[0]
            if above in names and not made.isdisjoint((above, name)):
                raise Trouble(GIT_REFUSED, f"Git can't hold both {above} and {name}; nothing was moved")
