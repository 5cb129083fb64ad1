"""What a report or a bundle tells, written into a real repository.

The objects stand before a reference moves. Then all that changes is locked, and what is found under the
locks is compared with what was before. What commits the changes is a process that outlives the tool: one
that is killed leaves border and references all as they were, or all changed.
"""

from collections.abc import Callable, Sequence
from contextlib import ExitStack, closing

from bagjulen_tools.formats.bundle import Bundle
from bagjulen_tools.formats.gitpack import store
from bagjulen_tools.repository.detached_process import outlive
from bagjulen_tools.repository.git import Repository
from bagjulen_tools.repository.locks import clear
from bagjulen_tools.repository.moves import (
    HeadMove,
    Move,
    has_begun,
    moves_of,
    moves_to,
    refuse_changed,
    refuse_changed_border,
)
from bagjulen_tools.repository.transaction import BorderChange, changes_of
from bagjulen_tools.signals import held_signals
from bagjulen_tools.trouble import BAD_INPUT, CHANGED, GIT_REFUSED, Trouble

# The committer of an engine's reflog lines.
SCENES_COMMITTER = {"GIT_COMMITTER_NAME": "fetch", "GIT_COMMITTER_EMAIL": "fetch@localhost",
                    "GIT_COMMITTER_DATE": "@0 +0000"}


def apply(repository, scene, report, committer=None, reached=lambda step: None):
    """Writes what a report tells of a scene, and answers how many objects were stored and how many
    references moved.

    `committer` has the environment that says who moves references, none for the caller's own. `reached` is
    told each step that writes, before and after it.
    """
    clear(repository)
    moves = moves_of(scene, report, repository.references())
    border, standing = (sorted(scene.border), sorted(report.border)), repository.border()
    border_moves = border[1] not in (border[0], standing)
    if border_moves:
        refuse_changed_border(*border, standing)
    objects = lacking(repository, scene, report)
    _write(repository, objects, border if border_moves else None, moves, committer or {}, reached)
    return len(objects), len(moves)


def apply_bundle(repository: Repository, bundle: Bundle, reached: Callable[[str], None] = lambda step: None,
                 is_forced: bool = False) -> tuple[int, int]:
    """Writes a bundle, and answers how many objects were stored and how many references moved. `reached` as
    for `apply`.

    Where it is forced, references that stand otherwise move, but not what a work tree has checked out.
    """
    clear(repository)
    standing = repository.references()
    moves = moves_to(bundle.references, standing, is_forced)
    _refuse_checked_out(repository, moves)
    border = _both_borders(repository, bundle)
    stored = repository.stored_ids()
    objects = [each for each in bundle.objects if each.id not in stored]
    _write(repository, objects, border, moves, {}, reached)
    return len(objects), len(moves)


def _refuse_checked_out(repository: Repository, moves: Sequence[Move]) -> None:
    """Refuses moves of a branch that a work tree has checked out, or of the `HEAD` of one."""
    others = {each.name for each in moves if each.old is not None and not isinstance(each, HeadMove)}
    if not others:
        return
    places = dict(repository.worktrees())
    if repository.work_tree() is not None:
        places["HEAD"] = repository.path
    for name in sorted(others & places.keys()):
        raise Trouble(GIT_REFUSED, f"{name} is checked out at {places[name]}; nothing was moved")


def _both_borders(repository, bundle):
    """The border as it stands and with that of the bundle, or None where that stands already. Refused where
    one cuts off a history that the other side has.
    """
    standing = set(repository.border())
    for digits in sorted({each.id for each in bundle.objects} & standing - set(bundle.border)):
        raise Trouble(CHANGED, f"the border at {digits} cuts off what the bundle has; nothing was moved")
    more = set(bundle.border) - standing
    if not more:
        return None
    for digits in sorted(more & repository.reached_commits()):
        raise Trouble(CHANGED, f"the bundle's border at {digits} cuts off what references have; nothing was moved")
    return sorted(standing), sorted(standing | more)


def _write(repository, objects, border, moves, committer, reached):
    """Stores objects, and then moves the border, where it is one of old and new ids, and references."""
    with ExitStack() as stack:
        with held_signals():
            first = [] if border is None else [BorderChange(repository, *border)]
            changes = [stack.enter_context(closing(each)) for each in first]
        _step(reached, "objects", lambda: store(repository, objects, changes[0].file if changes else None))
        with held_signals():
            for each in changes_of(repository, moves, committer):
                changes.append(stack.enter_context(closing(each)))
        try:
            for each in changes:
                _step(reached, f"prepare {each.name}", each.prepare)
        finally:
            refuse_changed(moves, repository.references())
        outlive(lambda: _commit(changes, lambda: has_begun(moves, repository.references()), reached))


def _step(reached, name, work):
    reached(f"before {name}")
    work()
    reached(f"after {name}")


def _commit(changes, has_begun, reached):
    """Commits changes. Where one is refused, those before it are undone, if all of them can be and no
    reference has moved: Git moves those of a transaction one after the other, and may be stopped between.
    """
    committed = []
    try:
        for each in changes:
            _step(reached, f"commit {each.name}", each.commit)
            committed.append(each)
    except (Trouble, OSError):
        if all(each.undo for each in committed) and not has_begun():
            for each in committed:
                each.undo()
        raise
    finally:
        for each in changes:
            each.close()


def lacking(repository, scene, report):
    """The objects of a report that the repository lacks."""
    known = {each.id: each for each in [*scene.received(), *scene.objects]}
    stored = repository.stored_ids()
    ids = [digits for digits in report.ids if digits not in stored]
    strangers = [digits for digits in ids if digits not in known]
    if strangers:
        raise Trouble(BAD_INPUT, f"the scene has no object {strangers[0]}, which the report tells")
    return [known[digits] for digits in ids]
