"""References that can't be written: locked, or in the way of another one. Each refuses itself, and the others move."""

import os
from collections.abc import Iterator
from dataclasses import replace

from bagjulen_tools.formats.report import Report
from bagjulen_tools.formats.scene import Scene
from bagjulen_tools.remote.messages import RefUpdate
from bagjulen_tools.repository.apply import apply
from bagjulen_tools.repository.git import LOCK, Repository, run_git
from bagjulen_tools.repository.locks import clear


def written(repository: Repository, scene: Scene, report: Report, told: list[RefUpdate],
            is_atomic: bool = False) -> list[RefUpdate]:
    """Writes a report, and answers what is told of it, with Git's reason at each reference that can't be written.

    One that is atomic is refused as a whole there.
    """
    if leaves_all(scene, report):
        return told
    clear(repository)
    refused = [] if is_atomic else list(unwritable(repository, scene, report))
    apply(repository, scene, without(scene, report, refused))
    troubles = {name: _refusal(repository, scene, report, name) for name in refused}
    return [replace(each, trouble=troubles.get(each.destination or "")) for each in told]


def leaves_all(scene: Scene, report: Report) -> bool:
    """Whether a report leaves all as it was in the scene."""
    stood = {each.id for each in scene.objects}
    return report.references == scene.references and sorted(report.border) == sorted(scene.border) and stood.issuperset(
        report.ids)


def unwritable(repository: Repository, scene: Scene, report: Report) -> Iterator[str]:
    """The references of a report that Git wouldn't write one after another: another process holds the lock, or one
    stands that Git's files can't hold beside it.
    """
    names = set(scene.references)
    folders = {above for name in names for above in _above(name)}
    for each in report.mappings:
        name = each.destination
        if name is None or report.references.get(name) == scene.references.get(name):
            continue
        is_nested = name not in names and (name in folders or not names.isdisjoint(_above(name)))
        if is_nested or os.path.lexists(repository.place(name) + LOCK):
            yield name
        else:
            names.add(name)
            folders.update(_above(name))


def _above(name: str) -> list[str]:
    """The names that a name stands below."""
    parts = name.split("/")
    return ["/".join(parts[:count]) for count in range(1, len(parts))]


def without(scene: Scene, report: Report, names: list[str]) -> Report:
    """The report that leaves these references as they were in the scene."""
    if not names:
        return report
    others = {name: new for name, new in report.references.items() if name not in names}
    kept = {name: scene.references[name] for name in names if name in scene.references}
    return replace(report, references=others | kept, logs=[line for line in report.logs if line.name not in names])


def _refusal(repository: Repository, scene: Scene, report: Report, name: str) -> str | None:
    """What Git says when it is to write a reference alone, or None where it does."""
    old, new = scene.references.get(name, ""), report.references[name]
    message = next((line.message for line in report.logs if line.name == name), None)
    words = ["--create-reflog", "-m", message] if message else []
    line = f"update {name} {new} {old}\n" if old and not old.startswith("@") else f"create {name} {new}\n"
    status, _, messages = run_git(["-C", repository.path, "update-ref", "--no-deref", *words, "--stdin"],
                                  line.encode("utf-8", "surrogateescape"))
    return None if status == 0 else "error: " + messages.rstrip("\n").removeprefix("fatal: ")
