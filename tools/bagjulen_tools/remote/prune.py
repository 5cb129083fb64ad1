"""What a fetch prunes: references that its refspecs lead to, and whose sources the remote hasn't any more."""

from collections.abc import Iterable, Mapping

from bagjulen_tools.formats.grammar import DIGITS
from bagjulen_tools.remote.refspecs import PLACES, full_destination, middle, sides
from bagjulen_tools.repository.git import Repository, run_git, why


def stale(specs: Iterable[str], listed: Mapping[str, str | None], references: Mapping[str, str]) -> dict[str, str]:
    """The references that the refspecs lead to and no listed name, with their ids. A symbolic one is none."""
    given = list(specs)
    excluded = [spec[1:] for spec in given if spec.startswith("^")]
    pairs = [sides(spec) for spec in given if not spec.startswith("^")]
    found = {}
    for name, value in sorted(references.items()):
        sources = [each for source, destination in pairs for each in _sources(source, destination, name)]
        if not sources or value.startswith("@") or not name.startswith("refs/"):
            continue
        if any(middle(pattern, source) is not None for pattern in excluded for source in sources):
            continue
        if not any(place.format(source) in listed for source in sources for place in PLACES):
            found[name] = value
    return found


def _sources(source: str, destination: str | None, name: str) -> list[str]:
    """What a refspec brings to a name: one source, or none. An id isn't a name that could be gone."""
    if destination is None or len(source) in DIGITS.values() and "/" not in source:
        return []
    taken = middle(full_destination(destination), name) if "*" in destination else None
    if "*" not in destination:
        return [source] if full_destination(destination) == name else []
    return [] if taken is None else [source.replace("*", taken)]


def delete(repository: Repository, found: Mapping[str, str]) -> str | None:
    """Deletes references that stand at these ids, in one transaction. Answers why Git refused it, or None."""
    if not found:
        return None
    lines = "".join(f"delete {name} {digits}\n" for name, digits in found.items())
    words = ["-C", repository.path, "update-ref", "--no-deref", "-m", "fetch: prune", "--stdin"]
    status, _, messages = run_git(words, lines.encode("utf-8", "surrogateescape"))
    return why(messages).partition(": ")[2] if status else None
