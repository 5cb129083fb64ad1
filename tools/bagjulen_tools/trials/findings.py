"""What a check and a mirror tell of a repository, by docs/SCENES.md."""

from bagjulen_tools.formats.grammar import MalformedObject
from bagjulen_tools.formats.scene import read_server_scene
from bagjulen_tools.protocol.lines import encoded_text
from bagjulen_tools.trials.plain_server import State
from bagjulen_tools.trouble import Trouble

WORKERS = range(1, 9)


def findings(state):
    """The text of what a check finds, and the status."""
    lines = [f"missing {here} {there}" for here, there in state.missing()]
    for name in state.names():
        cause = cause_of(state, name)
        lines += [] if cause is None else [f"broken {name} {cause}"]
    direct = [target for target in state.references.values() if target[0] != "@"]
    lines += [f"unreached {digits}" for digits in sorted(state.objects.keys() - state.reached(direct, state.border))]
    return _text([*lines, f"found {len(lines)}" if lines else "ok"]), int(bool(lines))


def cause_of(state, name):
    """Why a reference is broken, or None. Only a symbolic one is followed along tags."""
    target, end = state.references[name], state.end_of(name)
    if end is None or target[0] != "@":
        return None if end is None or end in state.objects else f"MissingObject {end}"
    if end in ("Cycle", "Depth"):
        return end
    last = state.tags_from(end)[-1]
    return None if last in state.objects else f"MissingObject {last}"


def mirrored(state, workers):
    """The text of a mirror's report by so many workers, and the status."""
    if workers not in WORKERS:
        return _text([f"refused Workers {workers}"]), 1
    trouble = state.trouble()
    if trouble is not None:
        return _text([" ".join(["refused", trouble[0], *trouble[1]])]), 1
    born = {name: end for name, end, _ in state.offered() if end is not None and name != "HEAD"}
    ids = sorted(state.reached(born.values(), ()))
    return _text([*(f"ref {born[name]} {name}" for name in born), *(f"id {digits}" for digits in ids), "ok"]), 0


def state_in(scene):
    """The repository that the scene of a server has, its ids in lower case, or None where it can't be read."""
    try:
        read = read_server_scene(scene)
        if "" in read.references.values():
            return None
        references = {name: target if target.startswith("@") else target.lower() for name, target in read.references.items()}
        border = sorted({digits.lower() for digits in read.border})
        return State(read.hash_name, {each.id: each for each in read.objects}, references, border)
    except (MalformedObject, Trouble):
        return None


def _text(lines):
    return b"".join(encoded_text(line) + b"\n" for line in lines)
