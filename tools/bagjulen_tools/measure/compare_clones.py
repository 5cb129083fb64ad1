"""Clones real repositories by `git bagjulen` and by Git, and compares what comes.

Each REPOSITORY is taken as a mirror, and then with histories of one commit; of the first N (--steps N) all of the histories
is fetched behind it, in a second step. Compared are statuses, references, border, the ids of all objects, and what
`git fsck` says. A repository that Git refuses has to be refused.
"""

import os
import tempfile

from bagjulen_tools.paths import TOP
from bagjulen_tools.repository.git import Repository, run_git, why
from bagjulen_tools.trouble import DIFFERENT, DONE, ToolParser

MIRROR = [["clone", "-q", "--mirror", "{address}", "{place}"]]
STEPS = [["clone", "-q", "--bare", "--depth", "1", "--no-single-branch", "{address}", "{place}"],
         ["-C", "{place}", "fetch", "-q", "--unshallow", "{address}", "+refs/heads/*:refs/heads/*"]]


def words(given):
    """What the words say."""
    parser = ToolParser(__doc__, "something came otherwise")
    parser.add_argument("repositories", metavar="REPOSITORY", nargs="+", help="a repository on this machine")
    parser.add_argument("--steps", metavar="N", type=int, default=10, help="how many are taken in two steps (10)")
    return parser.parse_args(given)


def state(place):
    """What stands in a repository."""
    if not os.path.exists(place):
        return {}
    repository = Repository(place)
    status, out, messages = run_git(["-C", place, "fsck", "--full"])
    faults = sorted(line for line in (out.decode(errors="replace") + messages).splitlines()
                    if not line.startswith(("dangling", "notice", "Checking")))
    return {"references": repository.references(), "border": repository.border(), "objects": repository.stored_ids(),
            "fsck": (status, faults)}


def taken(address, place, steps, front):
    """How the steps end, the first that doesn't end well last, and what stands after each."""
    for step in steps:
        filled = [word.format(address=address, place=place) for word in step]
        at = filled.index("clone") if "clone" in filled else filled.index("fetch")
        status, _, messages = run_git([*filled[:at], *front, *filled[at:]])
        yield (0 if status == 0 else 1), state(place), why(messages) if status else ""
        if status != 0:
            return


def differences(ours, theirs):
    """What differs between the steps of both, in words."""
    for number, (our, their) in enumerate(zip(ours, theirs), 1):
        if our[0] != their[0]:
            yield f"step {number}: Git has {their[2] or 'done it'}, the engine {our[2] or 'done it'}"
        for what in sorted(our[1].keys() | their[1].keys()):
            mine, real = our[1].get(what), their[1].get(what)
            if mine != real and our[0] == their[0] == 0:
                yield f"step {number}, {what}: {told(real, mine)}"


def told(real, mine):
    """How two values differ."""
    if isinstance(real, dict):
        names = sorted(name for name in real.keys() | mine.keys() if real.get(name) != mine.get(name))
        return ", ".join(f"{name} is {real.get(name)} by Git, and {mine.get(name)}" for name in names[:5])
    if isinstance(real, (set, list)):
        return f"by Git alone {sorted(set(real) - set(mine))[:5]}, by the engine alone {sorted(set(mine) - set(real))[:5]}"
    return f"by Git {real}, and {mine}"


def main(arguments: list[str]) -> int:
    asked = words(arguments)
    os.environ["PATH"] = os.path.join(TOP, "tools") + os.pathsep + os.environ["PATH"]
    others = 0
    for number, path in enumerate(asked.repositories):
        for way, steps in (("mirror", MIRROR), ("two steps", STEPS) if number < asked.steps else ("depth 1", STEPS[:1])):
            with tempfile.TemporaryDirectory() as folder:
                address = f"file://{os.path.abspath(path)}"
                ours = list(taken(address, os.path.join(folder, "ours.git"), steps, ["bagjulen"]))
                theirs = list(taken(address, os.path.join(folder, "theirs.git"), steps, []))
                found = list(differences(ours, theirs))
            about = f"{len(theirs[-1][1].get('objects', ()))} objects" if theirs[-1][0] == 0 else f"refused ({theirs[-1][2]})"
            print(f"{path}, {way}: {about}, {'alike' if not found else 'otherwise'}", *found, sep="\n    ", flush=True)
            others += bool(found)
    print(f"{len(asked.repositories)} repositories, {others} times otherwise")
    return DIFFERENT if others else DONE
