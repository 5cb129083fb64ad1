"""`git bagjulen fetch`: one fetch into the repository that stands here, by the engine, told as `git fetch` tells it."""

import os
import sys
from dataclasses import dataclass, field, replace

from bagjulen_tools.engine import Engine
from bagjulen_tools.formats.ancestry import links_of, reached
from bagjulen_tools.formats.refusals import refusal_words
from bagjulen_tools.formats.report import Mapping, Report
from bagjulen_tools.formats.scene import Scene
from bagjulen_tools.protocol.connection import connect
from bagjulen_tools.protocol.lines import placed_lines, text_of
from bagjulen_tools.protocol.upload_pack import Server
from bagjulen_tools.remote import messages
from bagjulen_tools.remote.client import remote_of, scene_of
from bagjulen_tools.remote.conversation import converse
from bagjulen_tools.remote.messages import IGNORED, MERGE, NOT_FOR_MERGE, RefUpdate
from bagjulen_tools.remote.prune import delete, stale
from bagjulen_tools.remote.refspecs import brings, forced, is_from, sides, tracking
from bagjulen_tools.remote.sources import check_sources
from bagjulen_tools.remote.unwritable import written
from bagjulen_tools.repository.git import Repository, truth
from bagjulen_tools.trouble import BAD_WORDS, DIFFERENT, DONE, GIT_REFUSED, Trouble, write_file

TAG_SPEC = "refs/tags/*:refs/tags/*"
# The depth that Git takes for all of a history.
INFINITE = 2147483647


@dataclass
class FetchOptions:
    """How a fetch is made: what is said while it is, and what is left undone. A dry one is made whole, and not written.

    `appends` keeps what FETCH_HEAD says, `is_atomic` moves all references or none, `family` is `4`, `6` or None.
    """

    verbosity: int = 0
    has_progress: bool = False
    is_dry: bool = False
    updates_shallow: bool = False
    writes_fetch_head: bool = True
    appends: bool = False
    is_atomic: bool = False
    server_options: list[str] = field(default_factory=list)
    upload_pack: str | None = None
    family: str | None = None


@dataclass
class FetchPlan:
    """What is fetched: from where, by which refspecs, tags and options, and what of it is for a merge.

    `given` are the refspecs whose mappings are all for a merge, `merges` the names that are. `extra` refspecs lead where
    FETCH_HEAD isn't told of. The sources of `optional` ones needn't be there.
    """

    address: str
    name: str | None
    specs: list[str]
    given: list[str] = field(default_factory=list)
    extra: list[str] = field(default_factory=list)
    merges: list[str] = field(default_factory=list)
    tags: str = "included"
    options: list[str] = field(default_factory=list)
    optional: list[str] = field(default_factory=list)
    prunes: bool = False
    pruned: dict[str, str] = field(default_factory=dict)
    headless: list[str] = field(default_factory=list)

    def take_listing(self, scene: Scene) -> None:
        """Refuses the fetch once the references are listed, where a source isn't among them.

        What is pruned is no part of the scene from there on.
        """
        if len(scene.server) == 2:
            specs = [spec for spec in self.specs if spec not in self.optional]
            check_sources(specs, listed(scene), scene.hash_name)
            if self.prunes:
                self.pruned |= stale(self.specs, listed(scene), scene.references)
            for name in self.pruned:
                scene.references.pop(name, None)

    def is_for(self, mapping):
        """What a mapping is for."""
        names = mapping.source, mapping.destination
        if any(is_from(spec, *names) for spec in self.given) or mapping.source in self.merges:
            return MERGE
        if any(is_from(spec, *names) for spec in self.specs):
            return NOT_FOR_MERGE
        return IGNORED if any(is_from(spec, *names) for spec in self.extra) else NOT_FOR_MERGE

    def is_followed(self, mapping):
        """Whether a mapping is of a tag that comes along, and that no refspec asks for."""
        names = mapping.source, mapping.destination
        return self.tags == "included" and not any(is_from(spec, *names) for spec in [*self.specs, *self.extra])


def plan_of(repository: Repository, word: str | None, specs: list[str], is_forced: bool,
            refmap: list[str] | None = None) -> FetchPlan:
    """What the words `[<repository> [<refspec>..]]` of a fetch say, with the configuration.

    What the refspecs bring goes where those of `refmap` lead it, too, or else where the configured ones do.
    """
    branch = repository.head()["HEAD"].removeprefix("@refs/heads/")
    entries = list(repository.entries())
    last = dict(entries)
    own = last.get(f"branch.{branch}.remote")
    remotes = (key.split(".", 1)[1].rpartition(".")[0] for key, _ in entries if key.startswith("remote."))
    names = set(filter(None, remotes))
    word = word or own or (next(iter(names)) if len(names) == 1 else "origin")
    name = word if word in names else None
    configured, tags = remote_of(repository, word) if name else ([], "included")
    merges = [value for key, value in entries if key == f"branch.{branch}.merge" and own == word and value]
    address = next((value for key, value in entries if key == f"remote.{word}.url"), None) or ""
    if not address or any(key.endswith(".insteadof") for key, _ in entries):
        address = repository.text("ls-remote", "--get-url", "--", word)
    if specs:
        led = configured if refmap is None else [each for each in refmap if each]
        extra = [each for spec in specs for each in tracking(spec, led)]
        found = FetchPlan(address, name, specs, specs, extra, tags=tags)
    elif configured or merges:
        lone = [merge for merge in merges if not any(brings(spec, merge) for spec in configured)]
        found = FetchPlan(address, name, configured + lone, lone, merges=merges, tags=tags, optional=lone)
        if not merges and configured and "*" not in configured[0]:
            found.given = configured[:1]
    else:
        found = FetchPlan(address, name, ["HEAD"], ["HEAD"], tags=tags)
    found.prunes = truth(last, f"remote.{word}.prune", "fetch.prune") or False
    if is_forced:
        for each in (found.specs, found.given, found.extra, found.optional):
            each[:] = map(forced, each)
    return found


def choose_tags(plan, asked, is_forced):
    """Has a plan bring the tags that words ask for, or else those that the configuration does.

    As Git does, tags come along only where some refspec has a destination, and a word that forces forces tags too.
    """
    plan.tags = asked or plan.tags
    if plan.tags == "included" and all(sides(spec)[1] is None for spec in plan.specs):
        plan.tags = "none"
    if plan.tags == "all" and is_forced:
        plan.tags, plan.specs = "none", [*plan.specs, forced(TAG_SPEC)]


def empty_fetch_head(repository: Repository) -> None:
    """Empties FETCH_HEAD, as Git does before it asks anything of a server."""
    write_file(os.path.join(repository.git_dir, "FETCH_HEAD"), b"")


def fetch(repository: Repository, plan: FetchPlan, options: FetchOptions, engine: Engine, action: str) -> int:
    """Fetches, tells of it, and answers the status."""
    engine.start()
    entries = list(repository.entries())
    program = options.upload_pack or dict(entries).get(f"remote.{plan.name}.uploadpack")
    if options.writes_fetch_head and not options.is_dry and not options.appends:
        empty_fetch_head(repository)
    connection = connect(plan.address, plan.name or "", entries, program, options.family)
    server = Server(connection, messages.Progress(), options.has_progress, options.server_options)
    try:
        return fetch_from(server, repository, plan, options, engine, action)
    finally:
        server.close()


def fetch_from(server: Server, repository: Repository, plan: FetchPlan, options: FetchOptions, engine: Engine,
               action: str) -> int:
    """The same from a server that is connected."""
    scene, report = asked_of(server, repository, plan, options, engine, action)
    told = [] if report is None else told_of(scene, report, plan)
    plan.headless = [each.source for each in told if each.destination is None]
    if options.is_atomic and any(each.is_rejected() for each in told):
        tell(repository, scene, told, plan, replace(options, writes_fetch_head=False))
        return DIFFERENT
    why_kept = None if options.is_dry else delete(repository, plan.pruned)
    if why_kept is not None:
        print(f"error: {why_kept}", file=sys.stderr)
    if report is not None and not options.is_dry:
        told = written(repository, scene, report, told, options.is_atomic)
    if report is not None and plan.tags == "included":
        specs = [f"{name}:{name}" for name in tags_left(scene, report)]
        tags = FetchPlan(plan.address, plan.name, specs, tags="none")
        told = with_tags(told, plan, tags_told(server, repository, tags, options, engine, action) if specs else [])
    tell(repository, scene, told, plan, options)
    return DIFFERENT if why_kept or any(each.is_rejected() for each in told) else DONE


def asked_of(server: Server, repository: Repository, plan: FetchPlan, options: FetchOptions, engine: Engine,
             action: str) -> tuple[Scene, Report | None]:
    """The scene of a fetch with all that the server said, and its report, or None where there is nothing to bring."""
    scene = scene_of(repository)
    scene.address, scene.specs, scene.extra, scene.tags = plan.address, plan.specs, plan.extra, plan.tags
    scene.options = [*plan.options, f"action {' '.join(action.split())}"]
    return scene, conversed(scene, server, engine, plan, options.updates_shallow)


def tags_left(scene: Scene, report: Report) -> list[str]:
    """The tags that would come along as the objects that they lead to are there, and that the fetch didn't bring."""
    stored, found = set(report.ids), {}
    excluded = [spec[1:] for spec in scene.specs if spec.startswith("^")]
    for _, line in placed_lines(scene.server[1]):
        if isinstance(line, bytes):
            digits, name, *more = text_of(line).split(" ")
            found[name] = next((mark.removeprefix("peeled:") for mark in more if mark.startswith("peeled:")), digits)
    return [name for name, digits in found.items() if name.startswith("refs/tags/") and digits in stored
            and name not in report.references and not any(brings(each, name) for each in excluded)]


def tags_told(server: Server, repository: Repository, plan: FetchPlan, options: FetchOptions, engine: Engine,
              action: str) -> list[RefUpdate]:
    """What is told of a second fetch, of tags alone."""
    scene, report = asked_of(server, repository, plan, options, engine, action)
    told = [] if report is None else told_of(scene, report, plan)
    return told if report is None or options.is_dry else written(repository, scene, report, told, options.is_atomic)


def with_tags(told: list[RefUpdate], plan: FetchPlan, tags: list[RefUpdate]) -> list[RefUpdate]:
    """What is told of both fetches: tags that come along last, by their names."""
    followed = [each for each in told if tags and plan.is_followed(each)]
    return [*(each for each in told if each not in followed), *sorted([*followed, *tags], key=lambda each: each.source)]


def conversed(scene: Scene, server: Server, engine: Engine, plan: FetchPlan,
              updates_shallow: bool) -> Report | None:
    """The report of a fetch, or None where there is nothing to bring, or all of it is left out.

    Without `updates_shallow` and without a depth, references are left out that need a border of the server's own.
    """
    asks_depth = any(option.split()[0] in ("depth", "deepen", "since", "not") for option in scene.options)
    while True:
        report = converse(scene, server, engine, lambda each: check_answered(each, server, plan))
        needed = [] if updates_shallow or asks_depth or report.refused else mappings_of_new_border(scene, report)
        if not needed:
            break
        for each in needed:
            name = each.destination or each.source
            print(f"warning: rejected {name} because shallow roots are not allowed to be updated", file=sys.stderr)
        scene.specs = [*scene.specs, *(f"^{each.source}" for each in needed)]
    if report.refused is None:
        return report
    if report.refused.startswith("NoMapping"):
        return None
    raise Trouble(GIT_REFUSED, refusal_words(report.refused))


def check_answered(scene: Scene, server: Server, plan: FetchPlan) -> None:
    """Refuses what the server refused, or a source that it hasn't, as soon as it has answered."""
    if server.refusal is not None:
        raise Trouble(GIT_REFUSED, server.refusal)
    plan.take_listing(scene)


def listed(scene: Scene) -> dict[str, str | None]:
    """The references that the server listed: the id of each, or None where it is unborn."""
    lines = [text_of(line).split(" ") for _, line in placed_lines(scene.server[1]) if isinstance(line, bytes)]
    return {name: None if digits == "unborn" else digits for digits, name, *_ in lines}


def mappings_of_new_border(scene: Scene, report: Report) -> list[Mapping]:
    """The mappings whose history needs commits in the border that aren't there."""
    lines = [line for _, line in placed_lines(b"".join(scene.server[2:])) if isinstance(line, bytes)]
    new = {text_of(line).split(" ")[1] for line in lines if line.startswith(b"shallow ")} - set(scene.border)
    if not new:
        return []
    links, ids = links_of([*scene.objects, *scene.received()]), listed(scene)
    return [each for each in report.mappings if not new.isdisjoint(reached(links, [ids.get(each.source)]))]


def told_of(scene, report, plan):
    """The mappings of a report that Git would tell of, with their ids."""
    ids = listed(scene)
    told = []
    for each in report.mappings:
        new = ids.get(each.source, each.source)
        passed = plan.is_followed(each) and each.mode != "new"
        if new is not None and each.mode != messages.NO_TAG and not passed:
            old = peeled(scene.references, each.destination)
            told.append(RefUpdate(each.source, each.destination, old, new, each.mode, plan.is_for(each)))
    return told


def peeled(references, name):
    """The id that a name of a reference leads to, or None."""
    for _ in range(5):
        found = references.get(name)
        if found is None or not found.startswith("@"):
            return found
        name = found[1:]
    return None


def tell(repository: Repository, scene: Scene, told: list[RefUpdate], plan: FetchPlan, options: FetchOptions) -> None:
    """Writes FETCH_HEAD, and the lines about a fetch."""
    if not options.is_dry and options.writes_fetch_head:
        for_head = sorted((each for each in told if each.is_for != IGNORED), key=lambda each: each.is_for)
        text = "".join(messages.fetch_head_line(each, plan.address) for each in for_head)
        with open(os.path.join(repository.git_dir, "FETCH_HEAD"), "ab") as file:
            file.write(text.encode("utf-8", "surrogateescape"))
    if options.verbosity >= 0:
        ids = sorted({digits for each in told for digits in (each.old, each.new) if digits} | {*plan.pruned.values()})
        shorts = repository.abbreviated(ids)
        pruned = messages.pruned_lines(plan.pruned, scene.references, shorts, options.is_dry)
        lines = messages.lines(told, plan.address, shorts, options.verbosity > 0, options.writes_fetch_head, pruned)
        print(*lines, sep="\n", end="\n" * bool(lines), file=sys.stderr)


def depth_options(repository, asked):
    """The options of a scene that Git's words for a part of the history stand for."""
    if asked.depth is not None and asked.deepen is not None:
        raise Trouble(BAD_WORDS, "options '--deepen' and '--depth' cannot be used together")
    if asked.unshallow and asked.depth is not None:
        raise Trouble(BAD_WORDS, "options '--depth' and '--unshallow' cannot be used together")
    if asked.unshallow and not repository.border():
        raise Trouble(BAD_WORDS, "--unshallow on a complete repository does not make sense")
    for word, value in (("depth", asked.depth), ("deepen", asked.deepen)):
        if value is not None and not (value.isdecimal() and 0 < int(value) <= INFINITE):
            raise Trouble(BAD_WORDS, f"{word} {value} is not a positive number")
    depth = str(INFINITE) if asked.unshallow else asked.depth
    since = asked.shallow_since and repository.text("rev-parse", f"--since={asked.shallow_since}").partition("=")[2]
    found = [("depth", depth and str(int(depth))), ("deepen", asked.deepen and str(int(asked.deepen))), ("since", since),
             *(("not", name) for name in asked.shallow_exclude)]
    return [f"{word} {value}" for word, value in found if value]
