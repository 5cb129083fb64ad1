"""Which remotes the words of `git bagjulen fetch` name, and the fetch from each."""

import argparse
import os
import sys
from collections.abc import Iterable, Mapping

from bagjulen_tools.engine import Engine
from bagjulen_tools.remote.fetch import (
    TAG_SPEC,
    FetchOptions,
    FetchPlan,
    choose_tags,
    depth_options,
    empty_fetch_head,
    fetch,
    plan_of,
)
from bagjulen_tools.remote.upstream import set_upstream
from bagjulen_tools.repository.git import Repository, truth
from bagjulen_tools.trouble import BAD_WORDS, DIFFERENT, DONE, ToldTrouble, Trouble


def fetch_asked(repository: Repository, asked: argparse.Namespace, options: FetchOptions, engine: Engine,
                action: str) -> int:
    """Fetches from the remotes that the words name, and answers the status."""
    options.is_dry, options.updates_shallow = asked.dry_run, asked.update_shallow
    options.writes_fetch_head, options.appends = asked.write_fetch_head, asked.append
    options.is_atomic, options.upload_pack = asked.atomic, asked.upload_pack
    entries = list(repository.entries())
    names = remotes_asked(asked, entries)
    if names is None:
        return fetch_one(repository, asked, options, engine, action)
    if asked.stdin:
        raise Trouble(BAD_WORDS, "--stdin can only be used when fetching from one remote")
    if asked.atomic:
        raise Trouble(BAD_WORDS, "--atomic can only be used when fetching from one remote")
    if options.writes_fetch_head and not options.is_dry and not options.appends:
        empty_fetch_head(repository)
    options.appends = True
    asked.refspecs = []
    action = os.environ.get("GIT_REFLOG_ACTION", "")
    statuses = [_fetch_named(name, repository, asked, options, engine, action) for name in names]
    return DIFFERENT if any(statuses) else DONE


def remotes_asked(asked: argparse.Namespace, entries: list[tuple[str, str | None]]) -> list[str] | None:
    """The remotes where the words name several, as by a group of them, or None."""
    known = list(dict.fromkeys(key.split(".", 1)[1].rpartition(".")[0] for key, _ in entries
                               if key.startswith("remote.") and key.count(".") > 1))
    words = [] if asked.repository is None else [asked.repository, *asked.refspecs]
    if asked.all:
        if words:
            told = "take a repository argument" if len(words) == 1 else "make sense with refspecs"
            raise Trouble(BAD_WORDS, f"fetch --all does not {told}")
        last = dict(entries)
        skips = ("skipdefaultupdate", "skipfetchall")
        return [name for name in known if not any(truth(last, f"remote.{name}.{skip}") for skip in skips)]
    if asked.multiple:
        return [name for word in words for name in _named(word, known, entries)]
    group = _group(words[0], entries) if len(words) == 1 else []
    return group if len(group) > 1 else None


def _named(word: str, known: list[str], entries: Iterable[tuple[str, str | None]]) -> list[str]:
    """The remotes that a word stands for: those of a group, or one."""
    found = _group(word, entries) or [name for name in known if name == word]
    if not found:
        raise Trouble(BAD_WORDS, f"no such remote or remote group: {word}")
    return found


def _group(word: str, entries: Iterable[tuple[str, str | None]]) -> list[str]:
    """The remotes of a group, none where there is no such group."""
    return [name for key, value in entries if key == f"remotes.{word}" for name in (value or "").split()]


def _fetch_named(name: str, repository: Repository, asked: argparse.Namespace, options: FetchOptions, engine: Engine,
                 action: str) -> int:
    """Fetches from one of several remotes. Where that ends otherwise, it is told, and the others' turn comes."""
    if options.verbosity >= 0:
        print(f"Fetching {name}", flush=True)
    one = argparse.Namespace(**{**vars(asked), "repository": name})
    try:
        status = fetch_one(repository, one, options, engine, action or action_of_one(asked, name))
    except Trouble as trouble:
        if not isinstance(trouble, ToldTrouble):
            print(f"fatal: {str(trouble).removeprefix('git refused: ')}", file=sys.stderr)
        status = trouble.status
    if status:
        print(f"error: could not fetch {name}", file=sys.stderr)
    return status


def action_of_one(asked: argparse.Namespace, name: str) -> str:
    """What reflogs say of one of several remotes: the words that Git starts a fetch from it with."""
    words = ["fetch", "--append", "--no-auto-gc", "--no-write-commit-graph"]
    given = [(asked.dry_run, "--dry-run"), (asked.prune is True, "--prune"), (asked.prune is False, "--no-prune"),
             (asked.prune_tags is True, "--prune-tags"), (asked.prune_tags is False, "--no-prune-tags"),
             (asked.force, "--force"), (asked.tags == "all", "--tags"), (asked.tags == "none", "--no-tags"),
             (asked.verbose > asked.quiet, "-v"), (asked.quiet > asked.verbose, "-q"),
             (asked.family == "4", "--ipv4"), (asked.family == "6", "--ipv6")]
    return " ".join([*words, *(word for is_given, word in given if is_given), name])


def fetch_one(repository: Repository, asked: argparse.Namespace, options: FetchOptions, engine: Engine,
              action: str) -> int:
    """Fetches from one remote."""
    specs = refspecs(asked.refspecs) + ([line.rstrip("\n") for line in sys.stdin] if asked.stdin else [])
    if asked.refmap is not None and not specs:
        raise Trouble(BAD_WORDS, "--refmap option is only meaningful with command-line refspec(s)")
    plan = plan_of(repository, asked.repository, specs, asked.force, asked.refmap)
    choose_pruning(plan, asked, dict(repository.entries()), bool(specs))
    plan.options = depth_options(repository, asked)
    choose_tags(plan, asked.tags, asked.force)
    told = fetch(repository, plan, options, engine, action)
    if asked.set_upstream and not options.is_dry:
        set_upstream(repository, plan, asked.repository)
    return told


def choose_pruning(plan: FetchPlan, asked: argparse.Namespace, last: Mapping[str, str | None], has_specs: bool) -> None:
    """Has a plan prune where words ask for it, or else the configuration, and has it fetch all tags where they are pruned.

    Beside refspecs of the words tags aren't pruned.
    """
    prunes_tags, name = asked.prune_tags, plan.name or ""
    if asked.prune is not None:
        plan.prunes = asked.prune
    if prunes_tags is None:
        prunes_tags = truth(last, f"remote.{name}.prunetags", "fetch.prunetags")
    if prunes_tags and not has_specs:
        plan.specs = [*plan.specs, TAG_SPEC]


def refspecs(given: list[str]) -> list[str]:
    """Refspecs, in which `tag <name>` stands for a tag to its own place."""
    words, found = iter(given), []
    for word in words:
        name = next(words, None) if word == "tag" else None
        if word == "tag" and name is None:
            raise Trouble(BAD_WORDS, "you need to specify a tag name")
        found.append(word if name is None else f"refs/tags/{name}:refs/tags/{name}")
    return found
