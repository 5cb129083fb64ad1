"""The fetch that real Git makes, and what it tells of each reference."""

import re
from dataclasses import dataclass

from bagjulen_tools.repository.git import run_git, why

TAG_WORDS = {"all": ["--tags"], "none": ["--no-tags"], "included": []}
OPTION_WORDS = {"depth": "--depth={}", "deepen": "--deepen={}", "since": "--shallow-since=@{}",
                "not": "--shallow-exclude={}", "dry-run": "--dry-run"}
MODES = {"=": "up-to-date", " ": "fast-forward", "+": "forced-update", "t": "forced-update", "*": "new"}
REJECTED = {"would clobber existing tag": "rejected (would overwrite existing tag)",
            "non-fast-forward": "rejected (non-fast-forward)"}
# Git leaves the source out where it is `HEAD`.
TOLD = re.compile(r" (.) (?:\[[^]]*\]|[0-9a-f]+\.+[0-9a-f]+) +(\S*) +-> (\S+)(?:  \((.*)\))?")
SHORTENED = ("refs/heads/", "refs/tags/", "refs/remotes/")
FATAL = 128


@dataclass
class RealFetch:
    """What a fetch of real Git left and told."""

    verdicts: dict[tuple[str, str], str]
    references: dict[str, str]
    border: list[str]
    refused: str | None
    messages: str


def fetch(repository, pair):
    """Fetches by real Git as a pair says."""
    words = ["-c", "fetch.output=full", "fetch", "-v", "--no-auto-maintenance", "--no-write-fetch-head"]
    words += TAG_WORDS[pair.tags] + [option_word(option) for option in pair.options]
    status, _, messages = run_git(["-C", repository.path, *words, pair.server, *pair.specs])
    return RealFetch(
        verdicts=verdicts(messages),
        references=repository.references(),
        border=repository.border(),
        refused=why(messages) if status == FATAL else None,
        messages=messages,
    )


def option_word(option):
    """The word of Git that an option of a scene stands for."""
    word, _, value = option.partition(" ")
    return OPTION_WORDS[word].format(value)


def verdicts(messages):
    """What Git tells of each source and destination, by their short names, in the words of a report."""
    told = filter(None, map(TOLD.fullmatch, messages.splitlines()))
    return {(source or "HEAD", to): MODES.get(flag) or REJECTED.get(why, f"rejected ({why})")
            for flag, source, to, why in (match.groups() for match in told)}


def shortened(name):
    """A name of a reference as Git tells it."""
    front = next((front for front in SHORTENED if name.startswith(front)), "")
    return name[len(front):]


def is_tag_name(name):
    """Whether a reference is a tag."""
    return name.startswith("refs/tags/")
