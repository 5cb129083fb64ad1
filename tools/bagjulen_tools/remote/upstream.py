"""`--set-upstream`: what the current branch tracks."""

import sys

from bagjulen_tools.remote.fetch import FetchPlan
from bagjulen_tools.repository.git import Repository

HEADS = "refs/heads/"


def set_upstream(repository: Repository, plan: FetchPlan, word: str | None) -> None:
    """Has the current branch track the one source that was fetched into FETCH_HEAD alone, as Git does."""
    sources = list(dict.fromkeys(plan.headless))
    branch = repository.head()["HEAD"]
    if len(sources) != 1:
        _warn("multiple branches detected, incompatible with --set-upstream" if sources else
              "no source branch found;\nyou need to specify exactly one branch with the --set-upstream option")
        return
    source, remote = sources[0], plan.name or plan.address
    if not branch.startswith("@"):
        _warn(f"could not set upstream of HEAD to '{source.removeprefix(HEADS)}' from '{remote}' when "
              "it does not point to any branch.")
    elif source == "HEAD" or source.startswith(HEADS):
        front = f"branch.{branch.removeprefix('@' + HEADS)}"
        repository.git("config", f"{front}.remote", plan.name or word or plan.address)
        repository.git("config", f"{front}.merge", source)
    elif source.startswith("refs/remotes/"):
        _warn("not setting upstream for a remote remote-tracking branch")
    else:
        _warn("not setting upstream for a remote tag" if source.startswith("refs/tags/") else "unknown branch type")


def _warn(text: str) -> None:
    print(f"warning: {text}", file=sys.stderr)
