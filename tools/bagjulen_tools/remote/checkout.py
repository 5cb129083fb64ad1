"""What Git does in a clone once the work tree is filled: the hook `post-checkout`, and submodules."""

import os
import subprocess
import sys

from bagjulen_tools.repository.git import Repository, environment
from bagjulen_tools.trouble import DONE


def checked_out(repository: Repository, submodules: list[str], is_quiet: bool, jobs: int | None) -> int:
    """Runs the hook, where there is one, and Git's own command for submodules. Answers the first status that isn't 0."""
    status = _run_hook(repository)
    if status == DONE and submodules:
        words = [*(["--quiet"] if is_quiet else []), *([f"--jobs={jobs}"] if jobs is not None else [])]
        status = _run(repository, ["submodule", "update", "--require-init", "--recursive", *words])
    return status


def _run_hook(repository: Repository) -> int:
    """The status of the hook, which gets what Git's clone hands it: no id, that of HEAD, and 1 for a checkout of branches."""
    is_set = any(key == "core.hookspath" for key, _ in repository.entries())
    folder = repository.text("rev-parse", "--git-path", "hooks") if is_set else os.path.join(
        os.path.abspath(repository.common_dir), "hooks")
    if not os.access(os.path.join(repository.path, folder, "post-checkout"), os.X_OK):
        return DONE
    head = repository.text("rev-parse", "HEAD")
    return _run(repository, ["hook", "run", "post-checkout", "--", "0" * len(head), head, "1"])


def _run(repository: Repository, words: list[str]) -> int:
    """The status of Git, whose lines are shown on standard error."""
    return subprocess.run(["git", "-C", repository.path, *words], stdout=sys.stderr, env=environment({})).returncode
