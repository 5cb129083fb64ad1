"""Fetches from a real address into a real repository by the proved engine: `git bagjulen`, where tools/ is on the path.

    git bagjulen fetch [<options>] [<repository> [<refspec>...]]
    git bagjulen clone [<options>] <repository> [<directory>]
    git bagjulen version

The words are those of `git fetch` and `git clone`; what isn't supported is refused by its name. Addresses are paths,
file://, http://, https://, ssh://, git://, and host:path. docs/REAL-GIT.md says what of such a run is proved.
`git bagjulen fetch -h` and `clone -h` tell the words; `--help` Git itself takes, for a manual page.

Statuses: 0 where it was done, 1 where some reference was rejected, 128 where it wasn't done, with a line `fatal: ..`.
"""

import argparse
import os
import sys
from typing import NoReturn

from bagjulen_tools.engine import PROGRAM, Engine
from bagjulen_tools.protocol.address import anonymous
from bagjulen_tools.remote.clone import clone
from bagjulen_tools.remote.fetch import FetchOptions
from bagjulen_tools.remote.remotes import fetch_asked
from bagjulen_tools.repository.git import Repository
from bagjulen_tools.trouble import BAD_WORDS, ToldTrouble, Trouble

FATAL = 128


class GitParser(argparse.ArgumentParser):
    """The words of a command. What isn't known is refused by its name."""

    def __init__(self, name: str, description: str) -> None:
        super().__init__(prog=f"git bagjulen {name}", description=description, allow_abbrev=False)

    def error(self, message: str) -> NoReturn:
        raise Trouble(BAD_WORDS, message)

    def read(self, given: list[str]) -> argparse.Namespace:
        """What the words say."""
        asked, others = self.parse_known_intermixed_args(given)
        values = [asked.repository, *getattr(asked, "refspecs", ())] if "--" not in given else []
        for word in [*others, *(value for value in values if value is not None and value.startswith("-"))]:
            raise Trouble(BAD_WORDS, f"{word.partition('=')[0]} isn't supported by git bagjulen")
        return asked


IGNORED_WORDS = {
    "fetch": ["--no-auto-gc", "--no-auto-maintenance", "--no-recurse-submodules", "--recurse-submodules=no", "-k", "--keep",
              "--no-filter", "--show-forced-updates", "--no-write-commit-graph"],
    "clone": ["--no-local", "--no-shallow-submodules", "--no-recurse-submodules", "--no-remote-submodules",
              "--no-reject-shallow", "--no-sparse", "--no-bundle-uri"]}


def add_common(parser: argparse.ArgumentParser) -> None:
    """The words that both commands have."""
    parser.add_argument("-q", "--quiet", action="store_true", help="tell nothing but what is wrong")
    parser.add_argument("-v", "--verbose", action="store_true", help="tell of references that are up to date, too")
    parser.add_argument("--progress", action=argparse.BooleanOptionalAction, help="show the server's progress")
    parser.add_argument("--depth", metavar="N", help="that many commits of each history")
    parser.add_argument("--shallow-since", metavar="DATE", help="commits since then")
    parser.add_argument("--shallow-exclude", metavar="NAME", action="append", default=[], help="commits that it hasn't")
    parser.add_argument("-j", "--jobs", metavar="N", type=int, help="taken; all is done one after another")
    parser.add_argument("-4", "--ipv4", dest="family", action="store_const", const="4", help="over IPv4 alone")
    parser.add_argument("-6", "--ipv6", dest="family", action="store_const", const="6", help="over IPv6 alone")
    parser.add_argument("--server-option", metavar="TEXT", dest="server_options", action="append", default=[],
                        help="what the server is told beside each request")


def add_pruning(parser: argparse.ArgumentParser) -> None:
    """The words about what is deleted."""
    parser.add_argument("-p", "--prune", action=argparse.BooleanOptionalAction,
                        help="delete what refspecs lead to and the remote hasn't any more")
    parser.add_argument("-P", "--prune-tags", action=argparse.BooleanOptionalAction, help="fetch all tags as by a refspec")


def add_remotes(parser: argparse.ArgumentParser) -> None:
    """The words about remotes, refspecs and FETCH_HEAD."""
    parser.add_argument("--all", action="store_true", help="from all remotes")
    parser.add_argument("--multiple", action="store_true", help="the words are remotes, or groups of them")
    parser.add_argument("-a", "--append", action="store_true", help="keep what FETCH_HEAD says")
    parser.add_argument("--atomic", action="store_true", help="move all references or none")
    parser.add_argument("--refmap", metavar="SPEC", action="append", help="where words lead, instead of the configuration")
    parser.add_argument("--set-upstream", action="store_true", help="have the current branch track what was fetched")
    parser.add_argument("--stdin", action="store_true", help="read refspecs from the input, too")
    parser.add_argument("-o", dest="server_options", metavar="TEXT", action="append", help="as --server-option")
    parser.add_argument("--upload-pack", metavar="PROGRAM", help="the server's program")


def fetch_words(given: list[str]) -> argparse.Namespace:
    """What the words of a fetch say."""
    parser = GitParser("fetch", "Fetches into the repository that stands here.")
    add_common(parser)
    add_pruning(parser)
    add_remotes(parser)
    parser.add_argument("-f", "--force", action="store_true", help="move references that don't go forward, too")
    parser.add_argument("-t", "--tags", dest="tags", action="store_const", const="all", help="all tags")
    parser.add_argument("-n", "--no-tags", dest="tags", action="store_const", const="none", help="no tags")
    parser.add_argument("--deepen", metavar="N", help="that many commits more")
    parser.add_argument("--unshallow", action="store_true", help="all of the history")
    parser.add_argument("--update-shallow", action="store_true", help="take the border of a shallow server, too")
    parser.add_argument("--dry-run", action="store_true", help="tell what would be done, and change nothing")
    parser.add_argument("--write-fetch-head", action=argparse.BooleanOptionalAction, default=True, help="write FETCH_HEAD")
    parser.add_argument("repository", nargs="?", help="the name of a remote, or an address")
    parser.add_argument("refspecs", nargs="*", help="what is fetched (what the configuration says)")
    return parser.read([word for word in given if word not in IGNORED_WORDS["fetch"]])


def add_new_repository(parser: argparse.ArgumentParser) -> None:
    """The words about the repository that a clone makes."""
    parser.add_argument("-c", "--config", metavar="KEY=VALUE", action="append", default=[], help="an entry of its configuration")
    parser.add_argument("--reject-shallow", action="store_true", help="refuse a server that is shallow")
    parser.add_argument("--template", metavar="FOLDER", help="what it is made from")
    parser.add_argument("--separate-git-dir", metavar="FOLDER", help="where the Git directory comes to stand")
    parser.add_argument("--sparse", action="store_true", help="check out the files at the top alone")
    parser.add_argument("-u", "--upload-pack", metavar="PROGRAM", help="the server's program")
    parser.set_defaults(submodules=[])
    parser.add_argument("--recurse-submodules", "--recursive", dest="submodules", action="append_const", const=".",
                        help="submodules, too, by Git's own command; =PATHSPEC for some of them")


def clone_words(given: list[str]) -> argparse.Namespace:
    """What the words of a clone say."""
    parser = GitParser("clone", "Fetches into a new repository. All but the fetch are steps of Git's own commands.")
    add_common(parser)
    parser.add_argument("--bare", action="store_true", help="without a work tree")
    parser.add_argument("--mirror", action="store_true", help="bare, with all references as they are")
    parser.add_argument("-n", "--no-checkout", action="store_true", help="leave the work tree empty")
    parser.add_argument("-o", "--origin", metavar="NAME", help="the name of the remote (origin)")
    parser.add_argument("-b", "--branch", metavar="NAME", help="the branch or tag that is checked out")
    parser.add_argument("--single-branch", action=argparse.BooleanOptionalAction, help="that branch alone")
    parser.add_argument("--tags", dest="no_tags", action="store_false", help="all tags, as without a word")
    parser.add_argument("--no-tags", action="store_true", help="no tags")
    add_new_repository(parser)
    parser.set_defaults(deepen=None, unshallow=False, no_tags=False)
    parser.add_argument("repository", help="an address")
    parser.add_argument("directory", nargs="?", help="where it comes to stand")
    words = [word for word in given if word not in IGNORED_WORDS["clone"]]
    some = [word for word in words if word.startswith(("--recurse-submodules=", "--recursive="))]
    asked = parser.read([word for word in words if word not in some])
    asked.submodules = [*asked.submodules, *(word.partition("=")[2] for word in some)]
    return asked


def options_of(asked: argparse.Namespace) -> FetchOptions:
    """How a fetch is made."""
    has_progress = not asked.quiet and sys.stderr.isatty() if asked.progress is None else asked.progress
    return FetchOptions(verbosity=asked.verbose - asked.quiet, has_progress=has_progress,
                        server_options=asked.server_options, family=asked.family)


def standing() -> Repository:
    """The repository that stands here. As Git does, the command goes to the top of its work tree, from where
    paths lead. Where there is none, Git's line says so.
    """
    try:
        if "GIT_DIR" in os.environ:
            return Repository(os.environ["GIT_DIR"])
        found = Repository(".")
        found.common_dir = os.path.abspath(found.common_dir)
        os.chdir(found.path)
        found.path = "."
        return found
    except Trouble as trouble:
        told, _, line = str(trouble).partition(" is no repository: ")
        raise Trouble(trouble.status, line or told) from None


def run_fetch(given: list[str]) -> int:
    asked = fetch_words(given)
    repository = standing()
    action = os.environ.get("GIT_REFLOG_ACTION") or " ".join(["fetch", *map(anonymous, given)])
    return fetch_asked(repository, asked, options_of(asked), Engine(PROGRAM), action)


def run_clone(given: list[str]) -> int:
    asked = clone_words(given)
    return clone(asked, options_of(asked), Engine(PROGRAM))


def run_help(_: list[str]) -> int:
    """Tells what the command is for."""
    print(__doc__, end="")
    print(f"\nThe engine is {PROGRAM}; BAGJULEN names another one.")
    return 0


def run_version(_: list[str]) -> int:
    """Tells the version of the engine."""
    print(Engine(PROGRAM).version())
    return 0


COMMANDS = {"fetch": run_fetch, "clone": run_clone, "help": run_help, "version": run_version}
WORDS_OF_ITS_OWN = {"-h": "help", "--help": "help", "-v": "version", "--version": "version"}
LABELS = ("git refused: ", "fatal: ", "error: ")


def main(arguments: list[str]) -> int:
    if not arguments:
        run_help([])
        return FATAL
    command = WORDS_OF_ITS_OWN.get(arguments[0], arguments[0])
    try:
        if command not in COMMANDS:
            known = ", ".join(COMMANDS)
            raise Trouble(BAD_WORDS, f"'{command}' is no command of git bagjulen, which are {known}")
        return COMMANDS[command](arguments[1:])
    except ToldTrouble:
        return FATAL
    except Trouble as trouble:
        text = str(trouble)
        for label in LABELS:
            text = text.removeprefix(label)
        print(f"fatal: {text}", file=sys.stderr)
        return FATAL
