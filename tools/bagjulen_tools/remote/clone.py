"""`git bagjulen clone`: Git's own steps around the engine's fetch."""

import argparse
import os
import sys

from bagjulen_tools.engine import Engine
from bagjulen_tools.files import clear_folder
from bagjulen_tools.protocol.address import anonymous
from bagjulen_tools.protocol.connection import connect, is_bundle
from bagjulen_tools.protocol.lines import Line, Mark, decoded_text, placed_lines, text_of
from bagjulen_tools.protocol.upload_pack import Server
from bagjulen_tools.remote.checkout import checked_out
from bagjulen_tools.remote.fetch import FetchOptions, FetchPlan, depth_options, fetch_from
from bagjulen_tools.remote.messages import Progress
from bagjulen_tools.repository.configuration import add_section
from bagjulen_tools.repository.git import Repository, entries_in, git
from bagjulen_tools.trouble import BAD_INPUT, BAD_WORDS, DONE, GIT_REFUSED, Trouble, read_file

LISTING: list[Line] = [
    b"command=ls-refs\n", Mark.DELIMITER, b"peel\n", b"symrefs\n", b"unborn\n", b"ref-prefix HEAD\n",
    b"ref-prefix refs/heads/\n", b"ref-prefix refs/tags/\n"]
MIRRORED = "+refs/*:refs/*"
BRANCHES, TAGS, TARGET = "refs/heads/", "refs/tags/", "symref-target:"
# Of the configuration that is read before there is a repository, none is that of one that stands around.
NOWHERE = {"GIT_DIR": os.devnull}


class Remote:
    """What a server has to be known of before its history comes: its branches, its tags, and what its HEAD stands for."""

    def __init__(self, server: Server, default_branch: str) -> None:
        format_line = f"object-format={server.hash_name}\n".encode()
        said = server.answer([LISTING[0], format_line, *LISTING[1:]])
        if server.refusal is not None:
            raise Trouble(GIT_REFUSED, server.refusal)
        lines = [text_of(line).split(" ") for _, line in placed_lines(said) if isinstance(line, bytes)]
        self.ids = {name: digits for digits, name, *_ in lines}
        marks = [mark for _, name, *more in lines if name == "HEAD" for mark in more]
        self.head = next((mark.removeprefix(TARGET) for mark in marks if mark.startswith(TARGET)), None)
        if self.head is None and "HEAD" in self.ids:
            self.head = self._guessed(default_branch)

    def _guessed(self, default_branch: str) -> str | None:
        """The branch that Git takes a detached HEAD for: the usual one, `master`, or the first that stands there."""
        there = [name for name, digits in self.ids.items() if name.startswith(BRANCHES) and digits == self.ids["HEAD"]]
        usual = [name for name in (BRANCHES + default_branch, f"{BRANCHES}master") if name in there]
        return next(iter([*usual, *there]), None)

    def is_empty(self):
        """Whether it has no commit."""
        return not any(digits != "unborn" for digits in self.ids.values())

    def chosen(self, branch, address):
        """The reference that is to be checked out: its full name, or None for a HEAD that stands for no name."""
        if branch is None:
            return self.head
        found = next((front + branch for front in (BRANCHES, TAGS) if front + branch in self.ids), None)
        if found is None:
            raise Trouble(BAD_INPUT, f"Remote branch {branch} not found in upstream {address}")
        return found


def clone(asked: argparse.Namespace, options: FetchOptions, engine: Engine) -> int:
    """Clones, and answers the status."""
    address = address_of(asked.repository)
    is_bare = asked.bare or asked.mirror
    folder = asked.directory or humanish(asked.repository, is_bare)
    if os.path.exists(folder) and (not os.path.isdir(folder) or os.listdir(folder)):
        raise Trouble(BAD_INPUT, f"destination path '{folder}' already exists and is not an empty directory.")
    use_settings(asked)
    engine.start()
    if options.verbosity >= 0:
        print(f"Cloning into {'bare repository ' * is_bare}'{folder}'...", file=sys.stderr)
    entries = list(entries_in(git(["config", "--list", "-z"], more=NOWHERE)))
    source = address
    if any(key.endswith(".insteadof") for key, _ in entries):
        source = decoded_text(git(["ls-remote", "--get-url", "--", address], more=NOWHERE)).removesuffix("\n")
    asked.entries, last = entries, dict(entries)
    asked.origin = asked.origin or last.get("clone.defaultremotename") or "origin"
    program = asked.upload_pack or last.get(f"remote.{asked.origin}.uploadpack")
    connection = connect(source, asked.origin, entries, program, options.family)
    server = Server(connection, Progress(), options.has_progress, options.server_options)
    places = [folder, *filter(None, [asked.separate_git_dir])]
    was_there = [os.path.isdir(place) for place in places]
    try:
        return _clone_from(server, asked, options, engine, address, folder)
    except BaseException:
        for place, stood in zip(places, was_there, strict=True):
            clear_folder(place, stood)
        raise
    finally:
        server.close()


def use_settings(asked: argparse.Namespace) -> None:
    """Has Git, wherever it runs for this clone, take the configuration that the words give."""
    if asked.separate_git_dir and (asked.bare or asked.mirror):
        raise Trouble(BAD_WORDS, "options '--bare' and '--separate-git-dir' cannot be used together")
    asked.config = [*asked.config, *(f"submodule.active={spec}" for spec in asked.submodules)]
    given = [word.partition("=") for word in asked.config]
    given += [("clone.rejectShallow", "=", "true")] if asked.reject_shallow else []
    before = int(os.environ.get("GIT_CONFIG_COUNT") or 0)
    for place, (key, has_value, value) in enumerate(given, before):
        os.environ[f"GIT_CONFIG_KEY_{place}"] = key
        os.environ[f"GIT_CONFIG_VALUE_{place}"] = value if has_value else "true"
    os.environ["GIT_CONFIG_COUNT"] = str(before + len(given))


def address_of(word: str) -> str:
    """The address that a word stands for: of a repository on this machine its path from the root, as it is.

    As Git has it, `x` may stand for `x.git`, and a word without a colon can be nothing but a path.
    """
    ends = ("/.git", "", ".git/.git", ".git") if word else ()
    if any(is_repository(word + end) for end in ends) or is_bundle(word):
        return os.path.join(working_directory(), word)
    if ":" not in word:
        raise Trouble(BAD_INPUT, f"repository '{word}' does not exist")
    return word


def is_repository(path: str) -> bool:
    """Whether a directory of Git's stands there, or a file that leads to one."""
    if os.path.isfile(path):
        return read_file(path)[:8] == b"gitdir: "
    return all(os.path.exists(os.path.join(path, name)) for name in ("objects", "refs")) and os.path.lexists(
        os.path.join(path, "HEAD"))


def working_directory() -> str:
    """Where the command stands, by the name that the caller's shell has for it."""
    named, real = os.environ.get("PWD", ""), os.getcwd()
    return named if os.path.isabs(named) and os.path.exists(named) and os.path.samefile(named, real) else real


def humanish(address: str, is_bare: bool) -> str:
    """The name that Git gives to the clone of an address."""
    path = address.rstrip("/").removesuffix("/.git").rstrip("/")
    name = path.rpartition("/")[2].rpartition(":")[2].removesuffix(".git").removesuffix(".bundle")
    if not name:
        raise Trouble(BAD_INPUT, "No directory name could be guessed.")
    return f"{name}.git" if is_bare else name


def _clone_from(server: Server, asked: argparse.Namespace, options: FetchOptions, engine: Engine, address: str,
                folder: str) -> int:
    last = dict(asked.entries)
    remote = Remote(server, last.get("init.defaultbranch") or "master")
    chosen, name = remote.chosen(asked.branch, asked.origin), asked.origin
    branch = chosen.removeprefix(BRANCHES) if chosen is not None and chosen.startswith(BRANCHES) else "main"
    words = ["--bare"] if asked.bare or asked.mirror else []
    words += [f"--{word}={value}" for word, value in (("template", asked.template),
              ("separate-git-dir", asked.separate_git_dir)) if value is not None]
    git(["init", "-q", f"--object-format={server.hash_name}", "-b", branch, *words, folder])
    repository = Repository(folder)
    specs, tags = specs_of(asked, name, chosen)
    _configure(repository, asked, name, address, [MIRRORED] if asked.mirror else specs)
    specs = [value for key, value in asked.entries if key == f"remote.{name}.fetch" and value] + specs
    options.writes_fetch_head, options.updates_shallow, verbosity = False, True, options.verbosity
    if remote.is_empty():
        print("warning: You appear to have cloned an empty repository.", file=sys.stderr)
    else:
        specs = specs or ["HEAD"]
        depth = depth_options(repository, asked)
        plan = FetchPlan(address, name, specs, tags=tags, options=depth, optional=specs)
        options.verbosity = verbosity if verbosity > 0 else -1
        fetch_from(server, repository, plan, options, engine, f"clone: from {anonymous(address)}")
    return _point_head(repository, remote, chosen, asked, name, address)


def specs_of(asked: argparse.Namespace, name: str, chosen: str | None) -> tuple[list[str], str]:
    """The refspecs of a clone, and its tags. A part of the history is that of one branch, unless words say otherwise."""
    is_bare = asked.bare or asked.mirror
    is_part = bool(asked.depth is not None or asked.shallow_since or asked.shallow_exclude)
    is_single = is_part if asked.single_branch is None else asked.single_branch
    tags = "none" if asked.no_tags or asked.mirror else "included" if is_single else "all"
    if asked.mirror and not is_single:
        return [MIRRORED], tags
    if not is_single:
        return [f"+{BRANCHES}*:{BRANCHES}*" if is_bare else f"+{BRANCHES}*:refs/remotes/{name}/*"], tags
    if chosen is None:
        return [], tags
    if chosen.startswith(BRANCHES) and not is_bare:
        return [f"+{chosen}:refs/remotes/{name}/{chosen.removeprefix(BRANCHES)}"], tags
    return [f"+{chosen}:{chosen}"], tags


def _configure(repository, asked, name, address, specs):
    """Writes the entries of the words and the section of the remote, as Git does: a bare clone has no refspecs, and a
    mirror says that it is one.
    """
    for word in asked.config:
        key, has_value, value = word.partition("=")
        repository.git("config", "--add", key, value if has_value else "true")
    entries = [("url", address), *([("tagOpt", "--no-tags")] if asked.no_tags else [])]
    entries += [("fetch", spec) for spec in ([] if asked.bare and not asked.mirror else specs)]
    add_section(repository, "remote", name, [*entries, *([("mirror", "true")] if asked.mirror else [])])
    if asked.sparse:
        repository.git("sparse-checkout", "set")


def _point_head(repository, remote, chosen, asked, name, address):
    """Has HEAD stand for what is to be checked out, and fills the work tree. Answers the status of the clone."""
    is_bare, message = asked.bare or asked.mirror, ["-m", f"clone: from {anonymous(address)}"]
    digits = remote.ids.get(chosen or "HEAD")
    digits = None if digits == "unborn" else digits
    if chosen is not None and chosen.startswith(BRANCHES):
        branch = chosen.removeprefix(BRANCHES)
        if digits is not None:
            repository.git("update-ref", *message, "HEAD", digits)
        if not is_bare:
            add_section(repository, "branch", branch, [("remote", name), ("merge", chosen)])
    elif digits is not None:
        repository.git("update-ref", "--no-deref", *message, "HEAD", f"{digits}^{{commit}}")
    tracked = f"refs/remotes/{name}/{(remote.head or '').removeprefix(BRANCHES)}"
    if not is_bare and remote.head and os.path.exists(repository.place(tracked)):
        repository.git("symbolic-ref", *message, f"refs/remotes/{name}/HEAD", tracked)
    if not is_bare and digits is not None and not asked.no_checkout:
        repository.git("read-tree", "-m", "-u", "HEAD")
        return checked_out(repository, asked.submodules, asked.quiet, asked.jobs)
    return DONE
