"""What is changed in a repository in two steps: all of it is prepared, and then all of it is committed.

`prepare` takes the locks and looks whether what is there may be changed. `commit` changes it, and where `undo` isn't None
it puts back what was committed. `close` gives back what is held; what wasn't committed is as it was.
"""

import os
import subprocess
from itertools import groupby

from bagjulen_tools.protocol.lines import decoded_text, encoded_text
from bagjulen_tools.repository.git import environment, why
from bagjulen_tools.repository.locks import LockedFile
from bagjulen_tools.repository.moves import HeadMove, refuse_changed_border
from bagjulen_tools.trouble import GIT_REFUSED, Trouble


def _put(file):
    """Takes the lock of a file, and puts its text in the place of the old one."""
    try:
        file.take()
        file.put()
    finally:
        file.close()


class BorderChange:
    """The border, which gets other ids."""

    name = "border"

    def __init__(self, repository, old, new):
        self._repository, self._old, self._new = repository, old, new
        self._file = self._with(new)
        self.file = self._file.own

    def _with(self, ids):
        text = "".join(f"{digits}\n" for digits in ids).encode()
        return LockedFile(self._repository.common_dir, self._repository.shallow_file(), text)

    def prepare(self):
        self._file.take()
        refuse_changed_border(self._old, self._new, self._repository.border())

    def commit(self):
        self._file.put()

    def undo(self):
        _put(self._with(self._old))

    def close(self):
        self._file.close()


class HeadChange:
    """A `HEAD` that leads to an absent name, and gets another value before that name or another one is there.

    Where a transaction makes the name, Git holds the lock of `HEAD` for it, as soon as that is prepared.
    """

    name = "HEAD"

    def __init__(self, repository, move, has_lock):
        self._repository, self._move, self._has_lock = repository, move, has_lock
        self._file = self._with(move.new)

    def _with(self, value):
        text = f"ref: {value[1:]}\n" if value.startswith("@") else f"{value}\n"
        return LockedFile(self._repository.common_dir, self._repository.place("HEAD"), encoded_text(text))

    def prepare(self):
        if not self._has_lock:
            self._file.take()

    def commit(self):
        if self._has_lock:
            self._file.put_below_another_lock()
        else:
            self._file.put()

    def undo(self):
        _put(self._with(self._move.old))

    def close(self):
        self._file.close()


class Transaction:
    """References that become ids, by one `git update-ref --stdin`. They have one message, or no line in a reflog.

    Git runs in a session of its own, so what ends the tool doesn't end it. Where its input ends before it was told to
    commit, it gives its locks back and moves nothing.
    """

    name, undo = "references", None

    def __init__(self, repository, moves, committer):
        message, self._moves = moves[0].message(), moves
        logs = ["-c", "core.logAllRefUpdates=false"] if message is None else []
        words = ["--create-reflog"] * (message is not None) + (["-m", message] if message else [])
        self._git = subprocess.Popen(
            ["git", "-C", repository.path, *logs, "update-ref", "--no-deref", *words, "--stdin"],
            stdin=subprocess.PIPE, stdout=subprocess.PIPE, stderr=subprocess.PIPE,
            env=environment(committer), start_new_session=True)

    def prepare(self):
        self._say("start", *map(_line, self._moves), "prepare")
        self._hear("start: ok", "prepare: ok")

    def commit(self):
        self._say("commit")
        self._hear("commit: ok")

    def close(self):
        try:
            self._git.stdin.close()
        except BrokenPipeError:
            pass  # It ended before.
        self._git.stdout.close()
        self._git.stderr.close()
        self._git.wait()

    def _say(self, *lines):
        try:
            self._git.stdin.write(b"".join(encoded_text(f"{line}\n") for line in lines))
            self._git.stdin.flush()
        except BrokenPipeError:
            pass  # It refused, and says why.

    def _hear(self, *lines):
        for line in lines:
            if decoded_text(self._git.stdout.readline()) != f"{line}\n":
                raise Trouble(GIT_REFUSED, f"git refused: {why(decoded_text(self._git.stderr.read()))}")


def _line(move):
    """The command of a move. Of a reference that was symbolic the old value isn't told, since Git compares ids."""
    if move.old is None:
        return f"create {move.name} {move.new}"
    return f"update {move.name} {move.new}" + ("" if move.old.startswith("@") else f" {move.old}")


class SymbolicChange:
    """A reference that comes to stand for a name. Git has no transaction for these, but its locks and its files hold."""

    name, undo = "symbolic references", None

    def __init__(self, repository, move, committer):
        self._repository, self._move, self._committer = repository, move, committer
        self._file = LockedFile(repository.common_dir, repository.place(move.name), encoded_text(f"ref: {move.new[1:]}\n"))

    def prepare(self):
        if self._move.log is not None:
            self._who = decoded_text(self._repository.git("var", "GIT_COMMITTER_IDENT", more=self._committer)).rstrip("\n")
        self._file.take()

    def commit(self):
        if self._move.log is not None:
            self._write_log(self._move.log)
        self._file.put()

    def _write_log(self, log):
        path = self._repository.log_place(log.name)
        os.makedirs(os.path.dirname(path), exist_ok=True)
        with open(path, "ab") as file:
            file.write(encoded_text(f"{log.old} {log.new} {self._who}\t{log.message}\n"))

    def close(self):
        self._file.close()


def changes_of(repository, moves, committer):
    """The changes that make these moves: first that of `HEAD` where it leads to an absent name, then a transaction for each
    message, and the symbolic references one by one.
    """
    heads, moves = ([each for each in moves if isinstance(each, HeadMove) is is_head] for is_head in (True, False))
    direct = sorted((each for each in moves if not each.is_symbolic()), key=_by_message)
    made = {each.name for each in direct}
    yield from (HeadChange(repository, each, each.old[1:] in made) for each in heads)
    groups = [list(group) for _, group in groupby(direct, key=_by_message)]
    yield from (Transaction(repository, group, committer) for group in groups)
    yield from (SymbolicChange(repository, each, committer) for each in moves if each.is_symbolic())


def _by_message(move):
    return move.message() is not None, move.message() or ""
