"""How a tool ends: its statuses, its one line for what went wrong, and its words."""

import argparse
import os
import sys
from collections.abc import Callable
from typing import NoReturn

from bagjulen_tools.files import replace_file
from bagjulen_tools.processes import stop_all
from bagjulen_tools.signals import Ended, catch_signals, end_of

DONE = 0
DIFFERENT = 1
BAD_WORDS = 2
BAD_INPUT = 3
GIT_REFUSED = 4
ENGINE_FAILED = 5
CHANGED = 6

STATUSES = """\
statuses:
  0  it was done{one}
  2  the words are wrong
  3  what they name is no repository, scene, report or bundle, or can't be read or written
  4  Git refused
  5  the engine failed
  6  the repository was changed meanwhile, or has what a bundle has otherwise, and nothing was moved

Whatever isn't done gets one line on standard error. Where a signal ends it, what is half done is undone."""


class Trouble(Exception):
    """Why a tool can't go on: the status that it ends with, and one line of text."""

    def __init__(self, status, text):
        super().__init__(text)
        self.status = status


class ToldTrouble(Trouble):
    """A trouble of which a program below has told already."""

    def __init__(self, status: int) -> None:
        super().__init__(status, "")


def one_line(text: str) -> str:
    """A text of others on one line, its lines side by side, with Git's `?` for what controls a terminal."""
    joined = " ".join(line.strip() for line in text.splitlines() if line.strip())
    return "".join("?" if ord(letter) < 32 or ord(letter) == 127 else letter for letter in joined)


class ToolParser(argparse.ArgumentParser):
    """The words of a tool. A wrong one gets one line and status 2. `one` says when its status is 1, if ever."""

    def __init__(self, description, one=None):
        super().__init__(
            description=description,
            epilog=STATUSES.format(one="" if one is None else f"\n  1  {one}"),
            formatter_class=argparse.RawDescriptionHelpFormatter,
            allow_abbrev=False,
        )

    def error(self, message: str) -> NoReturn:
        raise Trouble(BAD_WORDS, f"{message} (--help tells more)")


def end(main: Callable[[list[str]], int]) -> NoReturn:
    """Runs a tool with the words of the command line, and ends with its status, or of the signal that ended
    it.
    """
    catch_signals()
    number = 0
    try:
        status = main(sys.argv[1:])
        sys.stdout.flush()
    except Trouble as trouble:
        if not isinstance(trouble, ToldTrouble):
            print(f"{sys.argv[0].rpartition('/')[2]}: {trouble}", file=sys.stderr)
        status = trouble.status
    except Ended as ended:
        number = ended.number
    except BrokenPipeError:
        _drop_output()
        status = BAD_INPUT
    except OSError as error:
        _drop_output()
        what = error.filename or "what is written"
        print(f"{sys.argv[0].rpartition('/')[2]}: {what}: {error.strerror}", file=sys.stderr)
        status = BAD_INPUT
    finally:
        stop_all()
    if number:
        end_of(number)
    sys.exit(status)


def _drop_output() -> None:
    """Has what is still to be written to standard output go nowhere, so that nothing is told of it at the
    end.
    """
    os.dup2(os.open(os.devnull, os.O_WRONLY), sys.stdout.fileno())


def read_file(path: str) -> bytes:
    """The bytes of a file."""
    try:
        with open(path, "rb") as file:
            return file.read()
    except OSError as error:
        raise Trouble(BAD_INPUT, f"can't read {path}: {error.strerror}") from None


def write_file(path: str, data: bytes) -> None:
    """Puts a file with these bytes in the place of the one that stands there, when they are on the disk."""
    try:
        replace_file(path, data)
    except OSError as error:
        raise Trouble(BAD_INPUT, f"can't write {path}: {error.strerror}") from None


def write_output(data: bytes) -> None:
    """Writes bytes to standard output, all of them also where it has no buffer and takes a part at a time."""
    rest = memoryview(data)
    while rest:
        rest = rest[sys.stdout.buffer.write(rest) :]
    sys.stdout.buffer.flush()
