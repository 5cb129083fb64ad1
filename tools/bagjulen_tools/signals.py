"""Signals that end a tool: it undoes what is half done, and then ends of the signal, as Git does."""

import gc
import os
import signal
import sys
from collections.abc import Iterator
from contextlib import contextmanager
from types import FrameType
from typing import NoReturn

ENDING = (signal.SIGINT, signal.SIGTERM, signal.SIGHUP)


class Ended(KeyboardInterrupt):
    """A signal that ends the tool."""

    def __init__(self, number: int) -> None:
        super().__init__(number)
        self.number = number


class _State:
    """Which process is ended so, how many hold signals back, which came meanwhile, and whether one did."""

    owner, holds, pending, is_ended = 0, 0, 0, False


def catch_signals() -> None:
    """Has the first signal that ends this process raise `Ended`. One that is ignored stays so."""
    _State.owner = os.getpid()
    for each in ENDING:
        if signal.getsignal(each) is not signal.SIG_IGN:
            signal.signal(each, _handle)


def _handle(number: int, _: FrameType | None) -> None:
    if os.getpid() != _State.owner:
        _end_of(number)  # A process that was forked off has nothing to undo.
    if _State.holds:
        _State.pending = _State.pending or number
    elif not _State.is_ended:
        _State.is_ended = True
        raise Ended(number)


@contextmanager
def held_signals() -> Iterator[None]:
    """Holds back what ends the tool, until the block is done."""
    _State.holds += 1
    try:
        yield
    finally:
        _State.holds -= 1
        if _State.pending and not _State.holds and not _State.is_ended:
            _State.is_ended = True
            raise Ended(_State.pending)


def is_ending() -> bool:
    """Whether a signal has come that ends the tool."""
    return _State.is_ended


def ignore_signals() -> None:
    """Has nothing but a kill end this process."""
    for each in ENDING:
        signal.signal(each, signal.SIG_IGN)


def end_of(number: int) -> NoReturn:
    """Ends as of a signal, when what the tool held is given back."""
    gc.collect()
    try:
        sys.stdout.flush()
    except OSError:
        pass  # Nobody reads.
    _end_of(number)


def _end_of(number: int) -> NoReturn:
    signal.signal(number, signal.SIG_DFL)
    os.kill(os.getpid(), number)
    os._exit(128 + number)
