"""Programs that the tools run. None of them outlives the tool."""

import os
import signal
import subprocess
from collections.abc import Mapping, Sequence
from typing import IO

from bagjulen_tools.signals import held_signals, is_ending

# How long a program may take to end, in seconds, before it is killed.
PATIENCE = 5.0


# What was started and may run yet, and whether each leads a group.
_started: list[tuple[subprocess.Popen[bytes], bool]] = []


def start_program(words: Sequence[str], stderr: int | IO[bytes] | None = None,
                  env: Mapping[str, str] | None = None, is_group: bool = False) -> subprocess.Popen[bytes]:
    """Starts a program, whose input and output are pipes. What a leader of a group starts ends with it."""
    _started[:] = [each for each in _started if each[0].poll() is None]
    with held_signals():
        process = subprocess.Popen(words, stdin=subprocess.PIPE, stdout=subprocess.PIPE, stderr=stderr,
                                   env=env, start_new_session=is_group)
        _started.append((process, is_group))
    return process


def run_program(words: Sequence[str], given: bytes = b"", env: Mapping[str, str] | None = None,
                shows_messages: bool = False, is_group: bool = False) -> subprocess.CompletedProcess[bytes]:
    """Runs a program to its end. What ends the tool meanwhile ends it, too."""
    process = start_program(words, None if shows_messages else subprocess.PIPE, env, is_group)
    try:
        out, messages = process.communicate(given)
    except BaseException:
        stop(process, is_group)
        raise
    return subprocess.CompletedProcess(words, process.returncode, out, messages)


def stop_all() -> None:
    """Ends all programs that run."""
    for process, is_group in _started:
        if process.poll() is None:
            stop(process, is_group)


def stop(process: subprocess.Popen[bytes], is_group: bool = False) -> None:
    """Ends a program: it is asked to, and killed where it goes on."""
    for number in (signal.SIGTERM, signal.SIGKILL):
        _send(process, number, is_group)
        try:
            process.wait(PATIENCE)
            break
        except subprocess.TimeoutExpired:
            pass  # It is killed next.
    if is_group:
        _send(process, signal.SIGKILL, is_group)  # What it left behind.
    close_all(process.stdin, process.stdout, process.stderr)


def _send(process: subprocess.Popen[bytes], number: int, is_group: bool) -> None:
    try:
        if is_group:
            os.killpg(process.pid, number)
        else:
            process.send_signal(number)
    except ProcessLookupError:
        pass  # It has ended.


def wait_or_stop(process: subprocess.Popen[bytes]) -> int:
    """Waits for a program that has nothing left to do, and ends it where it goes on. Its status."""
    try:
        return process.wait(0.1 if is_ending() else PATIENCE)
    except subprocess.TimeoutExpired:
        stop(process)
        return process.wait()


def close_all(*files: IO[bytes] | None) -> None:
    """Closes files. What was still to be written is lost where nobody reads."""
    for file in files:
        if file is not None:
            try:
                file.close()
            except OSError:
                pass  # The other side ended first.
