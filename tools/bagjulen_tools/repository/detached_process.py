"""Work that goes on where the tool is ended."""

import os
from collections.abc import Callable

from bagjulen_tools.protocol.lines import decoded_text, encoded_text
from bagjulen_tools.signals import held_signals, ignore_signals
from bagjulen_tools.trouble import GIT_REFUSED, Trouble

KILLED = "what moves references was killed; `git status` and a second run tell what was done"


def outlive(work: Callable[[], None]) -> None:
    """Does the work in a process and a session of its own, and waits for it. Trouble there is trouble here.

    A signal that ends the tool meanwhile does so when the work is done.
    """
    with held_signals():
        reader, writer = os.pipe()
        process = os.fork()
        if process == 0:
            status = GIT_REFUSED
            try:
                os.close(reader)
                status = _alone(work, writer)
            finally:
                os._exit(status)
        os.close(writer)
        with open(reader, "rb") as file:
            told = decoded_text(file.read())
        status = os.waitstatus_to_exitcode(os.waitpid(process, 0)[1])
        if status != 0:
            raise Trouble(status if status > 0 else GIT_REFUSED, told or KILLED)


def _alone(work: Callable[[], None], writer: int) -> int:
    """Does the work, and answers the status: 0, or that of a trouble, whose text is written."""
    ignore_signals()
    os.setsid()
    try:
        work()
        return 0
    except Trouble as trouble:
        status, text = trouble.status, str(trouble)
    except OSError as error:
        status, text = GIT_REFUSED, f"can't write {error.filename}: {error.strerror}"
    try:
        os.write(writer, encoded_text(text))
    except BrokenPipeError:
        pass  # Nobody waits.
    return status
