"""Files that are written whole or not at all, and folders for a while."""

import os
import shutil
import stat
import tempfile
from collections.abc import Iterator
from contextlib import contextmanager

from bagjulen_tools.signals import held_signals

# What a file is named while it is written: in the folder where it comes to stand.
FRONT = ".bagjulen-"


def replace_file(path: str, data: bytes) -> None:
    """Puts a file with these bytes in the place of the one at a path, when they are on the disk.

    Until then the old file stands. A symbolic link is followed, and a pipe is written to.
    """
    target = os.path.realpath(path)
    if os.path.exists(target) and not os.path.isfile(target):
        with open(target, "wb") as file:
            file.write(data)
        return
    folder = os.path.dirname(target)
    with held_signals():
        descriptor, own = tempfile.mkstemp(prefix=FRONT, dir=folder)
        try:
            with open(descriptor, "wb") as file:
                file.write(data)
                file.flush()
                os.fchmod(descriptor, _mode_of(target))
                os.fsync(descriptor)
            os.replace(own, target)
        except BaseException:
            os.remove(own)
            raise
        _sync_folder(folder)


def _mode_of(path: str) -> int:
    """The mode of the file that stands at a path, or of a new one."""
    try:
        return stat.S_IMODE(os.stat(path).st_mode)
    except FileNotFoundError:
        mask = os.umask(0)
        os.umask(mask)
        return 0o666 & ~mask


def _sync_folder(path: str) -> None:
    """Has the names of a folder stand on the disk."""
    descriptor = os.open(path, os.O_RDONLY)
    try:
        os.fsync(descriptor)
    except OSError:
        pass  # Some file systems have no such call for folders.
    finally:
        os.close(descriptor)


def clear_folder(folder: str, was_there: bool) -> None:
    """Takes away what was made in a folder, and the folder where it wasn't there before."""
    with held_signals():
        for name in os.listdir(folder) if was_there else []:
            path = os.path.join(folder, name)
            shutil.rmtree(path) if os.path.isdir(path) and not os.path.islink(path) else os.remove(path)
        if not was_there:
            shutil.rmtree(folder, ignore_errors=True)


@contextmanager
def temporary_folder() -> Iterator[str]:
    """A folder that goes at the end of the block, whatever ends that."""
    folder = None
    try:
        with held_signals():
            folder = tempfile.TemporaryDirectory()
        yield folder.name
    finally:
        with held_signals():
            if folder is not None:
                folder.cleanup()
