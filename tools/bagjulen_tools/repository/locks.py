"""Files of a repository that are written as Git writes them: under a lock beside the file, and by a rename.

Each lock is a hard link to a file of the tool's own in the Git directory, which the tool's processes hold by `flock` for
as long as one of them lives. So the locks of a run that was killed can be told from all others, and are taken away.
"""

import fcntl
import os
import secrets

from bagjulen_tools.repository.git import LOCK
from bagjulen_tools.trouble import GIT_REFUSED, Trouble

FRONT = "bagjulen-"


class LockedFile:
    """A file that gets a new text, or goes where the text is empty.

    The text stands at `own` first, then at the lock too, and last at the file.
    """

    def __init__(self, folder, path, text):
        self.path, self.lock, self._goes = path, f"{path}{LOCK}", text == b""
        self.own, self._descriptor = _new_file(folder)
        self._identity = _identity(os.fstat(self._descriptor))
        os.write(self._descriptor, text)
        os.fsync(self._descriptor)

    def take(self):
        """Takes the lock, which nobody may hold."""
        try:
            os.makedirs(os.path.dirname(self.path), exist_ok=True)
            os.link(self.own, self.lock)
        except OSError as error:
            why = f"can't be made: {error.strerror}"
            if os.path.exists(self.lock):
                why = "stands: another process is at work there, or was killed"
            raise Trouble(GIT_REFUSED, f"{self.lock} {why}") from None

    def put(self):
        """Puts the new text in the place of the old one, and gives the lock back."""
        if not self._goes:
            os.rename(self.lock, self.path)
            return
        if os.path.exists(self.path):
            os.remove(self.path)
        os.remove(self.lock)

    def put_below_another_lock(self):
        """Puts the new text in the place of the old one, under a lock that another process holds for this one."""
        os.rename(self.own, self.path)

    def close(self):
        """Gives back what is still held. A lock of another one stays."""
        for path in (self.lock, self.own):
            if _identity_at(path) == self._identity:
                os.remove(path)
        os.close(self._descriptor)


def _new_file(folder):
    """A file of the tool's own that it holds: its path and its descriptor."""
    while True:
        path = os.path.join(folder, f"{FRONT}{secrets.token_hex(8)}")
        descriptor = os.open(path, os.O_RDWR | os.O_CREAT | os.O_EXCL, 0o666)
        fcntl.flock(descriptor, fcntl.LOCK_EX)
        if _identity_at(path) is not None:
            return path, descriptor
        os.close(descriptor)  # Taken for a leftover before it was held.


def _identity(status):
    return status.st_dev, status.st_ino


def _identity_at(path):
    """What tells the file at a path from all others, or None where there is none."""
    try:
        return _identity(os.stat(path))
    except OSError:
        return None


def clear(repository):
    """Takes away what killed runs of the tool left in a repository: its own files, and the locks that are links to them."""
    for name in os.listdir(repository.common_dir):
        if name.startswith(FRONT):
            _clear_one(repository, os.path.join(repository.common_dir, name))


def _clear_one(repository, path):
    try:
        descriptor = os.open(path, os.O_RDWR)
    except OSError:
        return
    try:
        fcntl.flock(descriptor, fcntl.LOCK_EX | fcntl.LOCK_NB)
        for lock in _locks(repository):
            if _identity_at(lock) == _identity(os.fstat(descriptor)):
                os.remove(lock)
        os.remove(path)
    except OSError:
        pass  # Its run lives, or another one clears it.
    finally:
        os.close(descriptor)


def _locks(repository):
    """The paths of all locks of a repository's references and its border."""
    yield from (f"{path}{LOCK}" for path in (repository.shallow_file(), repository.place("HEAD")))
    for folder, _, files in os.walk(os.path.join(repository.common_dir, "refs")):
        yield from (os.path.join(folder, file) for file in files if file.endswith(LOCK))
