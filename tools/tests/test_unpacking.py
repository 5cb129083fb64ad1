"""Repositories that others made, laid out."""

import base64
import gzip
import io
import os
import tarfile
import tempfile
import unittest

from bagjulen_tools.measure import unpack_repositories
from bagjulen_tools.trouble import write_file


def archive(*paths):
    """An archive with empty files at these paths."""
    packed = io.BytesIO()
    with tarfile.open(fileobj=packed, mode="w") as file:
        for path in paths:
            file.addfile(tarfile.TarInfo(path))
    return base64.b64encode(gzip.compress(packed.getvalue())).decode()


class Unpacking(unittest.TestCase):
    def setUp(self):
        folder = tempfile.TemporaryDirectory()
        self.addCleanup(folder.cleanup)
        self.folder = folder.name

    def made(self, lay_out, source):
        target = os.path.join(self.folder, "made")
        return [os.path.relpath(path, target) for path in lay_out(source, target)]

    def test_directories(self):
        for path in ("a.git", "a/.gitted", "b/c/.gitted", "b/plain"):
            os.makedirs(os.path.join(self.folder, "source", path, "objects"))
        found = self.made(unpack_repositories.of_libgit2, os.path.join(self.folder, "source"))
        self.assertEqual(found, ["a.git", "a", "b-c"])
        self.assertTrue(all(os.path.isdir(os.path.join(self.folder, "made", path, "objects")) for path in found))

    def test_archives(self):
        path = os.path.join(self.folder, "data.go")
        text = "".join(f'\t"/data/{name}": {{\n\t\tcompressed: `{packed}`,\n\t}},\n' for name, packed in (
            ("git-1.tgz", archive("HEAD", "objects/x")), ("pack-2.pack", archive("HEAD", "objects/x")),
            ("worktree-3.tgz", archive("one/.git/HEAD", "one/.git/objects/x", "two/HEAD", "two/objects/x")),
            ("git-4.tgz", archive("HEAD"))))
        write_file(path, text.encode())
        self.assertEqual(self.made(unpack_repositories.of_go_git, path), ["git-1", "worktree-3/one/.git", "worktree-3/two", "git-4"])


if __name__ == "__main__":
    unittest.main()
