"""What several checks of the tools need: the tools as they are called, and a pair of repositories."""

import os
import subprocess
import tempfile
import unittest

from bagjulen_tools.paths import TOOLS
from bagjulen_tools.repository.git import Repository
from bagjulen_tools.trials.pairs import Maker

ENGINE_DOUBLE = os.path.join(TOOLS, "tests", "engine-double")
KILLED_APPLY = os.path.join(TOOLS, "tests", "killed-apply")
DOUBLE = ["--engine", ENGINE_DOUBLE]
SPEC = "+refs/heads/main:refs/remotes/origin/main"
CALLER = {"GIT_COMMITTER_NAME": "caller", "GIT_COMMITTER_EMAIL": "caller@x", "GIT_COMMITTER_DATE": "@9 +0100"}
ALONE = {"GIT_CONFIG_NOSYSTEM": "1", "GIT_CONFIG_GLOBAL": os.devnull, **CALLER}


def run(tool, *words, behaviour="", given=b""):
    """The status of a tool, what it wrote, and its messages."""
    more = {**os.environ, **ALONE, "BEHAVIOUR": behaviour}
    ended = subprocess.run([os.path.join(TOOLS, tool), *words], input=given, capture_output=True, env=more)
    return ended.returncode, ended.stdout, ended.stderr.decode()


class WithRepositories(unittest.TestCase):
    """A server with some commits on `main`, and an empty client."""

    def setUp(self):
        folder = tempfile.TemporaryDirectory()
        self.addCleanup(folder.cleanup)
        self.folder = folder.name
        maker = Maker(self.folder, "checks", "plain")
        maker.references["refs/heads/main"] = self.tip = maker.history.grow(maker.history.grow())
        maker.init(maker.server, "--bare")
        maker.write_server()
        maker.init(maker.client)
        self.history, self.server, self.client = maker.history, maker.server, maker.client

    def path(self, name):
        return os.path.join(self.folder, name)

    def scene(self, *words, behaviour=""):
        return run("scene-from-git", *DOUBLE, "-o", self.path("scene"), self.client, *words, behaviour=behaviour)

    def report(self):
        with open(self.path("scene"), "rb") as scene, open(self.path("report"), "wb") as report:
            subprocess.run([ENGINE_DOUBLE, "fetch"], stdin=scene, stdout=report, check=True)

    def ids(self, repository):
        return sorted(each.id for each in Repository(repository).objects())

    def assert_line(self, ended, status, text):
        self.assertEqual((ended[0], ended[1]), (status, b""))
        self.assertRegex(ended[2], rf"\A[^\n]*{text}[^\n]*\n\Z")
