"""Writes a report or a bundle into a repository, and is killed at a step:
killed-apply tool|mover STEP SCENE REPORT REPOSITORY, or killed-apply tool|mover STEP BUNDLE REPOSITORY.

`tool` is killed itself, also where the step is made by the process that moves references; `mover` is whichever process
makes the step.
"""

import os
import signal

from bagjulen_tools.formats.bundle import read_bundle
from bagjulen_tools.formats.report import read_report
from bagjulen_tools.formats.scene import read_scene
from bagjulen_tools.repository.apply import apply, apply_bundle
from bagjulen_tools.repository.git import Repository
from bagjulen_tools.trouble import DONE, read_file


def main(arguments: list[str]) -> int:
    whom, step, path, *report, target = arguments
    tool = os.getpid()

    def reached(place):
        if place == step:
            os.kill(tool if whom == "tool" else os.getpid(), signal.SIGKILL)

    repository, given = Repository(target), read_file(path)
    if report:
        apply(repository, read_scene(given), read_report(read_file(*report)), reached=reached)
    else:
        apply_bundle(repository, read_bundle(given), reached=reached)
    return DONE
