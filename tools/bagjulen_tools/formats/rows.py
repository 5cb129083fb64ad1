"""The rows of the programs that have rows of several kinds, and those of crates/fetch_rows that are scenes."""

import os
import re
from typing import NamedTuple

from bagjulen_tools.paths import CRATES
from bagjulen_tools.trouble import read_file


class Row(NamedTuple):
    """A row: the word that says whose it is, what it shows, its scene, its other lines, and its answer."""

    whose: str
    about: str
    scene: bytes
    lines: bytes
    answer: bytes


def split_row(inputs):
    """The first row of an input, without an answer, and what follows it."""
    title, _, inputs = inputs.partition(b"\n")
    whose, _, about = title.decode().removeprefix("= ").partition(" ")
    scene = b""
    if inputs.startswith(b"scene "):
        length, _, inputs = inputs.removeprefix(b"scene ").partition(b"\n")
        scene, inputs = inputs[: int(length)], inputs[int(length) + 1 :]
    lines = re.split(rb"^= ", inputs, maxsplit=1, flags=re.MULTILINE)[0]
    return Row(whose, about, scene, lines, b""), inputs[len(lines) :]


def rows(crate):
    """Each row of a crate, with its answer."""
    inputs, answers = (read_file(os.path.join(CRATES, crate, name)) for name in ("stdin", "stdout"))
    for answer in re.split(rb"^= ", answers, flags=re.MULTILINE)[1:]:
        row, inputs = split_row(inputs)
        yield row._replace(answer=answer.partition(b"\n")[2])


def scenes():
    """Each scene that is fetched where nothing fails: its name, the scene, and its report with the status."""
    for row in rows("fetch_rows"):
        if row.whose == "fetch" and not row.lines:
            yield row.about, row.scene, row.answer.decode("utf-8", "backslashreplace")
