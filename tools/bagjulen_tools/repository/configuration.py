"""Entries of a repository's configuration, written as Git writes them."""

import os

from bagjulen_tools.repository.git import Repository
from bagjulen_tools.trouble import read_file

ESCAPES = str.maketrans({"\\": "\\\\", '"': '\\"', "\n": "\\n", "\t": "\\t"})
IN_NAMES = str.maketrans({"\\": "\\\\", '"': '\\"'})


def add_section(repository: Repository, section: str, name: str, entries: list[tuple[str, str]]) -> None:
    """Adds entries to the section of a name: all at once where it is new, and else one by one, by Git."""
    path = os.path.join(repository.common_dir, "config")
    head = f'[{section} "{name.translate(IN_NAMES)}"]\n'
    text = read_file(path)
    if head.encode("utf-8", "surrogateescape") in text or text[-1:] not in (b"", b"\n"):
        for key, value in entries:
            repository.git("config", "--add", f"{section}.{name}.{key}", value)
        return
    lines = "".join(f"\t{key} = {_quoted(value)}\n" for key, value in entries)
    with open(path, "ab") as file:
        file.write((head + lines).encode("utf-8", "surrogateescape"))
    repository.forget_entries()


def _quoted(value: str) -> str:
    """A value as Git writes it."""
    is_odd = value != value.strip(" ") or ";" in value or "#" in value
    return f'"{value.translate(ESCAPES)}"' if is_odd else value.translate(ESCAPES)
