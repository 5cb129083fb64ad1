"""What git config says of each text, or with --values of each value, of standard input.

A line of input is one of them, with % and two hexadecimal digits for a byte. Of a text it is the value of a.b; status 128 and
"bad config line N" are a refusal. Of a value it is what it is as a truth value and as a number.
"""

import os
import re
import subprocess
import sys
import tempfile


def git(text, *arguments):
    """The status, the output and the errors of git config over a text."""
    with tempfile.TemporaryDirectory() as folder:
        path = os.path.join(folder, "f")
        with open(path, "wb") as file:
            file.write(text)
        run = subprocess.run(["git", "config", "--file", path, *arguments], capture_output=True, env={**os.environ, "HOME": folder}, check=False)
        return run.returncode, run.stdout, run.stderr.replace(path.encode(), b"f")


def bytes_of(line):
    return re.sub(rb"%([0-9A-Fa-f]{2})", lambda match: bytes.fromhex(match.group(1).decode()), line)


def main(arguments: list[str]) -> int:
    is_value = arguments == ["--values"]
    for line in sys.stdin.buffer.read().splitlines():
        text = bytes_of(line)
        if is_value:
            text = b"[a]\nb = " + text + b"\n"
            print(line, git(text, "--type=bool", "--get", "a.b"), git(text, "--type=int", "--get", "a.b"))
        else:
            print(line, git(text, "-z", "--get", "a.b"))
    return 0
