"""The engine's server, as the program of its rows runs it."""

import os
import re
import subprocess
from urllib.parse import unquote_to_bytes

from bagjulen_tools.paths import TOP
from bagjulen_tools.protocol.lines import Mark, decoded_text, encoded
from bagjulen_tools.trouble import ENGINE_FAILED, Trouble

BUILT = os.path.join(TOP, "crates", "serve_rows", "out", "serve_rows")
ALL = 10**9
OTHERS = re.compile(rb"[^!-$&-~ ]")


def row_of(repository, requests):
    """The row that has a repository served, and asks for what is given for the first line and for each request."""
    lines = [b"= serve a repository", b"hash " + repository.hash_name().encode()]
    lines += [b"object %s %s" % (each.kind.encode(), escaped(each.data)) for each in repository.objects()]
    lines += [f"ref {name} {target.removeprefix('@')}".encode() for name, target in repository.references().items()]
    first = encoded(b"git-upload-pack /srv/a.git\0\0version=2\0")
    for asked in (first, *(b"".join(map(encoded, [*request, Mark.FLUSH])) for request in requests)):
        lines += [b"? feed " + escaped(asked), b"? give %d" % ALL]
    return b"".join(line + b"\n" for line in lines)


def escaped(data):
    """Bytes in which each but a sign of ASCII is `%` and two hexadecimal digits."""
    return OTHERS.sub(lambda found: b"%%%02X" % found[0][0], data)


class RowServer:
    """The program of rows that feeds servers."""

    def __init__(self, program):
        self._program = program

    def answers(self, repository, requests):
        """What is given for the first line, and for each request. A refusal is a trouble."""
        try:
            ended = subprocess.run([self._program], input=row_of(repository, requests), capture_output=True)
        except OSError as error:
            raise Trouble(ENGINE_FAILED, f"can't run {self._program}: {error.strerror}") from None
        lines = ended.stdout.split(b"\n")
        refused = [decoded_text(line) for line in lines if line.startswith(b"refused ")]
        given = [unquote_to_bytes(line.split(b" ", 2)[2]) for line in lines if line.startswith(b"gives ")]
        if ended.returncode != 0 or refused or len(given) != len(requests) + 1:
            raise Trouble(ENGINE_FAILED, f"{self._program} ended with status {ended.returncode} ({' '.join(refused)})")
        return given
