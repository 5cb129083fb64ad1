"""Asks real `git upload-pack` and the engine's server the same of random repositories, and prints where they differ.

COUNT repositories are made from SEED, always the same ones, with tags of all kinds and symbolic references, and a client
that asks for listings and packs; more than half of the clients tell what they have. The engine's server is that of
the program of crates/serve_rows. A third of the clients ask for a depth. Listings are compared byte for byte, `ACK`s and
the lines of `shallow-info` line by line, and the objects of packs; those of the engine's server have to be closed with
what the client has. Each difference is printed with the title in docs/DIFFERENCES.md that it falls under, or
`UNEXPLAINED`.
"""

import os
import shutil
import tempfile
from collections import Counter

from bagjulen_tools.formats.links import tags_from
from bagjulen_tools.protocol.connection import local
from bagjulen_tools.protocol.lines import encoded, text_line
from bagjulen_tools.protocol.upload_pack import Server
from bagjulen_tools.trials.replies import RequestContext, fetches, greetings, listings
from bagjulen_tools.trials.row_server import BUILT, RowServer, row_of
from bagjulen_tools.trials.served import Fetch, Maker
from bagjulen_tools.trouble import BAD_INPUT, DIFFERENT, DONE, ToolParser, Trouble, write_file

UNEXPLAINED, ALIKE = "UNEXPLAINED", "alike"
# No configuration of this machine is to count.
ALONE = {"GIT_CONFIG_NOSYSTEM": "1", "GIT_CONFIG_GLOBAL": os.devnull}


def words(given):
    """What the words say."""
    parser = ToolParser(__doc__, "some difference is unexplained")
    parser.add_argument("count", metavar="COUNT", nargs="?", type=int, default=100, help="how many repositories (100)")
    parser.add_argument("seed", metavar="SEED", nargs="?", default="1", help="any text (1)")
    parser.add_argument("--first", metavar="N", type=int, default=0, help="begin with this repository (0)")
    parser.add_argument("--keep", metavar="FOLDER", help="keep the repositories with an unexplained difference here")
    parser.add_argument("--program", default=BUILT, metavar="PROGRAM", help="the program of rows (crates/serve_rows)")
    return parser.parse_intermixed_args(given)


class Pair:
    """A repository and its client, and what both servers say."""

    def __init__(self, folder, seed, program):
        maker = Maker(os.path.join(folder, "server.git"), seed)
        self.repository, self.stored, self._program = maker.make(), maker.growth.objects, program
        self.client = maker.client(maker.random.random() < 0.6)
        self.requests = maker.requests(self.client)
        self.references = self.repository.references()
        self.ids = {name: self._ids(target) for name, target in self.references.items()}
        self.offered = {digits for ids in self.ids.values() for digits in ids}

    def _ids(self, target):
        """The ids that a reference offers."""
        while target is not None and target.startswith("@"):
            target = self.references.get(target[1:])
        return [] if target is None else [target, tags_from(self.stored, target)[-1]]

    def row(self):
        """The row that asks the engine's server."""
        return row_of(self.repository, [each.lines() for each in self.requests])

    def _real(self):
        """What real Git says: its greeting, and the reply to each request. A refusal ends a connection, sometimes within a
        reply, and Git remembers in a connection what it told of a depth.
        """
        server = Server(local(self.repository.git_dir))
        said = [server.greeting()]
        for each in self.requests:
            reply = server.answer(each.lines())
            is_cut = server.refusal is not None and b"ERR " not in reply
            said.append(encoded(text_line(f"ERR {server.refusal}")) if is_cut else reply)
            if server.refusal is not None or isinstance(each, Fetch) and each.depth is not None:
                server.close()
                server = Server(local(self.repository.git_dir))
                server.greeting()
        server.close()
        return said

    def differences(self):
        """Each difference with the title of its reason, or None where it has none."""
        real, ours = self._real(), self._program.answers(self.repository, [each.lines() for each in self.requests])
        yield from greetings(real[0], ours[0])
        for request, one, other in zip(self.requests, real[1:], ours[1:]):
            if isinstance(request, Fetch):
                yield from fetches(one, other, RequestContext(request, self.stored, self.offered, self.client.objects, self.ids))
            else:
                yield from listings(one, other, self.references)

    def has(self):
        """What there is of what is counted."""
        asked = [each for each in self.requests if isinstance(each, Fetch)]
        return [word for word, is_there in (
            ("with haves", any(each.haves for each in asked)), ("with a border", any(each.border for each in asked)),
            ("with rounds", len(asked) > 1),
            ("with a depth", any(each.depth for each in asked)), ("with tags", any(each.kind == "tag" for each in self.stored.values())),
            ("with symbolic references", any(target.startswith("@") for target in self.references.values()))) if is_there]


def compared(number, asked, program):
    """How a pair came out: the reasons of its differences, and what it has."""
    with tempfile.TemporaryDirectory() as folder:
        try:
            pair = Pair(folder, f"{asked.seed}/{number}", program)
            told = [(text, reason or UNEXPLAINED) for text, reason in pair.differences()]
        except Trouble as trouble:
            raise Trouble(trouble.status, f"repository {number}: {trouble}") from None
        for text, reason in told:
            print(f"repository {number}, {reason}: {text}", flush=True)
        reasons = {reason for _, reason in told}
        if asked.keep is not None and UNEXPLAINED in reasons:
            keep(folder, pair, os.path.join(asked.keep, str(number)))
        return reasons, pair.has()


def keep(folder, pair, target):
    """Keeps a repository, with the row of its requests."""
    try:
        shutil.copytree(folder, target, symlinks=True, dirs_exist_ok=True)
    except (OSError, shutil.Error) as error:
        raise Trouble(BAD_INPUT, f"can't keep a repository in {target}: {error}") from None
    write_file(os.path.join(target, "row"), pair.row())


def main(arguments: list[str]) -> int:
    asked = words(arguments)
    os.environ.update(ALONE)
    program = RowServer(asked.program)
    counts: Counter[str] = Counter()
    having: Counter[str] = Counter()
    for number in range(asked.first, asked.first + asked.count):
        reasons, has = compared(number, asked, program)
        counts.update(reasons or {ALIKE})
        having.update(has)
    told = ", ".join(f"{count} {word}" for word, count in sorted(having.items()))
    print(f"{asked.count} repositories of seed {asked.seed}: {told}")
    for reason, count in sorted(counts.items()):
        print(f"{count:6} {reason}")
    return DIFFERENT if counts[UNEXPLAINED] else DONE
