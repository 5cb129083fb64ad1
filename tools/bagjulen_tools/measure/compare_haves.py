"""Fetches into random repositories from a server that has none of them, and compares the haves with real Git's.

COUNT clients are made from SEED, always the same ones: up to 120 commits with branches, merges and tags, sometimes
with a border, no two of them as late. Under `consecutive` the haves of the engine and of real Git have to be the same
ones in the same order, window by window; Git ends with a request without haves, so such requests aren't compared.
Under `skipping` the engine's have to be those of the rules, and real Git's those of the rules with what
docs/DIFFERENCES.md says of its order.

With --shared the server has a commit on top of one of the client's, and what is behind that; real `git upload-pack`
acknowledges what it has. All clients are without a border then, and by `consecutive`. What was acknowledged is told
again, by Git in an order of its own, so that what is told for the first time is compared.
"""

import os
import tempfile
from collections import Counter
from random import Random

from bagjulen_tools.engine import PROGRAM, Engine
from bagjulen_tools.protocol.connection import local
from bagjulen_tools.protocol.upload_pack import Server
from bagjulen_tools.trials.haves import (
    Client,
    Skipping,
    asked_by_engine,
    asked_by_git,
    commit,
    parents_of,
    tag,
    told_first,
    windows_of,
)
from bagjulen_tools.trouble import DIFFERENT, DONE, ToolParser


def words(given):
    """What the words say."""
    parser = ToolParser(__doc__, "some haves are others")
    parser.add_argument("count", metavar="COUNT", nargs="?", type=int, default=100, help="how many clients (100)")
    parser.add_argument("seed", metavar="SEED", nargs="?", default="1", help="any text (1)")
    parser.add_argument("--first", metavar="N", type=int, default=0, help="begin with this client (0)")
    parser.add_argument("--shared", action="store_true", help="the server has some of the client's commits")
    parser.add_argument("--engine", default=PROGRAM, metavar="PROGRAM", help="the engine (bagjulen beside tools/)")
    return parser.parse_args(given)


def history(random):
    """Commits from the first to the last, no two of them as late."""
    count = random.randint(1, 120)
    seconds = sorted(random.sample(range(1, 10 * count + 1), count))
    if random.random() < 0.3:
        place = random.randrange(count)
        seconds[place:] = random.sample(seconds[place:], count - place)
    made = []
    for each in seconds:
        recent = [one.id for one in made[-random.choice([1, 1, 2, 6]):]]
        several = random.sample(recent, min(len(recent), random.choice([1, 1, 1, 2, 3])))
        made.append(commit(each, several if random.random() < 0.97 else []))
    return made


def client_of(random):
    """A client with such a history, some references, and perhaps a border."""
    made = history(random)
    ids = [each.id for each in made]
    tips = {ids[-1], *random.sample(ids, min(len(ids), random.randint(0, 3)))}
    border = random.sample(ids, min(len(ids), random.randint(1, 2))) if random.random() < 0.3 else []
    stored = reached(tips, made, border)
    objects = [each for each in made if each.id in stored]
    references = {f"refs/heads/b{place}": digits for place, digits in enumerate(sorted(tips))}
    if random.random() < 0.4:
        objects.append(tag(random.choice(sorted(stored)), "v1"))
        references["refs/tags/v1"] = objects[-1].id
    algorithm = random.choice(["consecutive", "skipping"])
    return Client(objects, references, algorithm, sorted(set(border) & stored))


def reached(tips, made, border):
    """The commits from the tips on, up to the border."""
    parents = {each.id: parents_of(each) for each in made}
    found, rest = set(), list(tips)
    while rest:
        digits = rest.pop()
        if digits not in found:
            found.add(digits)
            rest.extend([] if digits in border else parents[digits])
    return found


def sharing(random, engine):
    """What real Git and the engine tell a server for the first time that has some of the client's commits."""
    client = client_of(random)
    commits = [each for each in client.objects if each.kind == "commit"]
    client = Client(client.objects, client.references, "consecutive")
    if any(parent not in {each.id for each in commits} for each in commits for parent in parents_of(each)):
        return None
    place = random.choice(commits).id
    behind = reached([place], commits, [])
    theirs = [*(each for each in commits if each.id in behind), commit(1_000_000_000, [place])]
    with tempfile.TemporaryDirectory() as folder:
        real = asked_by_git(folder, client, theirs)
        server = Server(local(os.path.join(folder, "server.git")))
        ours = asked_by_engine(client, engine, server)
        server.close()
    return told_first(real), told_first(ours)


def compared(client, engine):
    """The windows of real Git and of the engine, each with what it has to be."""
    with tempfile.TemporaryDirectory() as folder:
        real = list(filter(None, asked_by_git(folder, client)))
    ours = list(filter(None, asked_by_engine(client, engine)))
    if client.algorithm == "consecutive":
        return [(real, ours)]
    return [(real, wanted(client, True)), (ours, wanted(client, False))]


def wanted(client, as_git):
    """The windows of `skipping` that have haves."""
    return list(filter(None, windows_of(Skipping(client, as_git).told())))


def compare_sharing(asked, engine):
    """Compares the haves that are told to servers that share commits."""
    counts = Counter()
    for number in range(asked.first, asked.first + asked.count):
        pair = sharing(Random(f"{asked.seed}/{number}"), engine)
        counts["clients"] += pair is not None
        if pair is not None:
            counts["haves"] += sum(map(len, pair[0]))
            counts["rounds"] += len(pair[0]) > 1
        if pair is not None and pair[0] != pair[1]:
            counts["others"] += 1
            print(f"client {number}:", *pair, sep="\n    ")
    print(f"{counts['clients']} clients without a border, {counts['rounds']} of them with two windows or more")
    print(f"{counts['haves']} haves of real Git, {counts['others']} clients with others")
    return DIFFERENT if counts["others"] else DONE


def compare_strangers(asked, engine):
    """Compares the haves that are told to servers that share nothing."""
    counts = Counter()
    for number in range(asked.first, asked.first + asked.count):
        client = client_of(Random(f"{asked.seed}/{number}"))
        pairs = compared(client, engine)
        counts[client.algorithm] += 1
        counts["alike"] += len(pairs) == 2 and pairs[0][0] == pairs[1][0]
        counts["haves"] += sum(map(len, pairs[0][0]))
        if any(one != other for one, other in pairs):
            counts["others"] += 1
            print(f"client {number}, {client.algorithm}:", *pairs, sep="\n    ")
    print(f"{counts['consecutive']} clients with consecutive; {counts['skipping']} with skipping, of which "
          f"{counts['alike']} tell the same as real Git")
    print(f"{counts['haves']} haves of real Git, {counts['others']} clients with others")
    return DIFFERENT if counts["others"] else DONE


def main(arguments: list[str]) -> int:
    asked = words(arguments)
    engine = Engine(asked.engine)
    return compare_sharing(asked, engine) if asked.shared else compare_strangers(asked, engine)
