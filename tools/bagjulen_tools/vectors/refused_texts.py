"""The rows of text_rows on what is refused behind long or nearly right texts: `refused-texts in`, `refused-texts out`."""

import hashlib

TREE = "4b825dc642cb6eb9a060e54bf8d69288fbee4904"
ENTRY = "100644 a%00" + 20 * "a"
LONG = 5000 * "a"
NAMES = 2000


def decoded(text):
    """The bytes of a text in which a percent sign and two digits stand for one."""
    head, *rest = text.split("%")
    return head.encode() + b"".join(bytes([int(part[:2], 16)]) + part[2:].encode() for part in rest)


def read(kind, text, *answer):
    """A question for an object of SHA-1, and its answer."""
    data = decoded(text)
    name = hashlib.sha1(b"%s %d\0" % (kind.encode(), len(data)) + data).hexdigest()
    return [f"object sha1 {kind} {text}", f"id {name}", *answer]


def refused(kind, text, place):
    """A question for a text that is no object, and where it stops to be one."""
    return read(kind, text, f"refused malformed object at byte {place}")


def commit(seconds):
    """A commit of the empty tree, made so many seconds after 1970."""
    return f"tree {TREE}%0Aauthor A <a@x> 1 +0000%0Acommitter A <a@x> {seconds} +0000%0A%0Aone%0A"


def made(seconds):
    """A question for a commit that was made then."""
    return read("commit", commit(seconds), f"seconds {int(seconds)}", f"link {TREE}", f"other {TREE}")


def ids():
    """Ids with a digit that is none, and with too many or too few."""
    sha256 = "6ef19b41225c5369f1c104d45d8d85efa9b057b53b14b4b9b939dd74decc5321"
    no = "refused no hex digit of an id at byte "
    yield [f"id {TREE[:19]}g{TREE[20:]}", no + "19"]
    yield [f"id {sha256}", f"id {sha256}"]
    yield [f"id {sha256.upper()}", f"id {sha256}"]
    yield [f"id {sha256[:63]}g", no + "63"]
    yield [f"id {TREE}0", no + "41"]
    yield [f"id {sha256}0", no + "65"]
    yield [f"id {LONG[:4000]}", no + "4000"]


def seconds():
    """The greatest number of seconds, one more, and numbers of more than 19 digits."""
    place = len(f"tree {TREE}\nauthor A <a@x> 1 +0000\n")
    yield made(2 ** 63 - 1)
    yield refused("commit", commit(2 ** 63), place)
    yield made("0000000000000000001")
    yield refused("commit", commit("00000000000000000001"), place)


def tags():
    """The first line and the second of a tag, each broken."""
    line = f"object {TREE}%0A"
    place = len(f"object {TREE}\n")
    yield refused("tag", "", 0)
    yield refused("tag", f"object {TREE[:39]}%0Atype tree%0A", 0)
    yield refused("tag", f"object {TREE}", 0)
    yield refused("tag", line, place)
    yield refused("tag", line + "type branch%0A", place)
    yield refused("tag", line + "type tree", place)
    yield read("tag", line + "type tree%0A", "no seconds", f"link {TREE}", f"other {TREE}")


def trees():
    """Entries whose mode, name or id is none, alone and behind one that is right."""
    yield refused("tree", "1006440 a%00" + 20 * "a", 0)
    yield refused("tree", "100684 a%00" + 20 * "a", 0)
    yield refused("tree", " a%00" + 20 * "a", 0)
    yield refused("tree", "100644 %00" + 20 * "a", 0)
    yield refused("tree", ENTRY + "40000 b%00" + 19 * "a", 29)
    yield refused("tree", 100 * ENTRY + "40000 b", 2900)


def files():
    """What is of the wrong kind for a call."""
    yield ["write-file /a/b 1", "done"]
    yield ["list /a/b", "refused a file call failed"]
    yield ["make-dir /c", "done"]
    yield ["rename /a/b /c", "refused a file call failed"]
    yield ["read-file /a/b", "bytes 1"]
    yield ["list /c"]
    yield ["remove-dir /a/b", "refused the other side failed"]
    yield ["remove-dir /", "done"]
    yield ["kind /", "directory"]
    yield ["list /"]
    yield ["kind /a", "none"]


def configurations():
    """Long configurations, overrides and values that are refused."""
    yield ["read local trusted [a]%0A" + 3000 * "b = 1%0A" + "1b = 1%0A", "refused malformed configuration line 3002"]
    yield [f"read local trusted [a]%0Ab = {LONG}\\q%0A", "refused malformed configuration line 2"]
    yield [f"read local trusted [a]%0A{LONG}_ = 1%0A", "refused malformed configuration line 2"]
    yield [f"override {LONG}=1", "refused an override without a section and a key"]
    yield [f"override {LONG}.=1", "refused an override without a section and a key"]
    yield ["section a", "section 0"]
    yield [f"value 0 b {LONG}%00", "refused a byte that no value can have at 5000"]
    yield [f"override a.b={LONG}%00", "refused a byte that no value can have at 5004"]


def mapping():
    """Names that three refspecs match, without those that begin with 1; one of them has two sources."""
    specs = "+refs/heads/*:refs/x/*,refs/heads/*:refs/x/*,^refs/heads/1*,refs/heads/2:refs/x/3"
    names = [str(number) for number in range(NAMES)]
    kept = [name for name in names if name[0] != "1"]
    yield [
        f"map fetch sha1 {specs} " + ",".join(f"refs/heads/{name}" for name in names),
        *(f"0 refs/heads/{name} refs/x/{name}" for name in kept),
        "3 refs/heads/2 refs/x/3",
        "conflict refs/x/3",
        "of refs/heads/3",
        "of refs/heads/2",
    ]


def main(arguments: list[str]) -> int:
    rows = {
        "ids have 40 or 64 digits": ids,
        "seconds end before 2 to the 63rd": seconds,
        "the line of a tag that breaks its grammar is told": tags,
        "the entry of a tree that breaks its grammar is told": trees,
        "what stands in the way of a call on files": files,
        "long configurations are refused where they stop": configurations,
        "2,000 names are mapped": mapping,
    }
    for title, questions in rows.items():
        print("=", title)
        for question, *answer in questions():
            print("?", question)
            if arguments[0] == "out":
                for line in answer:
                    print(line)
    return 0
