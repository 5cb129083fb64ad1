"""What the program of crates/serve_rows has to write of a row, by docs/evidence/rows.md and docs/FORMATS.md."""

import re
from urllib.parse import unquote_to_bytes

from bagjulen_tools.formats.bundle import bundle_of, judged
from bagjulen_tools.formats.grammar import MalformedObject
from bagjulen_tools.formats.plainpack import Object, object_id
from bagjulen_tools.protocol.lines import decoded_text, encoded_text
from bagjulen_tools.trials.findings import cause_of, findings
from bagjulen_tools.trials.plain_server import Plainserver, State
from bagjulen_tools.trials.row_server import escaped

TEXTS = {
    "ShallowServer": "a repository with a shallow border isn't served",
    "WrongId": "the stored id {0} isn't its object's hash",
    "NotClosed": "the stored object {0} links to {1}, which isn't stored",
    "NotServable": "the reference {0} can't be served",
    "Malformed": "malformed line at byte {0} of the request",
    "RequestTooLong": "the request is longer than {0} bytes",
}
DETAILS = {"WrongId": ("at",), "NotClosed": ("from", "to"), "NotServable": ("at",)}
PACK_TEXTS = {
    "MalformedPack": "malformed pack at byte {0}",
    "OtherDigest": "the pack's digest is not that of its bytes",
    "OtherId": "an object of the pack has another id than the one written",
}
ENTRY = re.compile(rb"(?:object|under ([0-9a-f]+)) (\w+) ?(.*)", re.DOTALL)


def answer_of(row):
    """What is written of a row, or None where it is none that is known."""
    title, _, rest = row.partition(b"\n")
    lines = rest.removesuffix(b"\n").split(b"\n")
    put = [line for line in lines if not line.startswith(b"? ")]
    kinds = {b"= serve ": ServeRow, b"= bundle ": BundleRow}
    try:
        told = kinds[title[: title.find(b" ", 2) + 1]](state_of(put)).tell([line[2:] for line in lines[len(put) :]])
    except (MalformedObject, ValueError, KeyError):
        return None
    return b"".join(line + b"\n" for line in [title, *told])


def state_of(lines):
    """The repository that the lines put down."""
    hash_name, objects, references, border = "sha1", {}, {}, []
    for line in lines:
        word, _, value = line.partition(b" ")
        if word == b"hash":
            hash_name = value.decode()
        elif word == b"ref":
            name, _, target = decoded_text(value).partition(" ")
            references[name] = f"@{target}" if not re.fullmatch("[0-9a-f]{40}|[0-9a-f]{64}", target) else target
        elif word == b"border":
            border = [value.decode()]
        else:
            match = ENTRY.fullmatch(line)
            if match is None:
                raise ValueError
            kind, data = match[2].decode(), unquote_to_bytes(match[3])
            digits = object_id(hash_name, kind, data) if match[1] is None else match[1].decode()
            objects[digits] = Object(digits, kind, data)
    return State(hash_name, objects, references, border)


def gives(data):
    """The line of bytes that are given."""
    return b"gives %d " % len(data) + escaped(data)


def refused(texts, name, *details):
    """The line of a refusal."""
    return encoded_text("refused " + texts[name].format(*details))


def debug(hash_name, digits):
    """An id as it is printed for who looks for a fault."""
    return f"{hash_name.capitalize()}([{', '.join(map(str, bytes.fromhex(digits)))}])"


class QuestionsOf:
    """A row, whose questions are methods with their names."""

    QUESTIONS: tuple[str, ...] = ()

    def __init__(self, state):
        self.state = state

    def tell(self, questions):
        """The lines that are told, each question before what is told of it."""
        told = []
        for question in questions:
            word, _, rest = question.partition(b" ")
            if word.decode("latin-1") not in self.QUESTIONS:
                raise ValueError
            told += [b"? " + question, *getattr(self, "_" + word.decode())(unquote_to_bytes(rest))]
        return told


class ServeRow(QuestionsOf):
    """A row of a server and of a peer."""

    QUESTIONS = "feed", "give", "copy", "fresh", "bytes", "cuts", "send", "receive"

    def tell(self, questions):
        trouble = self.state.trouble()
        if trouble is not None:
            return list(self._unserved(*trouble))
        self._fresh(b"")
        return super().tell(questions)

    def _unserved(self, name, details):
        if name == "NotServable":
            told = ", ".join(map(str, encoded_text(details[0])))
            yield refused(TEXTS, name, f"FullName {{ text: Text {{ bytes: [{told}] }} }}")
        else:
            yield refused(TEXTS, name, *(debug(self.state.hash_name, digits) for digits in details))
        yield from (encoded_text(f"{word} {detail}") for word, detail in zip(DETAILS.get(name, ()), details))

    def _feed(self, piece):
        self.left += self.server.feed(piece)
        return [*self._refusal(self.server), self._turn(self.server, self.left)]

    def _give(self, count):
        given, self.left = self.left[: int(count)], self.left[int(count):]
        return [gives(given)]

    def _copy(self, _):
        return []

    def _fresh(self, _):
        self.server, self.left, self.peer, self.peer_left = Plainserver(self.state), b"", Plainserver(self.state), b""
        return []

    def _bytes(self, text):
        server, given = Plainserver(self.state), b""
        for at in range(len(text)):
            given += server.feed(text[at : at + 1])
            if server.refusal is not None:
                return list(self._refusal(server))
        return [gives(given), self._turn(server, b"")]

    def _cuts(self, text):
        whole, turns = Plainserver(self.state).feed(text), []
        for place in range(len(text) + 1):
            server = Plainserver(self.state)
            turn = self._turn(server, server.feed(text[:place]))
            if turns and turns[-1][1] == turn:
                turns[-1][0] += 1
            else:
                turns.append([1, turn])
        return [*(b"%d %s" % tuple(each) for each in turns), gives(whole)]

    def _send(self, piece):
        self.peer_left += self.peer.feed(piece)
        return [b"sent" if self.peer.refusal is None else b"failed"]

    def _receive(self, count):
        given, self.peer_left = self.peer_left[: int(count)], self.peer_left[int(count):]
        return [gives(given)]

    def _refusal(self, server):
        if server.refusal is not None:
            yield refused(TEXTS, *server.refusal)

    def _turn(self, server, left):
        return b"turn " + (b"Failed" if server.refusal is not None else b"Send" if left else b"Receive")


class BundleRow(QuestionsOf):
    """A row of bundles. Objects that don't stand at their own ids are none that is known."""

    QUESTIONS = "check", "write", "read", "put", "save", "load", "files"

    def __init__(self, state):
        super().__init__(state)
        self.file = None
        if state.misnamed():
            raise ValueError

    def _check(self, _):
        text, status = findings(self.state)
        return [*text.splitlines(), b"status %d" % status]

    def _write(self, _):
        text = self._written()
        return [gives(text)] if isinstance(text, bytes) else text

    def _written(self):
        """The text, or the lines of the refusal."""
        state, missing = self.state, self.state.missing()
        if missing:
            return [b"refused the repository isn't closed", *(encoded_text(f"{word} {each}") for word, each in zip(("from", "to"), missing[0]))]
        for name in state.names():
            cause = cause_of(state, name)
            if cause is not None:
                return [b"refused a reference is broken", encoded_text(f"at {name}"), encoded_text(f"since {cause.split(' ')[0]}")]
        long = [name for name in state.names() if len(encoded_text(f"ref {state.references[name]} {name}\n")) > 65_516]
        if long:
            return [b"refused a reference's line is too long", encoded_text(f"at {long[0]}")]
        return bundle_of(state.hash_name, state.references, state.border, list(state.objects.values())).to_bytes()

    def _read(self, data):
        return self._told(data, [b"ok", b"same"])

    def _told(self, data, after=()):
        bundle, name, *details = judged(data)
        if bundle is None:
            if name in PACK_TEXTS:
                return [b"refused a bundle's pack isn't read", encoded_text("since " + PACK_TEXTS[name].format(*details))]
            return [b"refused malformed bundle at byte %d" % details[0]]
        names = sorted(bundle.references, key=encoded_text)
        return [encoded_text(f"hash {bundle.hash_name}"),
                *(encoded_text(f"ref {name} {bundle.references[name].removeprefix('@')}") for name in names),
                *(encoded_text(f"border {digits}") for digits in bundle.border),
                *(encoded_text(f"object {each.id} {each.kind} {len(each.data)}") for each in bundle.objects), *after]

    def _put(self, data):
        self.file = data
        return []

    def _save(self, _):
        text = self._written()
        if isinstance(text, bytes):
            self.file = text
            return [b"saved"]
        return text

    def _load(self, _):
        return [b"nothing"] if self.file is None else self._told(self.file)

    def _files(self, _):
        return [b"failed" if self.file is None else b"file a.bundle"]
