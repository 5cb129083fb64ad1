"""What a run may write, by its status, and the names of refusals that have to be met: the table of docs/SCENES.md and of
docs/evidence/rows.md, as far as random input reaches.
"""

import re
from dataclasses import dataclass

MALFORMED = 4
LINE = rb'> (?:0000|0001|"(?:[ !#-\[\]-~]|\\[n"\\]|\\x[0-9a-f]{2})*")\n'
ANY_ID = rb"(?:[0-9a-f]{40}|[0-9a-f]{64})"
# Texts that the caller gives, or that a refusal keeps, stand as they are, line feeds too.
TEXT = rb"(?s:.*?)"
IDS = {b"id": ANY_ID, b"text": TEXT}
STATE = (rb"(?:ref (?:@[^\n]+|%(id)s) [^\n]+\n)*(?:log [^\n]+ %(id)s %(id)s %(text)s\n)*(?:border %(id)s\n)*"
         rb"(?:id %(id)s\n)*(?:keep %(text)s\n)?") % IDS
BROKEN_SCENE = re.compile(rb"malformed (\d+)\n")
REPORTS = {
    0: re.compile(rb"(?:%s)+(?:map \d+ [^\n]+ -> [^\n]+: %s\n)*%sok\n" % (LINE, TEXT, STATE)),
    1: re.compile(rb"(?:%s)*refused ([A-Za-z]+)(?: %s)?\n%s" % (LINE, TEXT, STATE)),
    MALFORMED: BROKEN_SCENE,
}
JOURNAL = (rb"(?:take \d+ \d+\n(?:has %(id)s\n)*(?:shallow %(id)s\n)*(?:unshallow %(id)s\n)*"
           rb"|commit \d+ \d+\n(?:set [^\n]+ (?:@[^\n]+|%(id)s)\n|gone [^\n]+\n)*)*"
           rb"(?:ref (?:@[^\n]+|%(id)s) [^\n]+\n)*(?:border %(id)s\n)*(?:id %(id)s\n)*") % IDS
RACE_REPORTS = {
    0: re.compile(JOURNAL + rb"ok\n"),
    1: re.compile(rb"refused (NotClosed) %(id)s %(id)s\n|%(journal)s(?:refused \d+ ([A-Za-z]+)(?: %(text)s)?\n)+"
                  % (IDS | {b"journal": JOURNAL})),
    MALFORMED: BROKEN_SCENE,
}
FINDINGS = {
    0: re.compile(rb"ok\n"),
    1: re.compile(rb"(?:missing %(id)s %(id)s\n)*(?:broken [^\n]+ (?:Cycle|Depth|(?:MissingObject|TagCycle) %(id)s)\n)*"
                  rb"(?:unreached %(id)s\n)*found \d+\n" % IDS),
    MALFORMED: BROKEN_SCENE,
}
MIRRORS = {
    0: re.compile(rb"(?:ref %(id)s [^\n]+\n)*(?:id %(id)s\n)*ok\n" % IDS),
    1: re.compile(rb"refused (?:Workers \d+|ShallowServer|WrongId %(id)s|NotClosed %(id)s %(id)s|NotServable [^\n]+)\n" % IDS),
    MALFORMED: BROKEN_SCENE,
}
ROWS = {0: re.compile(rb"= (?s:.*)\n")}
# A line of a report and what is counted of it, and the names of which each has to be met.
TOKEN = re.compile(rb"^refused (?:\d+ )?([A-Za-z]+)", re.MULTILINE)
FETCH_NAMES = """BadParameter Disconnected FindCommit FindReference IdMismatch IncompatibleObjectHash InitRefMap InvalidRefName
LineTooLong Malformed MissingFeature MissingRefSpecs NegotiationAlgorithmConfig NoMapping PackDigest PackThreads PeelToId
RejectShallowRemote RejectShallowRemoteConfig ReplyTooLong ServerError""".split()
FOUND = re.compile(rb"^(missing|unreached|broken [^\n ]+ [A-Za-z]+)", re.MULTILINE)
FINDING_NAMES = "Cycle Depth MissingObject missing unreached".split()
MIRROR_NAMES = "NotClosed NotServable ShallowServer Workers".split()
GIVEN, LENGTH = rb"gives [^\n]*", rb"[0-9a-f]{4}"
# What stands before depth lines, and their forms.
FRONT = rb"(?:plain-pack(?:-2)?|include-tag|shallow [0-9a-f]+)%0A" + LENGTH
COUNT, SINCE, NOT = rb"deepen [0-9]+%0A" + LENGTH, rb"deepen-since [0-9]+%0A" + LENGTH, rb"(?:deepen-not [^%%\n]+%%0A%b)+" % LENGTH
FORMS = {
    "deepen": COUNT, "deepen-relative": COUNT + rb"deepen-relative%0A" + LENGTH, "deepen-since": SINCE, "deepen-not": NOT,
    "deepen-since with deepen-not": SINCE + NOT,
}
PRINTED = {
    "ShallowServer": rb"refused a repository with a shallow border",
    "WrongId": rb"refused the stored id ",
    "NotClosed": rb"refused the stored object ",
    "NotServable": rb"refused the reference ",
    "Malformed": rb"refused malformed line at byte ",
    "want not offered": GIVEN + rb"ERR want [0-9a-f]+ not offered%0A",
    "shallow": GIVEN + rb"%bshallow [0-9a-f]+%%0A" % LENGTH,
    "unshallow": GIVEN + rb"%bunshallow [0-9a-f]+%%0A" % LENGTH,
    "no moves": GIVEN + rb"shallow-info%0A0001",
    # A request with depth lines of a form in one piece, and `shallow-info` behind it.
    **{name: rb"\? [^\n]*%b%bwant (?s:.*)shallow-info%%0A" % (FRONT, form) for name, form in FORMS.items()},
}
PRINTED_OF_BUNDLES = {
    "Missing": rb"refused the repository isn't closed",
    "Broken": rb"refused a reference is broken",
    "NameTooLong": rb"refused a reference's line is too long",
    "Malformed": rb"refused malformed bundle at byte ",
    "Pack, Malformed": rb"since malformed pack at byte ",
    "Pack, Digest": rb"since the pack's digest is not that of its bytes",
    "Pack, IdMismatch": rb"since an object of the pack has another id",
}


@dataclass
class Outcomes:
    """What may be written with each status, and the names that have to be met."""

    forms: dict[int, re.Pattern]
    names: list[str]
    # What tells a name in what is written; or the text that is printed for each name.
    told: re.Pattern | dict[str, bytes]

    def names_in(self, written):
        """The names that are told, each once."""
        if isinstance(self.told, dict):
            return {name for name, text in self.told.items() if re.search(rb"^" + text, written, re.MULTILINE)}
        return {found.rsplit(b" ", 1)[-1].decode() for found in self.told.findall(written)}


OUTCOMES = {
    "fetch": Outcomes(REPORTS, FETCH_NAMES, TOKEN),
    "race": Outcomes(RACE_REPORTS, ["NotClosed", "EditReferences", *FETCH_NAMES], TOKEN),
    "check": Outcomes(FINDINGS, FINDING_NAMES, FOUND),
    "mirror": Outcomes(MIRRORS, MIRROR_NAMES, TOKEN),
    "server": Outcomes(ROWS, list(PRINTED), PRINTED),
    "bundle": Outcomes(ROWS, list(PRINTED_OF_BUNDLES), PRINTED_OF_BUNDLES),
}
