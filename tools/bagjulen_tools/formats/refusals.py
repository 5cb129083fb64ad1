"""Refusals of the engine in words: docs/SCENES.md has its tokens."""

MEMORY = "the engine ran out of memory"
# By the name of a token; `{}` stands for what it keeps, and `{0}`, `{1}` for the words of that.
WORDS = {
    "MissingRefSpecs": "there is no refspec to fetch by",
    "InitRefMap": "two of the refspecs write one reference, or one of them can't be read",
    "Transport": "the connection ended",
    "Interrupted": "it was interrupted",
    "Client": "the connection with the server failed",
    "WorktreeListing": "the work trees can't be listed",
    "OpenWorktreeRepo": "a work tree can't be opened",
    "FollowSymref": "a symbolic reference can't be followed",
    "Malformed": "what the server sent breaks the protocol at {}",
    "ReplyTooLong": "the server's reply has more than {} bytes",
    "LineTooLong": "a line of {} bytes is too long to be sent",
    "NoMapping": "none of the {} references of the server is asked for",
    "ServerError": "remote error: {}",
    "MissingFeature": "the server doesn't support {}",
    "BadParameter": "a parameter can't be sent: {}",
    "IncompatibleObjectHash": "mismatched algorithms: client {0}; server {1}",
    "RejectShallowRemoteConfig": "bad value of clone.rejectShallow: {}",
    "NegotiationAlgorithmConfig": "unknown fetch negotiation algorithm '{}'",
    "PackThreads": "bad value of pack.threads: {}",
    "RejectShallowRemote": "source repository is shallow, reject to clone.",
    "Collision": "two different objects have the id {}",
    "FindCommit": "could not read commit {}",
    "MissingObject": "the object {} is missing",
    "TagCycle": "the tag {} leads back to itself",
    "PackDigest": "the pack is corrupted: its digest is {0}, and that of its bytes {1}",
    "IdMismatch": "an object has the id {0} written, and its bytes have {1}",
    "Disconnected": "the history isn't whole: {0} needs {1}, which is neither here nor sent",
    "KeepFile": "can't write {}",
    "RemovePackKeepFile": "can't remove {}",
    "FindReference": "the reference {} can't be read",
    "InvalidRefName": "'{}' is no name of a reference",
    "Cycle": "the reference {} leads back to itself",
    "Depth": "the reference {} stands for too many names, one behind the other",
    "Unborn": "the reference {} leads to no commit",
    "Expectation": "a reference was changed meanwhile: {}",
    "EditReferences": "a reference was changed meanwhile: {}",
    "NoMemory": MEMORY,
    "Workers": "{} workers can't be had: it takes one to eight",
    "ShallowServer": "the source repository is shallow",
    "WrongId": "the object {} has bytes of another id",
    "NotClosed": "the repository isn't whole: {0} needs {1}, which is missing",
    "NotServable": "the reference {} can't be served",
}


def refusal_words(token: str) -> str:
    """The token of a refusal in words."""
    name, _, kept = token.partition(" ")
    if name == "PeelToId":
        reference, _, cause = kept.partition(" ")
        return f"{reference} leads to no object: {refusal_words(cause)}"
    if name == "Worker":
        index, _, cause = kept.partition(" ")
        return f"worker {index}: {refusal_words(cause)}"
    words = WORDS.get(name)
    if words is None:
        return f"the engine refused it, and said {token!r}"
    if "{0}" not in words:
        return words.format(kept)
    first, _, second = kept.partition(" ")
    return words.format(first, second)
