"""What commits and tags lead to: their parents, and what a tag names."""

from bagjulen_tools.protocol.lines import decoded_text


def links_of(objects):
    """What each commit and each tag of these objects names directly."""
    return {each.id: _named(each) for each in objects if each.kind in ("commit", "tag")}


def reached(links, ids):
    """These ids with all that they lead to by links."""
    found, rest = set(), list(ids)
    while rest:
        digits = rest.pop()
        if digits not in found and digits is not None:
            found.add(digits)
            rest.extend(links.get(digits, []))
    return found


def _named(each):
    head = decoded_text(each.data).partition("\n\n")[0]
    word = "parent" if each.kind == "commit" else "object"
    return [line.partition(" ")[2] for line in head.split("\n") if line.startswith(f"{word} ")]
