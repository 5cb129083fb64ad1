"""What objects link to, and what is reached by their links."""

from bagjulen_tools.protocol.lines import decoded_text

SUBMODULE = b"160000"


def links_of(each):
    """The ids that an object links to: of a commit its tree and its parents, of a tree its entries but submodules, of a tag
    its object.
    """
    if each.kind == "blob":
        return []
    if each.kind == "tree":
        return [digits for mode, digits in entries_of(each.data, len(each.id) // 2) if mode != SUBMODULE]
    words = ("tree", "parent") if each.kind == "commit" else ("object",)
    lines = [line.partition(" ") for line in decoded_text(each.data).partition("\n\n")[0].split("\n")]
    return [value for word, _, value in lines if word in words]


def entries_of(data, id_size):
    """The mode and the id of each entry of a tree."""
    place = 0
    while place < len(data):
        end = data.index(b"\0", place) + 1
        yield data[place : data.index(b" ", place)], data[end : end + id_size].hex()
        place = end + id_size


def reached(objects, starts, border=()):
    """These ids with all that they lead to, also what isn't stored. The parents of the border's commits are left out."""
    found, rest = set(), list(starts)
    while rest:
        digits = rest.pop()
        if digits in found:
            continue
        found.add(digits)
        each = objects.get(digits)
        if each is not None:
            links = links_of(each)
            rest += links[:1] if digits in border else links
    return found


def tags_from(objects, digits):
    """The ids of the tags from an id on, and of what the last one leads to."""
    way = [digits]
    while way[-1] in objects and objects[way[-1]].kind == "tag":
        way += links_of(objects[way[-1]])
    return way
