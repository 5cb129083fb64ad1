"""The sources that refspecs name, and which of them a server has."""

from collections.abc import Iterable, Mapping

from bagjulen_tools.formats.grammar import DIGITS
from bagjulen_tools.remote.refspecs import PLACES, sides
from bagjulen_tools.trouble import GIT_REFUSED, Trouble


def check_sources(specs: Iterable[str], listed: Mapping[str, str | None], hash_name: str) -> None:
    """Refuses the first refspec whose source is neither an id nor among what the server listed, as Git does.

    Of a source with a star nothing has to be there, and an unborn name isn't.
    """
    for spec in specs:
        source, _ = sides(spec)
        if spec.startswith("^") or "*" in source or _is_id(source, hash_name):
            continue
        if not any(listed.get(place.format(source)) for place in PLACES):
            raise Trouble(GIT_REFUSED, f"couldn't find remote ref {source}")


def _is_id(source: str, hash_name: str) -> bool:
    return len(source) == DIGITS[hash_name] and all(letter in "0123456789abcdefABCDEF" for letter in source)
