"""Why real Git and the engine may differ. Each reason is named by its title in docs/DIFFERENCES.md."""

from bagjulen_tools.trials.real_fetch import is_tag_name

UP_TO_DATE, FAST_FORWARD, FORCED, NEW = "up-to-date", "fast-forward", "forced-update", "new"
NOT_FORWARD = "rejected (non-fast-forward)"
OTHER_TAG = "rejected (would overwrite existing tag)"
NOT_SENT = "unrelated tag on remote"
NO_COMMITS = "no commits selected for shallow requests"
DEPTHS = ("depth", "deepen", "since", "not")


def reason_for(difference, fetched):
    """The title of the first reason that a difference falls under, or None."""
    return next((title for title, holds in REASONS.items() if holds(difference, fetched)), None)


def _is_checked_out(_, fetched):
    return _git_says(fetched, "refusing to fetch into branch")


def _has_no_source(_, fetched):
    return _git_says(fetched, "couldn't find remote ref")


def _git_says(fetched, text):
    """Whether Git refused the whole fetch with this text."""
    return text in (fetched.real.refused or "")


def _is_followed(difference, fetched):
    """A tag that Git follows only where it isn't there and a refspec has a destination."""
    mapping = fetched.mapping_of(difference)
    if not _is_implicit(mapping, fetched) or fetched.real_mode(mapping) is not None:
        return False
    has_destination = any(":" in spec for spec in fetched.pair.specs)
    return mapping.mode in (UP_TO_DATE, OTHER_TAG) or mapping.mode == NEW and not has_destination


def _comes_by_itself(difference, fetched):
    """A tag that Git asks for in a second request."""
    mapping = fetched.mapping_of(difference)
    return _is_implicit(mapping, fetched) and mapping.mode == NOT_SENT and fetched.real_mode(mapping) == NEW


def _is_behind_rejection(difference, fetched):
    """A tag that Git would ask for in a second request, which it doesn't make where a reference was rejected."""
    mapping = fetched.mapping_of(difference)
    if not _is_new_here_alone(mapping, fetched):
        return False
    is_rejected = any(mode.startswith("rejected") for mode in fetched.real.verdicts.values())
    told = {fetched.id_of(each) for each in fetched.report.mappings if fetched.real_mode(each) is not None}
    return is_rejected and not _target(mapping, fetched) & (fetched.stored_before() | told)


def _is_behind_symbolic(difference, fetched):
    """A tag that only the history of references brings that a star leads to symbolic destinations."""
    mapping = fetched.mapping_of(difference)
    if not _is_new_here_alone(mapping, fetched):
        return False
    written = [each for each in fetched.report.mappings if not _is_implicit(each, fetched)]
    symbolic = [each for each in written if _names_another(each.destination, fetched)]
    passed_over = [each for each in symbolic if not fetched.real_mode(each)]
    others = [fetched.id_of(each) for each in written if each not in passed_over]
    history, target = fetched.pair.history, _target(mapping, fetched)
    behind = history.reached(fetched.id_of(each) for each in passed_over)
    return bool(target & behind) and not target & (history.reached(others) | fetched.stored_before())


def _is_new_here_alone(mapping, fetched):
    """Whether a mapping is a tag by itself that is new here, and that Git doesn't tell."""
    return _is_implicit(mapping, fetched) and mapping.mode == NEW and fetched.real_mode(mapping) is None


def _target(mapping, fetched):
    """The id of a tag, and what it peels to."""
    digits = fetched.id_of(mapping)
    return {digits, *fetched.pair.history.links()[digits]} if digits in fetched.tags() else {digits}


def _names_another(name, fetched):
    """Whether a reference of the client was symbolic."""
    return fetched.before.get(name, "").startswith("@")


def _is_endless(_, fetched):
    """A symbolic destination whose names lead to no object, which refuses the whole fetch here alone."""
    token, _, rest = (fetched.report.refused or "").partition(" ")
    return token == "PeelToId" and _names_another(rest.partition(" ")[0], fetched) and fetched.real.refused is None


def _is_implicit(mapping, fetched):
    """Whether a mapping is there since tags are included."""
    if mapping is None or fetched.pair.tags != "included":
        return False
    return is_tag_name(mapping.source) and mapping.source == mapping.destination


def _is_tag_elsewhere(difference, fetched):
    """An annotated tag that a reference outside `refs/tags/` has before or after."""
    mapping = fetched.mapping_of(difference)
    if mapping is None or is_tag_name(mapping.destination or ""):
        return False
    places = fetched.before, fetched.real.references, fetched.report.references
    return any(place.get(mapping.destination) in fetched.tags() for place in places)


def _is_nested(difference, fetched):
    """A reference above or below another."""
    mapping = fetched.mapping_of(difference)
    if mapping is None or mapping.destination is None:
        return False
    name = mapping.destination
    return any(other.startswith(f"{name}/") or name.startswith(f"{other}/") for other in fetched.report.references)


def _is_symbolic(difference, fetched):
    """A destination that stands for a name, or the name that it stands for."""
    symbolic = {each.destination: fetched.before[each.destination][1:] for each in fetched.report.mappings
                if _names_another(each.destination, fetched)}
    names = {*symbolic.keys(), *symbolic.values()}
    mapping = fetched.mapping_of(difference)
    return difference.key in names or mapping is not None and mapping.destination in names


def _is_guessed(difference, fetched):
    """What a dry run can't know, or what Git's dry run changes."""
    if "dry-run" not in fetched.pair.options:
        return False
    mapping = fetched.mapping_of(difference)
    if mapping is None:
        return difference.is_of_border()
    return mapping.mode == FAST_FORWARD or _is_implicit(mapping, fetched) and mapping.mode == NEW


def _is_counted_otherwise(difference, fetched):
    """A border commit where Git counts the depth from other references, or finds no commit for them."""
    if not any(option.startswith(DEPTHS) for option in fetched.pair.options):
        return False
    if any(NO_COMMITS in (refused or "") for refused in (fetched.real.refused, fetched.refusal)):
        return True
    mapped = fetched.report.mappings
    stay = [each.mode == UP_TO_DATE and each.destination is not None for each in mapped]
    tags = [each for each in mapped if _is_implicit(each, fetched) and fetched.real_mode(each) == NEW]
    return difference.is_of_border() and (any(stay) and not all(stay) or bool(tags))


def _has_border_commit_unsent(_, fetched):
    """A commit that the server names as one of the border, and doesn't send."""
    token, *links = (fetched.report.refused or "").split(" ")
    return token == "Disconnected" and links[0] == links[1] and links[0] in fetched.real.border


def _is_dated(difference, fetched):
    return fetched.pair.history.has_skew and _goes_forward_once(difference, fetched)


def _is_through_border(difference, fetched):
    return bool(fetched.border_before or fetched.report.border) and _goes_forward_once(difference, fetched)


def _goes_forward_once(difference, fetched):
    """Whether one of the two finds a path from the old commit to the new one, and the other none."""
    mapping = fetched.mapping_of(difference)
    if mapping is None:
        return False
    modes = {mapping.mode, fetched.real_mode(mapping)}
    return FAST_FORWARD in modes and bool(modes & {FORCED, NOT_FORWARD})


REASONS = {
    "A checked-out branch": _is_checked_out,
    "A source that matches nothing": _has_no_source,
    "A border commit that isn't sent": _has_border_commit_unsent,
    "A symbolic destination that leads nowhere": _is_endless,
    "Dry runs": _is_guessed,
    "Tags that are there, and refspecs without destination": _is_followed,
    "Tags that come in one request": _comes_by_itself,
    "Tags beside a rejected reference": _is_behind_rejection,
    "Tags of a symbolic destination": _is_behind_symbolic,
    "An annotated tag outside `refs/tags/`": _is_tag_elsewhere,
    "A name and another below it": _is_nested,
    "A symbolic destination": _is_symbolic,
    "Where a depth is counted from": _is_counted_otherwise,
    "A dated path": _is_dated,
    "A path through the border": _is_through_border,
}
