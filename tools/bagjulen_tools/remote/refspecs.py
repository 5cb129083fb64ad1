"""What is asked of refspecs outside the engine: which of them a mapping comes from, for what is told of it."""

PLACES = ("{}", "refs/{}", "refs/tags/{}", "refs/heads/{}", "refs/remotes/{}", "refs/remotes/{}/HEAD")


def sides(spec: str) -> tuple[str, str | None]:
    """The source and the destination of a refspec, the latter None where it has none."""
    source, colon, destination = spec.removeprefix("+").partition(":")
    return "HEAD" if source in ("", "@") else source, destination if colon and destination else None


def forced(spec: str) -> str:
    """The refspec with the mark that forces, which exclusions don't have."""
    return spec if spec.startswith(("+", "^")) else f"+{spec}"


def is_from(spec, source, destination):
    """Whether a mapping of these names comes from a refspec."""
    pattern, to = sides(spec)
    taken = None if spec.startswith("^") else middle(pattern, source)
    return taken is not None and destination == (None if to is None else full_destination(to.replace("*", taken)))


def full_destination(destination: str) -> str:
    """A destination as the engine completes it."""
    if destination.startswith("refs/"):
        return destination
    return f"refs/{destination}" if destination.startswith(("heads/", "tags/", "remotes/")) else f"refs/heads/{destination}"


def brings(spec, source):
    """Whether a refspec brings a name, wherever it leads."""
    return not spec.startswith("^") and middle(sides(spec)[0], source) is not None


def middle(pattern: str, name: str) -> str | None:
    """What the star of a pattern takes of a name, or "" where the pattern has none, or None where it doesn't match."""
    if "*" not in pattern:
        return "" if name in (place.format(pattern) for place in PLACES) else None
    before, _, behind = pattern.partition("*")
    if len(name) < len(before) + len(behind) or not (name.startswith(before) and name.endswith(behind)):
        return None
    return name[len(before) : len(name) - len(behind)]


def tracking(spec, configured):
    """The refspecs by which what one refspec brings goes where the configured ones lead it, too."""
    source = sides(spec)[0]
    name = source if source.startswith("refs/") else f"refs/heads/{source}"
    for each in configured if source != "HEAD" and not spec.startswith("^") else []:
        pattern, to = sides(each)
        if to is None or each.startswith("^"):
            continue
        taken = middle(pattern, name)
        if taken is not None:
            yield f"{'+' if each.startswith('+') else ''}{name}:{to.replace('*', taken)}"
        elif middle(name, pattern) is not None:
            yield each
