"""The client: what a scene tells of a repository."""

from bagjulen_tools.formats.scene import Scene

# What a fetch reads of a configuration, in its usual spelling.
KEYS = ["clone.rejectShallow", "core.logAllRefUpdates", "fetch.negotiationAlgorithm", "gitoxide.userAgent",
        "pack.threads"]
ESCAPES = str.maketrans({"\\": "\\\\", '"': '\\"', "\n": "\\n", "\t": "\\t", "\b": "\\b"})
TAGS = {"--tags": "all", "--no-tags": "none"}


def scene_of(repository, overrides=(), without_head=False):
    """A scene with a repository, and nothing of a remote yet."""
    references = repository.references()
    if without_head:
        references.pop("HEAD")
    work_tree = repository.work_tree()
    return Scene(
        hash_name=repository.hash_name(),
        git_dir=repository.git_dir,
        work_tree=work_tree,
        references=references,
        border=repository.border(),
        config=list(config_lines(repository.entries(overrides), work_tree is not None)),
        worktrees=repository.worktrees(),
        objects=repository.objects(),
    )


def config_lines(entries, logs_branches):
    """The lines of a configuration with those of the entries that a fetch reads."""
    spelled = {key.lower(): key for key in KEYS}
    read = [(spelled[key], value) for key, value in entries if key in spelled]
    if _last(read, "core.logAllRefUpdates") == ("true" if logs_branches else "false"):
        read = [(key, value) for key, value in read if key != "core.logAllRefUpdates"]
    section = None
    for key, value in read:
        name, _, last = key.partition(".")
        if name != section:
            yield f"[{name}]"
            section = name
        yield last if value is None else f"{last} = {quoted(value)}"


def _last(entries, wanted):
    """The last value of a key, or None where it has none."""
    return next((value for key, value in reversed(entries) if key == wanted), None)


def quoted(value):
    """A value as it is written, in quotes where it needs them."""
    if value and all(letter.isalnum() or letter in "-./:_" for letter in value):
        return value
    return f'"{value.translate(ESCAPES)}"'


def remote_of(repository, name):
    """The refspecs and the tags of a remote, as the configuration says them."""
    entries = list(repository.entries())
    specs = [value for key, value in entries if key == f"remote.{name}.fetch" and value is not None]
    option = _last(entries, f"remote.{name}.tagopt")
    return specs, TAGS.get(option, "included")
