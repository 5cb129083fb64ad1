"""Which transports may be used: by the environment, the configuration, or else as Git has it."""

import os
from collections.abc import Iterable

from bagjulen_tools.trouble import BAD_INPUT, Trouble

Entries = Iterable[tuple[str, str | None]]
ALWAYS, NEVER, USER = "always", "never", "user"
BY_ITSELF = {"http": ALWAYS, "https": ALWAYS, "git": ALWAYS, "ssh": ALWAYS, "ext": NEVER}
TRUE, FALSE = ("true", "yes", "on", "1"), ("false", "no", "off", "0", "")


def check_allowed(transport: str, entries: Entries) -> None:
    """Refuses a transport that may not be used.

    GIT_ALLOW_PROTOCOL says so, or else `protocol.<name>.allow`, or else `protocol.allow`.
    """
    listed = os.environ.get("GIT_ALLOW_PROTOCOL")
    allowed = transport in listed.split(":") if listed is not None else _by_entries(transport, dict(entries))
    if not allowed:
        raise Trouble(BAD_INPUT, f"transport '{transport}' not allowed")


def _by_entries(transport: str, last: dict[str, str | None]) -> bool:
    """Whether a configuration allows a transport."""
    policy = BY_ITSELF.get(transport, USER)
    key = next((key for key in (f"protocol.{transport}.allow", "protocol.allow") if key in last), None)
    if key is not None:
        value = last[key]
        if value is None:
            raise Trouble(BAD_INPUT, f"missing value for '{key}'")
        policy = value.lower()
        if policy not in (ALWAYS, NEVER, USER):
            raise Trouble(BAD_INPUT, f"unknown value for config '{key}': {value}")
    return policy == ALWAYS or policy == USER and _is_of_user()


def _is_of_user() -> bool:
    """Whether the user gave the address, which GIT_PROTOCOL_FROM_USER tells."""
    value = os.environ.get("GIT_PROTOCOL_FROM_USER", "true")
    if value.lower() in (*TRUE, *FALSE):
        return value.lower() in TRUE
    if value.lstrip("+-").isdecimal():
        return int(value) != 0
    raise Trouble(BAD_INPUT, f"bad boolean config value '{value}' for 'GIT_PROTOCOL_FROM_USER'")
