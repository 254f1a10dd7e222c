"""The names of a room and of its successors: `plan`, then `plan.2`, `plan.3` and so on."""

import re

from .forms import LIMITS

NAME = re.compile(r"([a-z0-9-]+)(?:\.([2-9]|[1-9][0-9]{1,5}))?")
LAST_NUMBER = 999999


def parts_of(name: str) -> tuple[str, int] | None:
    """The first name of a room, and its number among its successors, from 1. None if it is no name of a room."""
    found = NAME.fullmatch(name)
    return (found[1], int(found[2] or 1)) if found else None


def successor_of(name: str) -> str | None:
    """The name of a room's successor; None if it would be too long, or its number too large."""
    parts = parts_of(name)
    if parts is None or parts[1] >= LAST_NUMBER:
        return None
    successor = f"{parts[0]}.{parts[1] + 1}"
    return successor if len(successor) <= LIMITS.room_bytes else None


def is_after(name: str, before: str) -> bool:
    """Whether a text is the name of a room that comes after another one."""
    parts, earlier = parts_of(name), parts_of(before)
    return parts is not None and earlier is not None and parts[0] == earlier[0] and parts[1] > earlier[1]
