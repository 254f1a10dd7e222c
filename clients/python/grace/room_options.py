"""The options of a `Room`, as its docstring says."""

import ssl
from dataclasses import dataclass


@dataclass
class RoomOptions:
    """What a program has chosen. `site` is None once the client is in the room."""

    site: int | None
    context: ssl.SSLContext | None
    headers: tuple[tuple[str, str], ...]
    pause_seconds: float
    longest_pause_seconds: float
    reply_seconds: float
    back_seconds: float
    retry_seconds: tuple[float, ...]
    look_if_full: bool
