"""Pulls a record page by page. Several pulls are in flight at once, so that a line with a long round trip costs
little."""

from collections import deque
from collections.abc import Callable

from .forms import Message

# The entries on a page of the server. A page may have fewer.
PAGE_ENTRIES = 64
# The server lets 64 frames wait for a connection before it stops reading. Half of them leave room for other replies.
MOST_PULLS = 32


def load_all(
    progress: Callable[[], tuple[int, int]], send: Callable[[int], None], receive: Callable[[int], tuple[Message, ...]],
    take: Callable[[tuple[Message, ...]], None],
) -> None:
    """Pulls until the client has all entries that the server is known to have.

    `progress` returns how many entries the client has, and how many the server has at least. `send` asks for the
    entries from a place on. `receive` returns the page of the oldest pull in flight. `take` gets the next entries."""
    pulls: deque[int] = deque()
    page_length, last_length, following, is_short = PAGE_ENTRIES, PAGE_ENTRIES, 0, False
    while True:
        have, length = progress()
        if not pulls:
            following, is_short = have, False
            if have >= length:
                return
        # The server refuses a place above the number of its entries.
        while following < length and len(pulls) < MOST_PULLS and not is_short:
            send(following)
            pulls.append(following)
            following += page_length
        start = pulls.popleft()
        entries = receive(start)
        known = progress()[0] - start
        if known < 0:
            # The page before was short: the other pulls are of no use, and the next ones go by its length.
            is_short, page_length = True, last_length
        elif len(entries) > known or not entries:
            take(entries[known:])
            last_length = len(entries)
