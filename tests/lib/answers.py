"""The replies that may answer each request, by the tables of docs/PROTOCOL.md. `records` and the program's checker
decide whether a reply is true."""

import json

LONGEST_REQUEST = 16_384
BAD_MESSAGE = '["no",0,1,"bad-message"]'
NO_SUCH_ROOM = '["no",0,4,"no-such-room"]'

REPLIES = {
    "join": "joined", "back": "back", "new": "made", "put": "taken", "drop": "taken", "set": "taken",
    "show": "versions", "list": "objects", "pull": "entries", "wait": "entries", "leave": "left",
    "note": "notes", "notes": "notes",
}
WORDS = dict(enumerate((
    "bad-message", "not-joined", "already-joined", "no-such-room", "room-full", "record-full", "wrong-seq",
    "own-count", "ahead", "not-closed", "no-such-object", "no-such-version", "object-full", "too-many-keys",
    "too-many-versions", "too-many-objects", "too-far", "gone", "no-such-site", "site-in-use",
    "not-served", "renewed",
), start=1))
# By word: the refusals by a session, which asks no room, and those of a back alone.
BY_SESSION = {"bad-message", "not-joined", "already-joined", "no-such-room", "not-served"}
OF_BACK = {"no-such-site", "site-in-use"}
INSIDE = {
    "join": {3}, "back": {3}, "new": {6, 7, 8, 9, 10, 16, 22}, "put": {*range(6, 16), 18, 22},
    "drop": {*range(6, 14), 15, 18, 22}, "set": {*range(6, 16), 18, 22}, "show": {11}, "list": {17}, "pull": {17}, "wait": {17}, "leave": set(),
    "note": set(), "notes": set(),
}
OUTSIDE = {"join": {4, 5, 6, 21, 22}, "back": {4, 19, 20, 21}}


class NoAnswer(Exception):
    """The reply cannot answer its request."""


def request_of(data):
    """Returns the JSON list of these bytes if it begins with the word of a request, and None otherwise. It parses JSON
    only, so it also returns some lists that are not valid requests."""
    if len(data) > LONGEST_REQUEST:
        return None
    try:
        value = json.loads(data)
    except (ValueError, RecursionError):
        return None
    if isinstance(value, list) and value and isinstance(value[0], str) and value[0] in REPLIES:
        return value
    return None


def refusals(word, is_inside):
    """Returns the codes that may refuse a request with this word, except 1."""
    if is_inside:
        return INSIDE[word]
    return OUTSIDE.get(word, {2})


def check_reply(data, is_inside, text):
    """Raises NoAnswer unless this text may answer a message of these bytes. `is_inside` says whether the session is in
    a room."""
    request = request_of(data)
    if request is None:
        if text != BAD_MESSAGE:
            raise NoAnswer(f"{data!r:.200}: unexpected reply {text:.200}")
        return
    word, reply = request[0], json.loads(text)
    if reply[0] == "no":
        code = reply[2]
        fits = reply[3:] == [WORDS.get(code)] and (code == 1 or code in refusals(word, is_inside))
        fits = fits and (reply[3] not in BY_SESSION or reply[1] == 0)
    else:
        fits = reply[0] == REPLIES[word] and is_inside == (word not in OUTSIDE)
    if not fits:
        raise NoAnswer(f"{data!r:.200}: unexpected reply {text:.200} {'inside' if is_inside else 'outside'} a room")
