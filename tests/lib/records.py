"""The transcripts of clients, and their comparison with the records that the program prints."""

import collections
import json
import re

from lib.answers import BY_SESSION, OF_BACK

# The line before a room's record in the output.
HEAD = re.compile(r"room ([a-z0-9.-]{1,64}) (0|[1-9]\d*)")


class Differs(Exception):
    """A record does not match the transcripts."""


def compact(value):
    """Returns the JSON text of a value without white space, as in replies and entries."""
    return json.dumps(value, separators=(",", ":"), ensure_ascii=False)


def entry_of(site, request):
    """Returns the entry that the request adds."""
    if request[0] == "join":
        return ["join", site]
    word, seq, *rest = request
    if word == "set":
        *rest, key, value = rest
        word, rest = "put", [*rest, [[key, value]]]
    return [word, [site, seq], *rest]


class Transcript:
    """The requests of one client in order, with their replies. `lines` has for each reply the room, the line of a
    transcript, and the reply's word and place."""

    def __init__(self):
        self.waiting = collections.deque()
        self.room = None
        self.site = None
        # The number of its site's operations.
        self.made = 0
        self.hung_up = False
        self.places = []
        self.lines = []

    def add_request(self, request):
        """Records a request as sent."""
        self.waiting.append(request)

    def add_reply(self, text):
        """Records the reply to the oldest unanswered request."""
        if not self.waiting:
            raise Differs(f"a reply without a request: {text:.200}")
        request, reply = self.waiting.popleft(), json.loads(text)
        if compact(reply) != text:
            raise Differs(f"a reply that is not compact JSON: {text:.200}")
        if reply[0] == "no" and reply[3] in BY_SESSION | OF_BACK:
            return
        request = json.loads(request)
        if request[0] in ("note", "notes"):
            return
        if reply[0] in ("joined", "back"):
            self.room, self.site = request[1], reply[2]
            self.made = reply[3] if reply[0] == "back" else 0
        elif request[0] == "join":
            return
        self.lines.append((self.room, f"[{compact(self.site)},{compact(request)},{text}]", reply[:2]))
        if reply[0] in ("joined", "made", "taken"):
            self.places.append((self.room, reply[1], compact(entry_of(self.site, request))))
        if reply[0] in ("made", "taken"):
            self.made += 1
        if reply[0] == "left":
            self.room = self.site = None
            self.made = 0

    def may_have_added(self, room):
        """Yields the entries that each unanswered request may have added to this room. After an unanswered join the
        site may have any number."""
        sites = [self.site] if self.room == room else []
        for request in map(json.loads, self.waiting):
            if request[0] == "join" and request[1] == room and not sites:
                sites = range(1, 257)
            if request[0] == "back" and request[1] == room and not sites:
                sites = request[2:3]
            if request[0] in ("join", "new", "put", "drop", "set"):
                yield [compact(entry_of(site, request)) for site in sites]


def split_rooms(lines, rooms, on_demand=0):
    """Splits the lines of the output into the record of each room: first these, then at most `on_demand` others."""
    records, place = {}, 0
    while place < len(lines):
        head = HEAD.fullmatch(lines[place])
        if not head or head[1] in records:
            raise Differs(f"line {place + 2} of the output is not the head of a further room: {lines[place]:.200}")
        count = int(head[2])
        records[head[1]] = lines[place + 1 : place + 1 + count]
        place += 1 + count
    if place != len(lines):
        raise Differs(f"the output has {len(lines)} lines after the first; its rooms have {place}")
    names = list(records)
    if names[: len(rooms)] != list(rooms) or len(names) > len(rooms) + on_demand:
        raise Differs(f"the output has the rooms {names}, which do not begin with {rooms} or are too many")
    return records


def compare_rooms(records, transcripts):
    """Raises Differs if replies reported an entry of a room that has no record."""
    reported = {room for transcript in transcripts for room, *_ in transcript.places}
    if not reported <= set(records):
        raise Differs(f"the output has no record of the rooms {sorted(reported - set(records))}")


def claims_of(room, transcripts):
    """Returns the entry that the transcripts report at each place of a room's record."""
    claims = {}
    for transcript in transcripts:
        for name, at, entry in transcript.places:
            if name != room:
                continue
            if at in claims:
                raise Differs(f"place {at} of room {room} was reported for {claims[at]} and for {entry}")
            claims[at] = entry
    return claims


def compare_record(room, record, transcripts):
    """Raises Differs unless the record has exactly the entries that the transcripts report, each at its place. An
    unreported entry must be an unanswered request of a client that hung up."""
    claims = claims_of(room, transcripts)
    lost = [texts for transcript in transcripts if transcript.hung_up for texts in transcript.may_have_added(room)]
    for at, entry in enumerate(record):
        if at in claims:
            if claims.pop(at) != entry:
                raise Differs(f"place {at} of room {room} is {entry:.200}, but a reply reported another entry")
            continue
        found = next((texts for texts in lost if entry in texts), None)
        if found is None:
            raise Differs(f"place {at} of room {room} is {entry:.200}, but no reply reported it")
        lost.remove(found)
    if claims:
        raise Differs(f"room {room} has {len(record)} entries, but replies reported places {sorted(claims)}")


def stays_in(room, lines):
    """Splits a client's lines into its stays in this room. Each stay begins with the reply to a join or a back."""
    stays = []
    for name, line, reply in lines:
        if name == room:
            if reply[0] in ("joined", "back"):
                stays.append([])
            stays[-1].append((line, reply))
    return stays


def span(stay):
    """Returns the lengths of the record at the beginning and at the end of a stay."""
    (_, first), (_, last) = stay[0], stay[-1]
    return first[1], last[1] + (last[0] in ("joined", "made", "taken"))


def transcript_lines(room, transcripts):
    """Returns the transcript of all clients in this room. Several clients may be one site, one after another. Their
    stays are sorted by the record, because a client may read its last replies after the next client has come back."""
    stays = [stay for transcript in transcripts for stay in stays_in(room, transcript.lines)]
    return [line for stay in sorted(stays, key=span) for line, _ in stay]
