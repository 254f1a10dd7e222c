"""As much of a server as the clients of one drawing need whose room is renewed. Its rooms are `r`, `r.2`, `r.3` and so
on. The newest one takes changes; it and the one before it can be read."""

import contextlib
import json
import socket
import threading

from grace import Drawing, Refused, operation_of
from grace.forms import frozen, write_text
from lib.frame_reader import FrameReader
from lib.scripted_server import HEAD, read_key
from lib.websocket_client import CLOSE, TEXT, accepted, frame
from test_transfers import renewal_of

PAGE = 64


class ServedRoom:
    """A room: its record, the drawing of it, the sites that sessions are in, and their notes."""

    def __init__(self, name, entries):
        self.name = name
        self.drawing, self.record, self.sites = Drawing(), [], set()
        self.notes, self.note_changes = {}, 0
        for entry in entries:
            self.add(entry)

    @property
    def has_ended(self):
        """Whether the record has ended."""
        return bool(self.record) and self.record[-1][0] == "next"

    def add(self, entry):
        """Adds an entry to the record."""
        operation = operation_of(entry)
        if operation is not None:
            self.drawing.add(operation)
        self.record.append(entry)

    def note(self, site, text):
        """Sets the note of a site; the empty text removes it."""
        if text != self.notes.pop(site, ""):
            self.note_changes += 1
        if text:
            self.notes[site] = text


class Session:
    """A client's session. All but its thread hold the server's lock."""

    def __init__(self, server, client):
        self.server, self.client = server, client
        self.room = self.site = None
        # From where the client waits for news, or None.
        self.waits_from = None
        # How often notes had changed when the client last heard of them, or None if it has not asked for them.
        self.heard_notes = None

    @property
    def has_heard_notes(self):
        """Whether the client has heard of all changes of notes, or has not asked for them."""
        return self.heard_notes in (None, self.room.note_changes)

    def hear_notes(self):
        """The client hears of all changes of notes, if it has asked for them."""
        if self.heard_notes is not None:
            self.heard_notes = self.room.note_changes

    def serve(self):
        """Serves the client to its end."""
        # The connection may be cut before the client has sent its head.
        with contextlib.suppress(OSError, AssertionError):
            self.client.sendall(HEAD.format(accepted(read_key(self.client))).encode())
        with contextlib.suppress(OSError):
            self.answer_all()
        with self.server.lock:
            self.end()

    def answer_all(self):
        """Answers the client's messages until it ends the connection."""
        reader = FrameReader()
        while reader.end is None and (data := self.client.recv(65536)):
            for opcode, payload in reader.feed(data):
                with self.server.lock:
                    self.take(opcode, payload)

    def end(self):
        """Ends the session and its connection."""
        self.leave()
        self.server.sessions.discard(self)
        with contextlib.suppress(OSError):
            self.client.shutdown(socket.SHUT_RDWR)

    def take(self, opcode, payload):
        """Answers a message, or a close."""
        if self not in self.server.sessions:
            return
        if opcode == CLOSE:
            return self.client.sendall(frame(CLOSE, payload, masked=False))
        self.end_wait()
        text = payload.decode()
        self.server.requests.append(text)
        self.server.before(text)
        if self not in self.server.sessions:
            return
        word, *rest = frozen(json.loads(text))
        if word == "wait" and rest[0] == len(self.room.record) and self.has_heard_notes:
            self.waits_from = rest[0]
        else:
            self.reply(self.answer_to(word, rest))
        if word == "wait":
            self.hear_notes()

    def end_wait(self):
        """Answers a held wait."""
        if self.waits_from is not None:
            start, self.waits_from = self.waits_from, None
            self.reply(self.page(start))
            self.hear_notes()

    def reply(self, reply):
        """Sends a reply."""
        with contextlib.suppress(OSError):
            self.client.sendall(frame(TEXT, write_text(reply).encode(), masked=False))

    def answer_to(self, word, rest):
        """Returns the reply to a request."""
        match word:
            case "join" | "back":
                return self.enter(word, *rest)
            case "pull" | "wait":
                return self.page(*rest)
            case "leave":
                return ["left", self.leave()]
            case "note" | "notes":
                return self.note(*rest)
        return self.change(word, *rest)

    def enter(self, word, name, site=None):
        """Returns the reply to a join or a back."""
        rooms = self.server.rooms
        if self.room is not None:
            return ["no", 0, 3, "already-joined"]
        if name not in rooms:
            return ["no", 0, 4, "no-such-room"]
        open_rooms = list(rooms)[-2:] if word == "back" else list(rooms)[-1:]
        if name not in open_rooms:
            return ["renewed", 0, self.server.newest.name]
        room = rooms[name]
        at, joins = len(room.record), [entry[1] for entry in room.record if entry[0] == "join"]
        if site in room.sites:
            return ["no", at, 20, "site-in-use"]
        if word == "back" and site not in joins:
            return ["no", at, 19, "no-such-site"]
        if word == "join" and self.server.is_full:
            return ["no", at, 5, "room-full"]
        self.room, self.site = room, site or len(joins) + 1
        room.sites.add(self.site)
        self.heard_notes = None
        if word == "back":
            return ["back", at, site, room.drawing.count(site)]
        self.server.add(("join", self.site))
        return ["joined", at, self.site]

    def leave(self):
        """Leaves the room. Returns the length of its record."""
        if self.room is None:
            return 0
        self.room.sites.discard(self.site)
        room, self.room = self.room, None
        room.note(self.site, "")
        self.server.tell_notes(room)
        return len(room.record)

    def note(self, text=None):
        """Returns the reply to a request about notes, which sets the own one if there is a text."""
        if not self.server.knows_notes:
            return ["no", 0, 1, "bad-message"]
        if text is not None:
            self.room.note(self.site, text)
        self.heard_notes = self.room.note_changes
        self.server.tell_notes(self.room)
        return ["notes", len(self.room.record), sorted(self.room.notes.items())]

    def page(self, start):
        """Returns a page of the record."""
        record = self.room.record
        return ["entries", len(record), start, record[start:start + PAGE]]

    def change(self, word, number, *rest):
        """Returns the reply to a change."""
        at = len(self.room.record)
        if self.room.has_ended:
            return ["no", at, 22, "renewed"]
        try:
            self.server.add((word, (self.site, number), *rest))
        except Refused as refusal:
            return ["no", at, refusal.code, refusal.word]
        return ["made", at, (self.site, number)] if word == "new" else ["taken", at, [[]]]


class RenewingServer:
    """The server. `requests` has the messages of the clients. `before` is called with each one before it is
    answered. `knows_notes` says whether it answers requests about notes."""

    def __init__(self):
        self.lock = threading.RLock()
        self.rooms = {"r": ServedRoom("r", [])}
        self.sessions = set()
        self.requests = []
        self.before = lambda text: None
        self.knows_notes = True
        # Whether the newest room lets nobody join.
        self.is_full = False

    def __enter__(self):
        self.listener = socket.create_server(("127.0.0.1", 0))
        self.name = "{}:{}".format(*self.listener.getsockname())
        threading.Thread(target=self.accept, daemon=True).start()
        return self

    def __exit__(self, *_):
        self.listener.shutdown(socket.SHUT_RDWR)
        self.listener.close()
        self.cut()

    def accept(self):
        """Accepts clients until the server ends."""
        with contextlib.suppress(OSError):
            while True:
                client, _ = self.listener.accept()
                client.setsockopt(socket.IPPROTO_TCP, socket.TCP_NODELAY, 1)
                session = Session(self, client)
                with self.lock:
                    self.sessions.add(session)
                threading.Thread(target=session.serve, daemon=True).start()

    @property
    def newest(self):
        """The newest room."""
        return list(self.rooms.values())[-1]

    def add(self, entry):
        """Adds an entry to the newest room."""
        with self.lock:
            self.newest.add(entry)
            self.tell(self.newest)

    def renew(self):
        """Ends the newest room, and opens its successor, if it has a renewal that is not longer. A room that nobody has
        joined is not nearly full."""
        with self.lock:
            old = self.newest
            start = renewal_of(old.record) if old.record else None
            if start is None:
                return
            old.add(("next", len(start)))
            name = f"r.{len(self.rooms) + 1}"
            self.rooms[name] = ServedRoom(name, start)
            self.tell(old)

    def tell(self, room):
        """Answers the waits of a room."""
        for session in self.sessions:
            if session.room is room:
                session.end_wait()

    def tell_notes(self, room):
        """Answers the waits of a room where notes have changed that the client has not heard of."""
        for session in self.sessions:
            if session.room is room and not session.has_heard_notes:
                session.end_wait()

    def cut(self):
        """Ends all connections."""
        with self.lock:
            for session in list(self.sessions):
                session.end()

    def asked(self, *words):
        """Returns the requests of these words."""
        return [text for text in self.requests if json.loads(text)[0] in words]
