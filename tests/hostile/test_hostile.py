"""A long test of `grace serve`: thousands of hostile connections, some in parallel, while honest clients draw. At the
end all transcripts are compared with the server's output. The same seed makes the same connections send the same
bytes."""

import collections
import json
import random
import threading
import time
import unittest

from lib.answers import BAD_MESSAGE, check_reply
from lib.checks import check
from lib.crowd import Crowd
from lib.drawing import Drawer
from lib.frame_reader import LONGEST_MESSAGE
from lib.hostile_kinds import KINDS
from lib.hostile_session import STREAM_FAULT, WAIT, HostileSession
from lib.records import compact, compare_record, entry_of, split_rooms, transcript_lines
from lib.running import OPTIONS
from lib.serving import Server, verdict

# The numbers of each: the threads of the server, the longest messages at once, clients after all others, honest clients
# and hostile ones. `--crowd` has as many times the last two.
WORKERS = 4
LONGEST_AT_ONCE = 64
AT_THE_END = 64
DRAWERS = 8
ATTACKERS = 24
# An honest client makes this many changes, spread over the hostile connections, and sends a request after each pause.
CHANGES = 120
PAUSE = 0.15
# How often an honest client comes back over a new connection.
BACKS = 5
# The rooms: shared by honest and hostile sessions; for hostile sessions, soon full; for the loud ones; for honest
# clients alone; and for the clients at the end.
Rooms = collections.namedtuple("Rooms", "shared hostile loud")
ROOMS, APART, LAST = Rooms(["a", "b"], ["e"], ["h"]), ["c", "d"], "last"
# In seconds: --idle, the limit of the hostile phase, and the limit of the server's end and its checks.
IDLE = 120
BOUND = 900
PATIENCE = 240
# The peak of memory in the last quarter of the connections may be this many times the peak up to the end of the first,
# and so many KiB more for each entry of the records: those of the largest puts take 4.5 KiB.
GROWTH = 1.2
KIB_AN_ENTRY = 2
SAMPLE = 0.05
# The test stops after this many faults.
FAULTS = 10
# With at least this many connections, the hostile sessions must have had each of these replies.
MANY = 2000
EXPECTED_REPLIES = {
    "joined", "back", "made", "taken", "left", "bad-message", "not-joined", "already-joined", "no-such-room",
    "room-full", "no-such-site", "site-in-use",
}


class Progress:
    """The number of finished hostile connections and the memory meanwhile."""

    def __init__(self, total):
        self.total, self.done = total, 0
        self.peaks = [0] * 4
        self.lock = threading.Lock()
        self.is_over = threading.Event()
        self.start = time.monotonic()

    def sample(self, server):
        """Samples the memory in KiB until the end. Keeps the peak of each quarter."""
        while not self.is_over.wait(SAMPLE):
            if server.process.poll() is not None:
                raise AssertionError(f"the server exited early, with status {server.process.returncode}")
            quarter = min(3, 4 * self.done // self.total)
            self.peaks[quarter] = max(self.peaks[quarter], server.memory()[0])

    def one_more(self, server):
        """Counts a finished connection. Prints a line for each thousand."""
        with self.lock:
            self.done += 1
            if self.done % 1000 == 0 or self.done == self.total:
                now, most = server.memory()
                passed = time.monotonic() - self.start
                print(f"{self.done} connections, {passed:.0f} s, {now} KiB, at most {most} KiB", flush=True)


class HonestClient:
    """A client that draws and checks each reply against the replies before it. `test` opens its connections."""

    def __init__(self, test, number, room):
        self.test = test
        self.connect()
        self.at = -1
        self.own = {}
        self.drawer = Drawer(self.ask, number)
        self.drawer.join(room)

    def connect(self):
        """Opens a connection."""
        self.client = self.test.connect()
        self.client.is_over = False
        self.client.socket.settimeout(WAIT)
        self.client.open()

    def come_back(self):
        """Ends its connection, with a close or without, and comes back as its site over a new one. The site must have
        exactly the operations that replies confirmed."""
        room = self.client.transcript.room
        if self.drawer.source.random() < 0.5:
            self.client.close()
        else:
            self.test.causes[self.client.session] = {STREAM_FAULT}
            self.client.send_request(["pull", 0])
            self.client.hang_up()
        self.connect()
        check.assertEqual(self.drawer.come_back(room, self.drawer.site), len(self.own) - 1, "the operations")

    def ask(self, request):
        """Sends a request. Returns the text of the reply, after checking its form and its order."""
        was_inside = self.client.transcript.room is not None
        text = self.client.ask(request)
        check_reply(compact(request).encode(), was_inside, text)
        self.check_order(request, json.loads(text))
        return text

    def check_order(self, request, reply):
        """Checks that the reply is not older than the one before it, and that each own change is in the record at its
        place."""
        least = self.at + 1 if self.at in self.own else self.at
        if reply[1] < least:
            raise AssertionError(f"{compact(request):.200}: reply {compact(reply):.200} after one at {self.at}")
        self.at = reply[1]
        if reply[0] in ("joined", "made", "taken"):
            self.own[self.at] = entry_of(self.client.transcript.site, request)
        if reply[0] == "no" and reply[2] not in self.refusals(request):
            raise AssertionError(f"{compact(request):.200}: refused by {compact(reply)}")
        if reply[0] == "entries":
            self.check_page(request[1], reply)

    def refusals(self, request):
        """Returns the codes that may refuse this request. The client knows its own state, but others may fill the room
        and its objects; some requests are made to be refused."""
        if request[1:2] in ([9999], [[256, 1]]):
            return {7, 11, 17}
        return {"new": {16}, "put": {13, 15}, "drop": {13, 15}, "back": {20}}.get(request[0], set())

    def check_page(self, start, reply):
        """Checks that the page begins at the requested place, and that its entries of the own site are exactly the own
        changes."""
        check.assertEqual(reply[2], start, "the start of the page")
        for place, entry in enumerate(reply[3], start):
            site = entry[1] if entry[0] == "join" else entry[1][0]
            if place in self.own or site == self.client.transcript.site:
                check.assertEqual(entry, self.own.get(place), f"the entry at {place}")

    def draw(self, progress, changes):
        """Makes this many changes during the hostile connections, with other requests in between. Expects that the room
        accepts at least half of them."""
        accepted = 0
        backs = [changes * time_ // (BACKS + 1) for time_ in range(1, BACKS + 1)]
        for turn in range(changes):
            for _ in range(backs.count(turn)):
                self.come_back()
            self.watch(lambda: progress.done * changes < turn * progress.total, progress.is_over)
            accepted += self.drawer.submit(self.drawer.next_operation())
        self.watch(lambda: True, progress.is_over)
        self.drawer.catch_up()
        self.ask(["leave"])
        self.client.close()
        if 2 * accepted < changes:
            raise AssertionError(f"the room accepted {accepted} of {changes} changes")

    def watch(self, condition, is_over):
        """Pulls and sends other requests after each pause, while the condition holds and the test runs."""
        while condition() and not is_over.wait(PAUSE):
            self.drawer.catch_up()
            self.drawer.ask_other()


class TestHostile(unittest.TestCase):
    """One server, the hostile connections of a seed, and the checks afterwards, in order."""

    time_limit = BOUND

    def setUp(self):
        self.seed, self.connections = OPTIONS.seed, OPTIONS.connections
        print(f"{self.connections} connections by seed {self.seed}", flush=True)
        rooms = [*APART, *sum(ROOMS, []), LAST]
        self.honest = OPTIONS.crowd * DRAWERS * (1 + BACKS)
        sessions = LONGEST_AT_ONCE + self.honest + self.connections + AT_THE_END
        self.server = Server(sessions, WORKERS, rooms, idle=IDLE, patience=PATIENCE)
        self.progress = Progress(self.connections)
        self.connecting = threading.Lock()
        self.next = iter(range(self.connections))
        self.causes = {}
        self.replies = collections.Counter()
        self.faults = []
        self.lines = None
        self.server.__enter__()
        self.addCleanup(self.server.__exit__)
        self.addCleanup(self.progress.is_over.set)

    def test_hostile(self):
        """Each step is a subtest, which goes on where the one before ended or failed."""
        for name, step in [
            ("longest messages at once", self.send_longest_messages),
            ("hostile connections while others draw", self.connect_all_while_others_draw),
            ("clients at once after them", self.have_clients_at_once),
            ("end of the server", self.expect_end_of_the_server),
            ("records and transcripts", self.compare_records_and_transcripts),
            ("warnings", self.expect_warnings),
            ("memory is flat", self.expect_flat_memory),
        ]:
            with self.subTest(name):
                step()

    # ---- before the hostile connections

    def send_longest_messages(self):
        """Many clients send a longest message, all at once. The server gives that memory back, and needs it again for
        the hostile connections."""
        clients = [self.server.client() for _ in range(LONGEST_AT_ONCE)]
        for client in clients:
            client.socket.settimeout(WAIT)
            client.send_request(b" " * LONGEST_MESSAGE)
        for client in clients:
            self.assertEqual(client.read_reply(), BAD_MESSAGE, "the reply to a longest message")
            client.close()
        self.progress.peaks[0] = self.server.memory()[1]

    # ---- the hostile connections, while others draw

    def connect(self, receive_buffer=None):
        """Opens a further connection. Connections are numbered in the order of their opening."""
        with self.connecting:
            client = self.server.connect(receive_buffer=receive_buffer)
        client.is_over = True
        return client

    def connect_all_while_others_draw(self):
        """All hostile connections end as they must, and the server answers the honest clients all the while."""
        crowd = Crowd()
        for number in range(OPTIONS.crowd * DRAWERS):
            room = (ROOMS.shared + APART)[number % 4]
            honest = HonestClient(self, f"{self.seed} {number}", room)
            crowd.start(honest.draw, self.progress, max(1, min(CHANGES, self.connections // 10)))
        crowd.start(self.progress.sample, self.server)
        attackers = Crowd()
        for _ in range(OPTIONS.crowd * ATTACKERS):
            attackers.start(self.attacker, crowd)
        try:
            attackers.end(BOUND)
        finally:
            self.progress.is_over.set()
        crowd.end(3 * WAIT)
        self.assertEqual(self.faults, [])
        self.report_replies()

    def report_replies(self):
        """Prints the ends and replies of the hostile sessions. With enough connections, expects each kind of reply."""
        ends = collections.Counter(" or ".join(sorted(causes)) or "closed" for causes in self.causes.values())
        for name, counter in (("ended", ends), ("answered", self.replies)):
            print(f"hostile sessions {name}: {', '.join(f'{word} {count}' for word, count in sorted(counter.items()))}")
        if self.connections >= MANY:
            self.assertLessEqual(EXPECTED_REPLIES, set(self.replies), "the replies to hostile sessions")

    def attacker(self, crowd):
        """Runs one hostile connection after another."""
        while len(self.faults) < FAULTS and not crowd.faults:
            with self.progress.lock:
                number = next(self.next, None)
            if number is None:
                return
            self.one_connection(number)
            self.progress.one_more(self.server)

    def one_connection(self, number):
        """Runs the hostile connection of this number. Stores the causes that the server may log for it."""
        kind, run_kind = KINDS[number % len(KINDS)]
        session = HostileSession(self.connect, random.Random(f"{self.seed} {number}"), ROOMS)
        try:
            run_kind(session)
            with self.progress.lock:
                self.causes[session.client.session] = session.causes()
                self.replies += session.replies
        except Exception as fault:
            self.record_fault(f"connection {number} ({kind}): {type(fault).__name__}: {fault}", session)
        finally:
            if session.client:
                session.client.hang_up()
                session.client.transcript.finish()

    def record_fault(self, fault, session):
        """Stores a fault and the last bytes that the session sent."""
        name = session.client.session if session.client else 0
        last = session.sent[-300:].hex()
        self.faults.append(f"{fault}; session {name} sent {len(session.sent)} bytes, the last {last}")

    # ---- after the hostile connections

    def have_clients_at_once(self):
        """A client for each worker. All send a request before any reads its reply."""
        before = LONGEST_AT_ONCE + self.honest + self.connections
        self.assertEqual(len(self.server.clients), before, "the connections before")
        try:
            self.ask_at_once()
        finally:
            for client in self.server.clients[before:]:
                client.hang_up()

    def ask_at_once(self):
        """Each client joins, creates an object and reads it, all in parallel."""
        clients = [self.server.client() for _ in range(AT_THE_END)]
        self.expect_words(clients, lambda client: ["join", LAST], "joined")
        self.assertEqual(
            sorted(client.transcript.site for client in clients), list(range(1, AT_THE_END + 1)), "the sites",
        )
        self.expect_words(clients, lambda client: ["new", 1, [], "rect", [["x", client.transcript.site]]], "made")
        self.expect_words(clients, lambda client: ["show", [client.transcript.site, 1]], "versions")
        for client in clients:
            _, line, _ = client.transcript.lines[-1]
            self.assertEqual(json.loads(line)[2][4], [[[], [["x", client.transcript.site]]]], "the versions")
            client.close()

    def expect_words(self, clients, request, word):
        """All clients send a request, and then all read a reply that begins with this word."""
        for client in clients:
            client.socket.settimeout(WAIT)
            client.send_request(request(client))
        for client in clients:
            text = client.read_reply()
            self.assertTrue(text.startswith(f'["{word}",'), f"unexpected reply {text:.200}")

    def expect_end_of_the_server(self):
        """The server exits with status 0."""
        self.assertEqual(len(self.server.clients), self.server.sessions, "the connections in all")
        self.lines = self.server.output()
        self.assertEqual(self.server.process.returncode, 0, "the status")

    def compare_records_and_transcripts(self):
        """Each room's record is legal and matches the transcripts, also those of hostile sessions. An entry without a
        reply must be an unanswered request of a hostile session."""
        self.assertIsNotNone(self.lines, "the server did not exit")
        transcripts = [client.transcript for client in self.server.clients]
        for room, record in split_rooms(self.lines, self.server.rooms).items():
            compare_record(room, record, transcripts)
            transcript = transcript_lines(room, transcripts)
            self.assertEqual(verdict(record, transcript, PATIENCE), (0, "holds\n"), f"the verdict of room {room}")

    def expect_warnings(self):
        """The server warns exactly once about each session that ended without a close, with its cause, and about no
        other."""
        warnings = self.server.warnings()
        for session in range(1, len(self.server.clients) + 1):
            causes = self.causes.get(session, set())
            self.assertIn(warnings.get(session), causes or {None}, f"the warning about session {session}")
        known = range(1, len(self.server.clients) + 1)
        self.assertEqual(sorted(set(warnings) - set(known)), [], "warnings about unknown sessions")

    def expect_flat_memory(self):
        """The peak of memory in the last quarter of the connections is little more than in the first and what the
        records take."""
        first, last = self.progress.peaks[0], self.progress.peaks[3]
        entries = sum(map(len, split_rooms(self.lines, self.server.rooms).values()))
        print(f"peaks of memory over each quarter: {self.progress.peaks} KiB, entries: {entries}", flush=True)
        self.assertGreater(last, 0)
        self.assertLessEqual(last, GROWTH * first + KIB_AN_ENTRY * entries, f"the last peak in KiB, after {first}")
