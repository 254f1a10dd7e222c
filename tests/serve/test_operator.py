"""What an operator sees: the client of a session, reports, warnings before a limit, and probes."""

import pathlib
import resource
import socket
import tempfile
import time
import unittest

from lib.observing import HEALTHY, answer_to, await_report, expect_turned_away, report_of, wait_until
from lib.records import compact
from lib.serving import Server
from lib.websocket_client import SECONDS, TEXT, Ended, frame, head, new_key

JOIN = '["join","r"]'
NO_DESCRIPTOR = "no descriptor is left for another connection"
PROBE = b"GET /health HTTP/1.1\r\nHost: localhost\r\nUser-Agent: monitor\r\n\r\n"


# ---- the client of a session


class TestClientsOfSessions(unittest.TestCase):
    def test_who_and_where(self):
        """The warning about a session names the client's address, and the room that it was in at its end."""
        with Server(4, 4, ["r", "studio"]) as server:
            inside, outside, without = server.client(), server.client(), server.connect()
            inside.expect_reply('["join","studio"]', '["joined",0,1]')
            outside.expect_reply(JOIN, '["joined",0,1]')
            outside.expect_reply('["leave"]', '["left",1]')
            for client in (inside, outside):
                client.send(frame(TEXT, b"[]", reserved=7))
                client.expect_end()
            without.send(b"GET / HTTP/1.1\r\n\r\n")
            without.expect_end()
            server.client().expect_reply('["back","studio",1]', '["back",1,1,0]')
            server.finish(warnings={1: "stream fault", 2: "stream fault", 3: "handshake failed"})
            expected = {1: (inside.name, "studio"), 2: (outside.name, None), 3: (without.name, None)}
            self.assertEqual(server.warned_sessions, expected, "the warned sessions")


# ---- reports


class TestReports(unittest.TestCase):
    def test_reports(self):
        """The server reports its sessions and rooms each second. There are at most as many reports as seconds since
        before the start, so a stall only allows more. The test waits at most 30 seconds for the report of a state."""
        start = time.monotonic()
        with Server(4, 3, ["r", "s"], report=1, clients=3) as server:
            await_report(server, report_of(server, 0, 0, {"r": (0, 0, 0), "s": (0, 0, 0)}))
            first, second = server.client(), server.client()
            first.expect_reply(JOIN, '["joined",0,1]')
            first.expect_reply('["new",1,[],"rect",[]]', '["made",1,[1,1]]')
            first.expect_reply('["put",2,[[1,1]],[1,1],[],[["x",5]]]', '["taken",2,[[]]]')
            first.expect_reply('["put",2,[[1,1]],[1,1],[],[["x",5]]]', '["no",3,7,"wrong-seq"]')
            second.expect_reply(JOIN, '["joined",3,2]')
            second.expect_reply('["leave"]', '["left",4]')
            second.expect_reply('["back","r",2]', '["back",4,2,0]')
            await_report(server, report_of(server, 2, 2, {"r": (2, 4, 1), "s": (0, 0, 0)}))
            second.close()
            third = server.client()
            third.expect_reply('["join","s"]', '["joined",0,1]')
            third.hang_up()
            await_report(server, report_of(server, 1, 3, {"r": (2, 4, 1), "s": (1, 1, 0)}))
            count = sum(text.startswith("report: server") for _, text in server.notices())
            self.assertLessEqual(
                count, time.monotonic() - start, f"{count} reports in {time.monotonic() - start:.1f} seconds",
            )
            server.client()
            server.finish(warnings={3: "stream fault"})

    def test_no_reports(self):
        """Without --report, or with 0, the server reports nothing. A long interval does not delay the server's end."""
        for report in (None, 0, 3600):
            with Server(report=report) as server:
                client = server.client()
                client.expect_reply(JOIN, '["joined",0,1]')
                time.sleep(1.2)
                server.finish()
                self.assertEqual(server.other_notices, [], "the notices")


# ---- warnings before a limit


def record_of(entries, objects):
    """Yields the entries of a record: a join, creations of this many objects, and puts on them in turn."""
    yield ["join", 1]
    for seq in range(1, entries):
        seen = [[1, seq - 1]] if seq > 1 else []
        if seq <= objects:
            yield ["new", [1, seq], seen, "rect", []]
        else:
            yield ["put", [1, seq], seen, [1, 1 + seq % objects], [], [["x", seq]]]


NOT_RENEWED = "WARN", "room r cannot be renewed: the file of the next room is there"


def warnings_over(record, reports, add):
    """Returns the warnings of a server that starts over this record, which it cannot renew, reports these numbers, and
    has a client add entries."""
    with tempfile.TemporaryDirectory() as folder:
        for name, entries in (("r", record), ("r.2", [["join", 1]])):
            file = pathlib.Path(folder) / f"{name}.record"
            file.write_text("".join(f"{compact(entry)}\n" for entry in entries))
        with Server(1, 2, keep=folder, report=1) as server:
            # There are four places for the next rooms of the chain.
            server_line, *room_lines = report_of(server, 0, 0, {"r": reports})
            await_report(server, [server_line, ("INFO", "report: rooms open 1/5"), *room_lines])
            client = server.client()
            client.expect_reply('["back","r",1]', f'["back",{len(record)},1,{len(record) - 1}]')
            add(client)
            client.close()
            server.output()
            return [notice for notice in server.notices() if notice[0] == "WARN"]


class TestWarningsBeforeALimit(unittest.TestCase):
    def test_joins(self):
        """The server warns at the 231st of 256 joins, the first past nine tenths."""
        with Server(256, 4, ["r", "s"]) as server:
            notices = []
            for site in range(1, 257):
                client = server.client()
                client.expect_reply(JOIN, f'["joined",{site - 1},{site}]')
                client.close()
                if site in (230, 231, 256):
                    notices.append([notice for notice in server.notices() if "joins" in notice[1]])
            line = "WARN", "room r has 231 of 256 joins"
            self.assertEqual(notices, [[], [line], [line]], "the notices")
            server.finish()

    def test_entries(self):
        """The server warns once when a room has 14,746 entries, the first count past nine tenths, or at the start if it
        begins with more and is not renewed."""
        for name, start, added, count, at_start in [
            ("one line when nine tenths are passed", 14_745, 3, 14_746, []),
            ("one line at the start if they are passed", 14_748, 2, 14_748, [NOT_RENEWED]),
        ]:
            with self.subTest(name):
                def add(client):
                    for seq in range(start, start + added):
                        reply = client.ask(["put", seq, [[1, seq - 1]], [1, 1], [], [["x", seq]]])
                        self.assertEqual(reply, f'["taken",{seq},[[]]]', "the reply")

                notices = warnings_over(list(record_of(start, 32)), (1, start, 32), add)
                self.assertEqual(notices, [*at_start, ("WARN", f"room r has {count} of 16384 entries")], "the notices")

    def test_objects(self):
        """The server warns once when a room has 7,373 objects, the first count past nine tenths, or at the start if it
        begins with more and is not renewed."""
        for name, start, added, count, at_start in [
            ("one line when nine tenths are passed", 7_372, 3, 7_373, []),
            ("one line at the start if they are passed", 7_375, 2, 7_375, [NOT_RENEWED]),
        ]:
            with self.subTest(name):
                def add(client):
                    for seq in range(start + 1, start + added + 1):
                        reply = client.ask(["new", seq, [[1, seq - 1]], "rect", []])
                        self.assertEqual(reply, f'["made",{seq},[1,{seq}]]', "the reply")

                notices = warnings_over(list(record_of(start + 1, start)), (1, start + 1, start), add)
                self.assertEqual(notices, [*at_start, ("WARN", f"room r has {count} of 8192 objects")], "the notices")

    def test_places(self):
        """The server turns clients away while all places are taken. It warns once until a session ends. Who is turned
        away is no session."""
        line = "WARN", "all 2 clients are in"
        with Server(4, 1, clients=2) as server:
            first, second = server.client(), server.client()
            first.expect_reply(JOIN, '["joined",0,1]')
            for _ in range(3):
                expect_turned_away(server)
            self.assertEqual(server.notices(), [line], "the notices")
            second.close()
            server.client().expect_reply(JOIN, '["joined",1,2]')
            expect_turned_away(server)
            first.close()
            server.client().expect_reply(JOIN, '["joined",2,3]')
            server.finish()
            self.assertEqual(server.other_notices, [line, line], "the notices")

    def test_without_end(self):
        """With SESSIONS 0 the server goes on after any number of sessions, and says how many began."""
        with Server(0, 1, report=1) as server:
            for turn in range(40):
                client = server.client()
                client.expect_reply(JOIN, f'["joined",{turn},{turn + 1}]')
                client.close()
            await_report(server, report_of(server, 0, 40, {"r": (40, 40, 0)}))
            self.assertIsNone(server.process.poll(), "the status")

    def test_no_descriptor(self):
        """Where no descriptor is left, the server warns, and accepts the next client when one is free. It warns again
        only after it accepted a client at once."""
        with Server(5, 1) as server:
            first = server.client()
            first.expect_reply(JOIN, '["joined",0,1]')
            used = max(int(entry.name) for entry in pathlib.Path(f"/proc/{server.process.pid}/fd").iterdir()) + 1
            resource.prlimit(server.process.pid, resource.RLIMIT_NOFILE, (used + 1, used + 1))
            second = server.client()
            others = [server.connect() for _ in range(3)]
            wait_until("a warning", lambda: server.notices() == [("WARN", NO_DESCRIPTOR)])
            first.expect_reply('["leave"]', '["left",1]')
            for client in (first, second):
                client.close()
            for other in others:
                other.open()
                other.close()
            server.finish()
            self.assertEqual(set(server.other_notices), {("WARN", NO_DESCRIPTOR)}, "the notices")


# ---- probes


NO_PROBES = [
    ("another path", PROBE.replace(b"/health", b"/healthy")),
    ("a POST", PROBE.replace(b"GET", b"POST")),
    ("HTTP/2", b"PRI * HTTP/2.0\r\n\r\nSM\r\n\r\n"),
]


class TestProbes(unittest.TestCase):
    def test_probes(self):
        """The server answers a probe and does not count it as a session: the only allowed session comes after it."""
        with Server(1, 1) as server:
            for pieces in ([PROBE], [PROBE[:3], PROBE[3:40], PROBE[40:]], [PROBE.replace(b"1.1", b"1.0")]):
                self.assertEqual(answer_to(server, *pieces), HEALTHY, "the answer")
            server.client().expect_reply(JOIN, '["joined",0,1]')
            server.finish()
            self.assertEqual(server.other_notices, [], "the notices")

    def test_probes_of_a_full_server(self):
        """The only place is taken, and 40 clients are silent before their handshake. The server still answers a
        probe."""
        with Server(42, 1, clients=1) as server:
            client = server.client()
            client.expect_reply(JOIN, '["joined",0,1]')
            silent = [server.connect() for _ in range(40)]
            for _ in range(3):
                self.assertEqual(answer_to(server, PROBE), HEALTHY, "the answer")
            for other in silent:
                other.hang_up()
            client.close()
            server.client()
            server.finish(warnings=dict.fromkeys(range(2, 42), "handshake failed"))

    def test_path_of_a_probe(self):
        """A WebSocket may use the path of a probe."""
        with Server(1, 1) as server:
            client = server.client("/health")
            client.expect_reply(JOIN, '["joined",0,1]')
            server.finish()

    def test_no_probe(self):
        """Other requests are not probes."""
        for name, data in NO_PROBES:
            with self.subTest(name), Server(2, 1) as server:
                client = server.connect()
                client.send(data)
                with self.assertRaises(Ended):
                    client.fill()
                client.is_over = True
                client.socket.close()
                server.client().expect_reply(JOIN, '["joined",0,1]')
                server.finish(warnings={1: "handshake failed"})

    def test_last_connection_undecided(self):
        """The last allowed session is open to a silent connection, so the next one waits until the server knows its
        kind. It is a probe, so the next one gets the session."""
        with Server(1, 2) as server:
            with socket.create_connection(server.address, SECONDS) as probe:
                probe.sendall(PROBE[:20])
                time.sleep(0.2)
                client = server.connect()
                key = new_key()
                client.send(head(key))
                time.sleep(0.2)
                probe.sendall(PROBE[20:])
                client.read_answer(key)
            client.expect_reply(JOIN, '["joined",0,1]')
            client.close()
            # A session's number is that of its connection.
            server.finish()
