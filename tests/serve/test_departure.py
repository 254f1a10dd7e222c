"""`--until-input-ends`: the server goes away when its standard input ends."""

import contextlib
import json
import pathlib
import resource
import socket
import subprocess
import sys
import tempfile
import time
import unittest

from lib.observing import wait_until
from lib.serving import ROOT, Server, program
from lib.websocket_client import CLOSE, SECONDS, closing

sys.path.append(str(ROOT / "clients/python"))

from grace import Room

NO_DESCRIPTOR = "no descriptor is left for another connection"
GOES_AWAY = "INFO", "the input ended; the server goes away"
JOIN = '["join","r"]'

# The most seconds until a server without slow clients has ended.
SOON = 6

# The seconds after which it ends its clients.
LIMIT = 10

# How many requests of each client are in flight.
IN_FLIGHT = 200


def expect_since(start, least, most):
    """Expects that so many seconds have passed since then."""
    passed = time.monotonic() - start
    if not least <= passed <= most:
        raise AssertionError(f"it took {passed:.1f} seconds, not {least} to {most}")


def draw(client, site):
    """Sends requests that create objects, and reads no reply."""
    for seq in range(1, IN_FLIGHT + 1):
        client.send_request(["new", seq, [[site, seq - 1]] if seq > 1 else [], "rect", []])


def two_who_draw(server):
    """Connects two clients, which have requests in flight."""
    clients = server.client(), server.client()
    for site, client in enumerate(clients, 1):
        client.expect_reply(JOIN, f'["joined",{site - 1},{site}]')
    for site, client in enumerate(clients, 1):
        draw(client, site)
    return clients


def expect_departure(server, clients):
    """Ends the input. Expects that the server closes these clients behind their answers, prints the records and ends
    with 0. Returns the records."""
    server.end_input()
    for client in clients:
        client.await_away()
    records = server.check_output()
    if GOES_AWAY not in server.other_notices:
        raise AssertionError(f"the notices are {server.other_notices}")
    return records


# ---- the input ends


def create_objects(people, count):
    """Each of these people creates so many objects."""
    for number in range(count):
        for person in people:
            person.create("rect", {"n": number})


class TestEndOfTheInput(unittest.TestCase):
    def test_two_who_draw(self):
        """Each client gets a close behind the answers to all of it that was executed. The records have just that."""
        with Server(0, 2, until_input_ends=True) as server:
            clients = two_who_draw(server)
            start = time.monotonic()
            expect_departure(server, clients)
            expect_since(start, 0, SOON)

    def test_kept_rooms(self):
        """With --keep the file has all that was reported, and the next run begins with it."""
        with tempfile.TemporaryDirectory() as folder:
            with Server(0, 2, keep=folder, until_input_ends=True) as server:
                clients = two_who_draw(server)
                records = expect_departure(server, clients)
                before, made = server.transcripts(), clients[1].transcript.made
            kept = pathlib.Path(folder, "r.record").read_text().splitlines()
            self.assertEqual(kept, records["r"], "the file")
            with Server(1, 2, keep=folder, before=before) as server:
                server.client().expect_reply('["back","r",2]', f'["back",{len(kept)},2,{made}]')
                server.finish()

    def test_upgrade(self):
        """Two people draw by the library while the server goes away and another begins over its folder. They come back
        as their sites, and all that they drew is in the record, in the order of each."""
        with tempfile.TemporaryDirectory() as folder, contextlib.ExitStack() as stack:
            server = stack.enter_context(Server(0, 2, keep=folder, until_input_ends=True))
            people = [stack.enter_context(Room(f"ws://{server.name}/", "r", retry_seconds=[0.05])) for _ in range(2)]
            self.assertTrue(all(person.entered(SECONDS) for person in people), "the people did not join")
            sites = [person.site for person in people]
            create_objects(people, IN_FLIGHT // 2)
            server.end_input()
            server.output()
            self.assertEqual(server.process.returncode, 0, "the status")
            create_objects(people, IN_FLIGHT // 2)
            other = Server(0, 2, keep=folder, until_input_ends=True)
            other.port = server.address[1]
            stack.enter_context(other)
            self.assertTrue(all(person.settled(SECONDS) for person in people), "changes are pending")
            self.assertEqual([person.site for person in people], sites, "the sites")
            self.assertEqual([person.fault for person in people], [None, None], "the faults")
            other.end_input()
            _, *record = other.output()
            made = {site: [] for site in sites}
            for word, *rest in map(json.loads, record):
                if word == "new":
                    made[rest[0][0]].append(rest[3])
            self.assertEqual(
                made, dict.fromkeys(sites, [[["n", n]] for n in 2 * list(range(IN_FLIGHT // 2))]), "the objects",
            )

    def test_held_wait(self):
        """A held wait is dropped."""
        with Server(0, 1, until_input_ends=True) as server:
            client = server.client()
            client.expect_reply(JOIN, '["joined",0,1]')
            client.send_request('["wait",1]')
            time.sleep(0.2)
            expect_departure(server, [client])

    def test_client_that_never_reads(self):
        """A client that takes nothing of what waits for it is ended after 10 seconds. Others are closed before."""
        with Server(0, 1, until_input_ends=True) as server:
            one = server.client()
            one.expect_reply(JOIN, '["joined",0,1]')
            for seq in range(1, 61):
                one.ask(["new", seq, [[1, seq - 1]] if seq > 1 else [], "rect", [["x", "v" * 200]]])
            two = server.client(receive_buffer=4096)
            two.expect_reply(JOIN, '["joined",61,2]')
            for _ in range(2000):
                two.send_request('["pull",0]')
            time.sleep(1)
            two.transcript.hung_up = True
            start = time.monotonic()
            server.end_input()
            one.await_away()
            expect_since(start, 0, SOON)
            server.check_output()
            expect_since(start, LIMIT - 1, LIMIT + SOON)

    def test_client_without_an_answer(self):
        """A client that does not answer the close does not hold up the server."""
        with Server(0, 1, until_input_ends=True) as server:
            client = server.client()
            client.expect_reply(JOIN, '["joined",0,1]')
            start = time.monotonic()
            server.end_input()
            self.assertEqual(client.read_frame(), (CLOSE, closing(1001)), "the frame")
            server.output()
            self.assertEqual(server.process.returncode, 0, "the status")
            expect_since(start, 0, SOON)


# ---- nobody draws


def take_descriptors(server):
    """Leaves the server no further descriptor."""
    used = max(int(entry.name) for entry in pathlib.Path(f"/proc/{server.process.pid}/fd").iterdir()) + 1
    resource.prlimit(server.process.pid, resource.RLIMIT_NOFILE, (used, used))


class TestNobodyDraws(unittest.TestCase):
    def test_idle(self):
        """A server without a client ends at once."""
        for name, sessions in [("any number of sessions", 0), ("three sessions", 3)]:
            with self.subTest(name), Server(sessions, 4, until_input_ends=True) as server:
                start = time.monotonic()
                expect_departure(server, [])
                expect_since(start, 0, SOON)

    def test_silent_connection(self):
        """The last allowed session is open to a silent connection, so the server accepts no other. It still ends at
        once, also when more connections wait for it than the system lets wait."""
        with Server(1, 1, until_input_ends=True) as server, contextlib.ExitStack() as others:
            silent = server.connect()
            time.sleep(0.3)
            for _ in range(200):
                other = others.enter_context(socket.socket())
                other.setblocking(False)
                other.connect_ex(server.address)
            start = time.monotonic()
            server.end_input()
            silent.expect_end()
            server.check_output(warnings={1: "handshake failed"})
            expect_since(start, 0, SOON)
            self.assertEqual(server.other_notices, [GOES_AWAY], "the notices")

    def test_no_descriptor(self):
        """The server waits for a descriptor. It still ends at once."""
        with Server(0, 1, until_input_ends=True) as server, contextlib.ExitStack() as others:
            client = server.client()
            client.expect_reply(JOIN, '["joined",0,1]')
            take_descriptors(server)
            for _ in range(5):
                others.enter_context(socket.create_connection(server.address, SECONDS))
            wait_until("a warning", lambda: server.notices() == [("WARN", NO_DESCRIPTOR)])
            start = time.monotonic()
            server.end_input()
            client.await_away()
            server.output()
            self.assertEqual(server.process.returncode, 0, "the status")
            expect_since(start, 0, SOON)

    def test_last_descriptor(self):
        """No descriptor is left to connect to the own address. A client's end gives one back."""
        with Server(0, 1, until_input_ends=True) as server:
            clients = [server.client() for _ in range(8)]
            clients[0].expect_reply(JOIN, '["joined",0,1]')
            take_descriptors(server)
            start = time.monotonic()
            expect_departure(server, clients)
            expect_since(start, 0, SOON)

    def test_host(self):
        """The server ends at once on any address."""
        for host in ("127.0.0.1", "0.0.0.0", "[::1]", "[::]"):
            with self.subTest(host):
                process = subprocess.Popen(
                    [program(), "serve", "--until-input-ends", f"{host}:0", "0", "1", "r"],
                    stdin=subprocess.PIPE, stdout=subprocess.PIPE, stderr=subprocess.DEVNULL,
                )
                with process:
                    line = process.stdout.readline()
                    self.assertTrue(line.startswith(f"listening {host}:".encode()), f"the first line is {line!r:.100}")
                    time.sleep(0.3)
                    start = time.monotonic()
                    output, _ = process.communicate(timeout=SECONDS)
                    self.assertEqual((process.returncode, output), (0, b"room r 0\n"), "the status and the output")
                    expect_since(start, 0, SOON)


# ---- what the input is


class TestInputs(unittest.TestCase):
    def test_bytes_do_not_count(self):
        """Bytes of the input are ignored, also many of them."""
        with Server(0, 1, until_input_ends=True) as server:
            client = server.client()
            for _ in range(20):
                server.process.stdin.write("end\n" * 10_000)
                server.process.stdin.flush()
            client.expect_reply(JOIN, '["joined",0,1]')
            self.assertEqual(server.notices(), [], "the notices")
            expect_departure(server, [client])

    def test_input_without_a_wait(self):
        """An input that cannot be waited for is at its end at once."""
        words = [program(), "serve", "--until-input-ends", "127.0.0.1:0", "0", "1", "r"]
        for path in "/dev/null", __file__:
            with self.subTest(path), open(path, "rb") as stream:
                run = subprocess.run(words, stdin=stream, capture_output=True, timeout=SECONDS)
                line, rest = run.stdout.split(b"\n", 1)
                self.assertEqual((run.returncode, line[:10], rest), (0, b"listening ", b"room r 0\n"))

    def test_open_input(self):
        """While the input is open, the server serves all sessions and then ends."""
        with Server(2, 2, until_input_ends=True) as server:
            one, two = server.client(), server.client()
            one.expect_reply(JOIN, '["joined",0,1]')
            two.expect_reply(JOIN, '["joined",1,2]')
            server.finish()
            self.assertEqual(server.other_notices, [], "the notices")

    def test_without_the_option(self):
        """Without the option the end of the input means nothing."""
        with Server(1, 1) as server:
            time.sleep(0.3)
            server.client().expect_reply(JOIN, '["joined",0,1]')
            server.finish()
            self.assertEqual(server.other_notices, [], "the notices")
