"""Handshakes: the fields and the path that a client sends, and what it makes of each answer."""

import base64
import contextlib
import re
import select
import subprocess
import sys
import time
import unittest
from functools import partial

from grace import Denied, Refused, Room
from grace.handshake import Address
from grace.websocket import WebSocket
from relay import Relay
from rooms import PATIENCE, EventLog, agree, expect_error, open_rooms, wait_until
from lib.scripted_server import ScriptedServer
from lib.serving import ROOT, Server

# A user and a password with all that has to be percent-encoded, and both as they stand in an address.
USER, PASSWORD = "anna@home", "blue:heron/é 5%"
IN_ADDRESS = "anna%40home:blue%3Aheron%2F%C3%A9%205%25"
LOGIN = "Basic " + base64.b64encode(f"{USER}:{PASSWORD}".encode()).decode()
WORDS = {
    401: "The server needs a user and a password that it knows: 401 Unauthorized.",
    403: "The server does not let you in: 403 Forbidden.",
    404: "The server has no room at this address: 404 Not Found.",
}
LINES = {
    401: ("HTTP/1.1 401 Unauthorized", 'WWW-Authenticate: Basic realm="drawing"'),
    403: ("HTTP/1.1 403 Forbidden",),
    404: ("HTTP/1.1 404 Not Found",),
}
# Longer than several attempts take with the pauses of these tests.
SEVERAL_ATTEMPTS = 0.3


@contextlib.contextmanager
def relayed():
    """Yields a server and a relay before it."""
    with Server(1000, 4) as server, Relay(server.address[1]) as relay:
        yield server, relay


def fields_of(head):
    """Returns the fields of a head, with names in lower case."""
    lines = head.split("\r\n")[1:-2]
    return {name.lower(): value.strip() for name, _, value in (line.partition(":") for line in lines)}


def path_of(head):
    """Returns the path that a head asks for."""
    return re.match(r"GET (\S+) HTTP/1\.1\r\n", head)[1]


class TestHandshakes(unittest.TestCase):
    def test_further_fields(self):
        """Each attempt sends the fields of `headers`, and the user and the password of the address."""
        with relayed() as (_, relay):
            headers = {"Authorization": "Bearer 5f3a", "X-Team": "blue heron"}
            with open_rooms(relay.name, headers=headers) as (room,):
                relay.cut()
                wait_until("a second attempt", lambda: len(relay.heads) == 2)
                agree(room)
            with open_rooms(f"ws://{IN_ADDRESS}@{relay.name}/", headers=[("X-Team", "two")]):
                pass
            with open_rooms(f"anna@{relay.name}"):
                pass
        sent = [fields_of(head) for head in relay.heads]
        empty = "Basic " + base64.b64encode(b"anna:").decode()
        self.assertEqual([it.get("authorization") for it in sent], ["Bearer 5f3a"] * 2 + [LOGIN, empty], "the logins")
        self.assertEqual([it.get("x-team") for it in sent], ["blue heron"] * 2 + ["two", None], "the teams")
        self.assertEqual([it["host"] for it in sent], [relay.name] * 4, "the hosts")

    def test_further_fields_of_a_connection(self):
        """A connection without a room sends them too, and raises what the answer means."""
        def wait(sock, for_writing):
            select.select([] if for_writing else [sock], [sock] if for_writing else [], [], PATIENCE)

        with relayed() as (_, relay):
            relay.answers.append(LINES[403])
            for expected in 403, 101:
                socket = WebSocket(wait)
                try:
                    socket.open(Address.read(f"{IN_ADDRESS}@{relay.name}"), None, {"X-Team": "blue"})
                    status = 101
                except Denied as fault:
                    status = fault.status
                socket.end()
                self.assertEqual(status, expected, "the status")
        sent = [fields_of(head) for head in relay.heads]
        self.assertEqual([(it["authorization"], it["x-team"]) for it in sent], [(LOGIN, "blue")] * 2, "the fields")

    def test_secrets_kept(self):
        """No error, event or printed form has the user, the password or the value of a field."""
        events, texts = EventLog("state"), []
        with Relay(1) as relay:
            relay.answers.extend([("HTTP/1.1 503 Service Unavailable",), LINES[401]])
            address = f"ws://anna:sesame@{relay.name}/"
            options = {"headers": {"X-Key": "sesame"}, "retry_seconds": [0.01], "listeners": events.listeners}
            with Room(address, "r", **options) as room:
                texts.append(str(expect_error("entering", Denied, room.entered, PATIENCE)))
                texts += [room.words, repr(room), repr(room._network.address)]
        texts += [f"{it.words} {it!r}" for it in events.of("state")]
        for wrong, options in [
            ("http://anna:sesame@h/", {}), ("ws://anna:sesame@h:port/", {}), ("ws://anna:sesame@/", {}),
            ("ws://an%3Ana:sesame@h/", {}), ("ws://anna:sesame@h/", {"headers": {"authorization": "sesame"}}),
            ("ws://h/", {"headers": {"X-Key": "sesame\r\n"}}), ("ws://h/", {"headers": {"X-Key": "sesameé"}}),
        ]:
            texts.append(str(expect_error(wrong, ValueError, partial(Room, wrong, "r", **options))))
        command = [sys.executable, ROOT / "clients/python/grace_client.py", "anna:sesame@h", "r"]
        texts.append(subprocess.run(command, capture_output=True, text=True, stdin=subprocess.DEVNULL).stderr)
        secrets = "anna", "sesame", base64.b64encode(b"anna:sesame").decode()
        for text in texts:
            self.assertFalse(any(secret in text for secret in secrets), f"a secret is in {text!r}")

    def test_wrong_fields(self):
        """Wrong fields are refused at once, with the name and the reason."""
        for headers, kind, message in [
            ({"X Key": "1"}, ValueError, "'X Key' is not the name of a header field"),
            ({7: "1"}, TypeError, "7 is not the name of a header field"),
            ({"host": "h"}, ValueError, "host: the handshake has this field by itself"),
            ({"X-Key": 7}, TypeError, "X-Key: the value of a header field must be a string"),
            ({"X-Key": "a\nb"}, ValueError, "X-Key: the value of a header field must be printable ASCII"),
        ]:
            fault = expect_error(message, kind, partial(Room, "127.0.0.1:1", "r", headers=headers))
            self.assertEqual(str(fault), message, "the message")

    def test_denied(self):
        """An answer that would always be the same ends the room with the reason. There is no other attempt."""
        for status in WORDS:
            with self.subTest(status=status):
                self.check_denied(status)

    def check_denied(self, status):
        """Has a client meet this answer at its first attempt."""
        with Relay(1) as relay:
            relay.answers.append(LINES[status])
            with Room(relay.name, "r", retry_seconds=[0.01]) as room:
                fault = expect_error("entering", Denied, room.entered, PATIENCE)
                time.sleep(SEVERAL_ATTEMPTS)
                self.assertEqual(
                    (room.state, room.words, str(fault)), ("closed", WORDS[status], WORDS[status]), "what it is",
                )
                reason = WORDS[status].partition(f"{status} ")[2].removesuffix(".")
                self.assertEqual((fault.status, fault.reason, room.fault), (status, reason, fault), "the error")
            self.assertEqual(len(relay.heads), 1, "the attempts")

    def test_denied_later(self):
        """So does one to an attempt to come back. The pending changes fail."""
        for status in WORDS:
            with self.subTest(status=status):
                self.check_denied_later(status)

    def check_denied_later(self, status):
        """Has a client meet this answer when it comes back."""
        with relayed() as (_, relay), open_rooms(relay.name) as (room,):
            relay.answers.append(LINES[status])
            relay.cut()
            wait_until("the end", lambda: room.state == "closed")
            self.assertEqual((room.words, room.fault.status), (WORDS[status], status), "the words")
            self.assertEqual(expect_error("a creation", Refused, room.create, "rect").word, "closed", "a change")
            expect_error("entering", Denied, room.entered, 0)
            time.sleep(SEVERAL_ATTEMPTS)
            self.assertEqual(len(relay.heads), 2, "the attempts")

    def test_denied_in_words(self):
        """The terminal client says why it is not let in."""
        with Relay(1) as relay:
            relay.answers.append(LINES[401])
            command = [sys.executable, ROOT / "clients/python/grace_client.py", f"anna:sesame@{relay.name}", "r"]
            done = subprocess.run(command, capture_output=True, text=True, stdin=subprocess.DEVNULL, timeout=PATIENCE)
        self.assertEqual(
            (done.returncode, done.stdout, done.stderr), (1, "", f"grace_client.py: {WORDS[401]}\n"), "the end",
        )

    def test_comes_back(self):
        """While the server is not there, the client waits. Then it comes back as its site with its changes."""
        for status, reason, words in [
            (502, "Bad Gateway", "The proxy does not reach the server."),
            (503, "Service Unavailable", "All places of the server are taken."),
            (504, "Gateway Timeout", "The proxy does not reach the server."),
        ]:
            with self.subTest(status=status):
                self.check_comes_back(status, reason, words)

    def check_comes_back(self, status, reason, words):
        """Has a client meet this answer three times when it comes back. Expects what it says meanwhile."""
        events = EventLog("state")
        with relayed() as (server, relay):
            with open_rooms(relay.name, listeners=events.listeners) as (room,), open_rooms(server.name) as (other,):
                relay.answers.extend([(f"HTTP/1.1 {status} {reason}",)] * 3)
                relay.cut()
                wait_until("the connection is lost", lambda: room.state != "open")
                made = room.create("rect")
                made.done.result(PATIENCE)
                agree(room, other)
                self.assertEqual((room.site, other.objects()), (1, [(1, 1)]), "the site and the object")
                self.assertEqual(len(relay.heads), 5, "the attempts")
        waits = [it.words for it in events.of("state") if it.state == "waiting"]
        self.assertEqual(waits[1:], [f"{words} Trying again."] * 3, "the words")

    def test_pauses(self):
        """The client waits as long as the answer asks, up to its own longest pause."""
        for name, seconds, longest, least, most in [
            ("a pause that the server asks for", 1, 5, 1, 4),
            ("a longer pause than the client's own", 86400, 0.5, 0.5, 4),
            ("a pause until a date", "Fri, 31 Dec 2027 23:59:59 GMT", 5, 0, 4),
        ]:
            with self.subTest(name):
                self.check_pauses(seconds, longest, least, most)

    def check_pauses(self, seconds, longest, least, most):
        """Expects the second attempt after a time between these bounds. The longest pause is the client's own."""
        with relayed() as (_, relay):
            relay.answers.append(("HTTP/1.1 503 Service Unavailable", f"Retry-After: {seconds}"))
            start = time.monotonic()
            with Room(relay.name, "r", retry_seconds=(0.01, longest)) as room:
                self.assertTrue(room.entered(PATIENCE), "whether it is in the room")
                passed = time.monotonic() - start
        self.assertGreaterEqual(passed, least, "when the second attempt came")
        self.assertLess(passed, most, "when the second attempt came")

    def test_other_answers(self):
        """After any other answer the client tries again, and says what it was."""
        events = EventLog("state")
        with relayed() as (_, relay):
            relay.answers.extend([
                ("HTTP/1.1 500 Internal Server Error",), ("HTTP/1.1 200",), ("SMTP ready",),
                ("HTTP/1.1 101 Switching",),
            ])
            with open_rooms(relay.name, listeners=events.listeners) as (room,):
                self.assertEqual(room.site, 1, "the site")
        waits = [it.words for it in events.of("state") if it.state == "waiting"]
        front = "The server did not accept the WebSocket handshake"
        ends = [": 500 Internal Server Error.", ": 200.", ".", ": 101 Switching."]
        self.assertEqual(waits, [f"{front}{end} Trying again." for end in ends], "the words")

    def test_not_served_when_it_comes_back(self):
        """While the server cannot serve the room, a client that comes back asks again as its site."""
        replies = [
            '["no",0,21,"not-served"]', '["no",1,20,"site-in-use"]', '["back",1,1,0]',
            *['["entries",1,0,[["join",1]]]'] * 2,
        ]
        events = EventLog("state")
        with ScriptedServer(replies) as server:
            # The second for which the client tries to come back begins anew after the first refusal.
            options = {"site": 1, "back_seconds": 1, "listeners": events.listeners}
            with Room(server.name, "r", **options) as room:
                self.assertTrue(room.entered(PATIENCE), "whether it is in the room")
                self.assertEqual(room.site, 1, "the site")
        # It looks first whether the room has ended.
        self.assertEqual(server.requests[:5], ['["back","r",1]'] * 3 + ['["pull",0]'] * 2, "the requests")
        words = [it.words for it in events.of("state")]
        wanted = "The server cannot open this room now: it may have no place for one more. Trying again."
        self.assertIn(wanted, words, "whether it says so")

    def test_room_in_path(self):
        """With the option the path ends with the room's name. Without it the path is that of the address."""
        paths = [
            ("", False, "/"), ("/", False, "/"), ("/studio", False, "/studio"), ("/a/?key=5", False, "/a/?key=5"),
            ("", True, "/r"), ("/", True, "/r"), ("/rooms", True, "/rooms/r"), ("/a/?key=5", True, "/a/r?key=5"),
        ]
        with relayed() as (_, relay):
            for path, is_in_path, _ in paths:
                with open_rooms(f"ws://{relay.name}{path}", room_in_path=is_in_path):
                    pass
            with open_rooms(relay.name, room_in_path=True):
                pass
        self.assertEqual(
            [path_of(head) for head in relay.heads], [expected for *_, expected in paths] + ["/r"], "the paths",
        )
