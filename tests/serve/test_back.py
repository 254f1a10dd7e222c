"""Clients that come back as a site: when the end of a session frees the site, how often they can, and in a full
room."""

import threading
import unittest

from lib.drawing import come_back
from lib.records import compact
from lib.crowd import Crowd
from lib.running import OPTIONS
from lib.serving import Server, run
from lib.websocket_client import SECONDS, TEXT, frame

JOIN = '["join","r"]'
BACK = '["back","r",1]'
STREAM_FAULT = "stream fault"
CLIENTS = 64
# Every fourth time that a client comes back, it sends an operation and hangs up.
EACH = 4
# The limits of a room, and the number of objects in a full record.
SITES, ENTRIES, OBJECTS = 256, 16_384, 8_192


# ---- the end of a session


def close(client):
    """Closes the session."""
    client.close()


def hang_up(client):
    """Breaks the connection."""
    client.hang_up()


def stay_silent(client):
    """Sends nothing for longer than `--idle`."""
    client.expect_end()


class TestEndOfASession(unittest.TestCase):
    def break_protocol(self, client):
        """Sends a request, reads its reply and violates the protocol."""
        client.send(client.frame_of('["pull",1]') + frame(TEXT, b"[]", reserved=7))
        self.assertEqual(client.read_reply(), '["entries",1,1,[]]', "the reply")
        client.expect_end()

    def test_end_frees_the_site(self):
        """A site is in use until its session ends, in whatever way, and then free. The silence lasts 4 seconds, so that
        a shorter stall does not end the other session."""
        for name, *row in [
            ("a close", close),
            ("a broken connection", hang_up, STREAM_FAULT),
            ("a fault", self.break_protocol, STREAM_FAULT),
            ("a silence", stay_silent, STREAM_FAULT, 4),
        ]:
            with self.subTest(name):
                self.check_end_frees_the_site(*row)

    def check_end_frees_the_site(self, end_session, cause=None, idle=None):
        """Has one client end its session in this way, and another come back as its site."""
        with Server(2, idle=idle) as server:
            first = server.client()
            first.expect_reply(JOIN, '["joined",0,1]')
            if idle:
                end_session(first)
                second = server.client()
            else:
                second = server.client()
                second.expect_reply(BACK, '["no",1,20,"site-in-use"]')
                end_session(first)
            self.assertEqual(come_back(second.reply_to, "r", 1), 0, "the operations")
            second.expect_reply('["new",1,[],"rect",[]]', '["made",1,[1,1]]')
            second.close()
            server.finish(cause and {1: cause})

    def test_free_after_close(self):
        """A site is free as soon as the server has ended the connection of its closed session: nobody has to retry."""
        with Server(50) as server:
            client = server.client()
            client.expect_reply(JOIN, '["joined",0,1]')
            for _ in range(49):
                client.close()
                client = server.client()
                client.expect_reply(BACK, '["back",1,1,0]')
            server.finish()

    def test_one_client_a_site(self):
        """Many clients come back as one site at once, repeatedly. The server admits exactly one each time."""
        count = 16
        with Server(count + 1, count + 1) as server:
            server.client().expect_reply(JOIN, '["joined",0,1]')
            clients = [server.client() for _ in range(count)]
            for client in clients:
                client.expect_reply(BACK, '["no",1,20,"site-in-use"]')
            server.clients[0].expect_reply('["leave"]', '["left",1]')
            for _ in range(50):
                for client in clients:
                    client.send_request(BACK)
                replies = [client.read_reply() for client in clients]
                expected = ['["back",1,1,0]'] + (count - 1) * ['["no",1,20,"site-in-use"]']
                self.assertEqual(sorted(replies), expected, "the replies")
                clients[replies.index('["back",1,1,0]')].expect_reply('["leave"]', '["left",1]')
            server.finish()


# ---- often


class TestComingBackOften(unittest.TestCase):
    @property
    def time_limit(self):
        """The bound of the slowest run, in seconds."""
        return 4 * OPTIONS.back + SECONDS

    def reconnect_often(self, server, connecting, site, times, warnings):
        """Comes back as the site this many times, each time over a new connection. Now and then it sends an operation,
        and hangs up without waiting for a further reply."""
        made = 0
        for time_ in range(1, times + 1):
            with connecting:
                client = server.connect()
            client.open()
            self.assertEqual(come_back(client.reply_to, "r", site), made, "the operations")
            if time_ % EACH:
                client.close()
                continue
            made += 1
            seen = [[site, made - 1]] if made > 1 else []
            request = ["new", 1, [], "rect", []] if made == 1 else ["put", made, seen, [site, 1], [], [["x", time_]]]
            self.assertEqual(client.reply_to(request)[0], "made" if made == 1 else "taken", "the reply")
            client.send_request(["pull", 0])
            client.hang_up()
            with connecting:
                warnings[client.session] = STREAM_FAULT

    def test_come_back_often(self):
        """64 clients come back this often each, and use 64 sites in all."""
        times = OPTIONS.back
        warnings, connecting = {}, threading.Lock()
        with Server(CLIENTS * (times + 1), CLIENTS, patience=3 * times + SECONDS) as server:
            for site in range(1, CLIENTS + 1):
                client = server.client()
                client.expect_reply(JOIN, f'["joined",{site - 1},{site}]')
                client.close()
            crowd = Crowd()
            for site in range(1, CLIENTS + 1):
                crowd.start(self.reconnect_often, server, connecting, site, times, warnings)
            crowd.end(3 * times + 3 * SECONDS)
            record = server.finish(warnings)["r"]
        self.assertEqual(
            [line for line in record if line.startswith('["join"')],
            [f'["join",{site}]' for site in range(1, CLIENTS + 1)],
            "the joins",
        )
        self.assertEqual(len(record) - CLIENTS, CLIENTS * (times // EACH), "the other entries")


# ---- a full room


def pull_all(client):
    """Returns all entries of the client's room."""
    entries, at = [], None
    while at != len(entries):
        _, at, _, page = client.reply_to(["pull", len(entries)])
        entries += page
    return entries


def operation(seq):
    """Returns this operation of a site that is alone: a creation, or a put to the objects in turn."""
    seen = [[1, seq - 1]] if seq > 1 else []
    if seq <= OBJECTS:
        return ["new", seq, seen, "rect", []]
    return ["put", seq, seen, [1, 1 + seq % OBJECTS], [], [["x", seq]]]


class TestFullRooms(unittest.TestCase):
    def come_back_to_full(self, server, refusal, entries):
        """Expects that a full room refuses a join. Comes back as the second site and reads the whole record. Returns
        the client."""
        client = server.client()
        client.expect_reply(JOIN, compact(["no", entries, *refusal]))
        client.expect_reply('["back","r",2]', compact(["back", entries, 2, 0]))
        self.assertEqual(len(pull_all(client)), entries, "how many entries")
        return client

    def test_full_of_joins(self):
        """In a room that has assigned its 256 sites, clients come back, read and draw. `grace watch` comes back as a
        free site."""
        with Server(SITES + 3, 4) as server:
            first = server.client()
            first.expect_reply(JOIN, '["joined",0,1]')
            first.expect_reply('["new",1,[],"rect",[]]', '["made",1,[1,1]]')
            first.close()
            for site in range(2, SITES + 1):
                client = server.client()
                client.expect_reply(JOIN, f'["joined",{site},{site}]')
                client.close()
            last = server.client()
            last.expect_reply(f'["back","r",{SITES}]', f'["back",{SITES + 1},{SITES},0]')
            last.expect_reply('["put",1,[[1,1]],[1,1],[],[["x",5]]]', f'["taken",{SITES + 1},[[]]]')
            client = self.come_back_to_full(server, [5, "room-full"], SITES + 2)
            server.other_client().came_back("r", SITES + 2, 1, 1)
            self.assertEqual(
                run("watch", server.name, "r"), (0, f"{client.ask(['show', [1, 1]])}\n", ""), "the watcher's end",
            )
            server.finish()

    def test_full_of_entries(self):
        """A client can come back to a room with a full record and read it."""
        with Server(3, 3, patience=3 * SECONDS) as server:
            first, second = server.client(), server.client()
            first.expect_reply(JOIN, '["joined",0,1]')
            second.expect_reply(JOIN, '["joined",1,2]')
            second.close()
            for start in range(1, ENTRIES - 1, 512):
                numbers = range(start, min(start + 512, ENTRIES - 1))
                first.send(b"".join(first.frame_of(operation(seq)) for seq in numbers))
                for seq in numbers:
                    reply = ["made", seq + 1, [1, seq]] if seq <= OBJECTS else ["taken", seq + 1, [[]]]
                    self.assertEqual(first.read_reply(), compact(reply), "the reply")
            first.close()
            client = self.come_back_to_full(server, [6, "record-full"], ENTRIES)
            client.expect_reply('["new",1,[],"rect",[]]', compact(["no", ENTRIES, 6, "record-full"]))
            server.finish()
