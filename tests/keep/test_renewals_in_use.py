"""Kept rooms that become nearly full while people are in them: the server renews them meanwhile."""

import json
import os
import random
import subprocess
import tempfile
import time
import unittest

from lib.answers import NO_SUCH_ROOM
from lib.crowd import Crowd
from lib.keeping import OnDemandServer, path_of, whole_lines
from lib.on_demand import NOT_SERVED, ask_until_served
from lib.observing import wait_until
from lib.records import compact
from lib.running import OPTIONS
from lib.serving import program, run
from lib.websocket_client import Ended

from keep.test_renewals import (
    FOLDERS, JOINS, NEW, OBJECTS, OLD, SENT_ON, folder_of, many_objects, renewed, server_of, text_of,
)
RENEWED = '["no",{},22,"renewed"]'
# The rooms that are renewed at once, and the longest run of a server before it is killed, in seconds.
MANY = [f"room-{number}" for number in range(8)]
RUN = 0.5


def nearly_full():
    """Returns the file of a room that is nearly full after one more join, with two objects."""
    joins = [["join", site] for site in range(1, JOINS)]
    return text_of([*joins, ["new", [1, 1], [], "rect", [["x", 1]]], ["new", [1, 2], [[1, 1]], "line", []]])


def has_ended(folder, room="plan"):
    """Returns whether the record of a room has ended, by its file."""
    return path_of(folder, room).read_text().splitlines()[-1].startswith('["next",')


def put(seq, site=JOINS):
    """Returns a put on the first object, whose author has seen its creation and its own operations."""
    own = [[site, seq - 1]] if seq > 1 else []
    return compact(["put", seq, [[1, 1], *own], [1, 1], [], [["y", seq]]])


def draw_until_it_ends(client, folder, most=20):
    """Puts values until the record has ended. Returns how many the room took."""
    for seq in range(1, most + 1):
        if has_ended(folder):
            return seq - 1
        client.expect_reply(put(seq), f'["taken",{JOINS + 1 + seq},[[]]]')
    wait_until("the record has ended", lambda: has_ended(folder))
    return most


def many_versions(joins=60, versions=32):
    """Returns the file of a room with so many joins, and an object of so many versions: as many joins has the room that
    goes on with it."""
    puts = [["put", [site, 1], [[1, 1]], [1, 1], [], [["x", site]]] for site in range(2, versions + 2)]
    return text_of([*(["join", site] for site in range(1, joins + 1)), ["new", [1, 1], [], "rect", []], *puts])


class TestRenewalsInUse(unittest.TestCase):
    time_limit = 300

    def test_renewal(self):
        """A room that becomes nearly full ends while people are in it. Their changes are refused by 22 from then on.
        They read how it ended, and go on in the next room, which draws the same. Who joins is sent on."""
        for name, on_demand in FOLDERS:
            with self.subTest(name):
                self.check_renewal(on_demand)

    def check_renewal(self, on_demand):
        """Has two draw in a room that ends meanwhile."""
        with folder_of({OLD: nearly_full()}) as folder, server_of(folder, on_demand) as server:
            client, other = server.client(), server.client()
            client.expect_reply(["join", "plan"], f'["joined",{JOINS + 1},{JOINS}]')
            taken = draw_until_it_ends(client, folder)
            entries = JOINS + 2 + taken
            client.expect_reply(put(taken + 1), RENEWED.format(entries + 1))
            client.expect_reply(f'["pull",{entries}]', f'["entries",{entries + 1},{entries},[["next",3]]]')
            other.expect_reply(["join", "plan"], SENT_ON)
            other.expect_reply(["join", "plan.2"], '["joined",3,2]')
            client.expect_reply('["leave"]', f'["left",{entries + 1}]')
            client.expect_reply(["join", "plan.2"], '["joined",4,3]')
            shown = [["x", 1], *([["y", taken]] if taken else [])]
            client.expect_reply('["show",[1,1]]', compact(["versions", 5, [1, 1], "rect", [[[], shown]]]))
            server.kill()
            server.warnings()
            for room in ("plan", "plan.2"):
                self.assertEqual(run("check", path_of(folder, room), os.devnull), (0, "holds\n", ""), "the verdict")

    def test_follow(self):
        """`grace watch --follow` goes on in the next room."""
        with folder_of({OLD: nearly_full()}) as folder, server_of(folder) as server:
            words = ["grace", "watch", "--follow", server.name, "plan"]
            process = subprocess.Popen(words, executable=program(), stdout=subprocess.PIPE, text=True)
            for number in (1, 2):
                self.assertEqual(json.loads(process.stdout.readline())[2], [1, number], "the first lines")
            client = server.client()
            client.expect_reply(["join", "plan"], f'["joined",{JOINS + 1},{JOINS}]')
            for seq in range(1, draw_until_it_ends(client, folder) + 1):
                self.assertEqual(json.loads(process.stdout.readline())[4], [[[], [["x", 1], ["y", seq]]]], "the news")
            for number in (1, 2):
                self.assertEqual(
                    process.stdout.readline()[:20], f'["versions",3,[1,{number}],', "the lines of the next room",
                )
            client.ask('["leave"]')
            self.assertEqual(ask_until_served(client, ["join", "plan.2"])[:9], '["joined"', "the reply")
            process.kill()
            process.wait()
            process.stdout.close()
            server.kill()
            server.warnings()

    def test_nothing_at_once(self):
        """A room that is less than nearly full goes on."""
        count = JOINS - 20
        record = text_of([["join", site] for site in range(1, count + 1)] + [["new", [1, 1], [], "rect", []]])
        with folder_of({OLD: record}) as folder, OnDemandServer(folder, 3) as server:
            client = server.client()
            client.expect_reply(["join", "plan"], f'["joined",{count + 1},{count + 1}]')
            for seq in range(1, 40):
                client.expect_reply(put(seq, count + 1), f'["taken",{count + 1 + seq},[[]]]')
            self.assertFalse(has_ended(folder), "whether it has ended")
            server.kill()
            server.warnings()

    def test_declined(self):
        """A room that no other one can go on with goes on itself, though it is nearly full."""
        for name, record, others in [
            ("a room that would not be roomy", lambda: many_objects(OBJECTS), {}),
            ("a file in the place of the next", nearly_full, {NEW: renewed}),
        ]:
            with self.subTest(name):
                self.check_declined(record, others)

    def check_declined(self, record, others):
        """Draws in a room with this record beside these files."""
        data = record()
        data = data if isinstance(data, bytes) else text_of(data)
        with folder_of({OLD: data, **{name: of() for name, of in others.items()}}) as folder:
            with OnDemandServer(folder, 3) as server:
                client = server.client()
                site, entries = data.count(b'"join"') + 1, data.count(b"\n")
                client.expect_reply(["join", "plan"], f'["joined",{entries},{site}]')
                for seq in range(1, 20):
                    own = [[site, seq - 1]] if seq > 1 else []
                    reply = client.ask(compact(["put", seq, [[1, 1], *own], [1, 1], [], [["x", seq]]]))
                    self.assertEqual(reply, f'["taken",{entries + seq},[[]]]', "the reply")
                self.assertFalse(has_ended(folder), "whether it has ended")
                server.kill()
                server.warnings()

    def test_joins_of_all(self):
        """A room goes on while the next one would not have a quarter of its joins left once all who are in have joined
        it."""
        for name, stay in [("all stay", True), ("all but one leave", False)]:
            with self.subTest(name):
                self.check_joins_of_all(stay)

    def check_joins_of_all(self, stay):
        """Has clients join until the room is nearly full, who stay or leave."""
        record = many_versions()
        sites = range(record.count(b'"join"') + 1, JOINS + 1)
        with folder_of({OLD: record}) as folder, server_of(folder) as server:
            for site in sites:
                client = server.client()
                self.assertEqual(json.loads(client.ask(["join", "plan"]))[2], site, "the reply")
                if not stay and site < JOINS:
                    client.close()
            for seq in range(1, 17):
                reply = json.loads(client.ask(["new", seq, [[JOINS, seq - 1]] if seq > 1 else [], "line", []]))
                if reply[0] == "no":
                    break
            if not stay:
                wait_until("the record has ended", lambda: has_ended(folder))
            self.assertEqual(reply[0] == "made" and not has_ended(folder), stay, "whether all was taken")
            server.kill()
            server.warnings()

    def test_other_rooms(self):
        """A server that has only the rooms of the command line and of their chains opens no other, and leaves no file
        of one. A room with a number is opened once its chain reaches it."""
        with folder_of({OLD: nearly_full()}) as folder, server_of(folder) as server:
            client, other = server.client(), server.client()
            for room in ("another", "another.2", "plan-2"):
                other.expect_reply(["join", room], NO_SUCH_ROOM)
                other.expect_reply(["back", room, 1], NO_SUCH_ROOM)
            other.expect_reply(["join", "plan.2"], NOT_SERVED)
            client.expect_reply(["join", "plan"], f'["joined",{JOINS + 1},{JOINS}]')
            draw_until_it_ends(client, folder)
            self.assertEqual(ask_until_served(other, ["join", "plan.2"]), '["joined",3,2]', "the reply")
            server.kill()
            server.warnings()
            self.assertEqual(sorted(os.listdir(folder)), [NEW, OLD], "the files")

    def test_one_place(self):
        """With a place for one room only, the next room is opened once all have left the one that has ended."""
        with folder_of({OLD: nearly_full()}) as folder, OnDemandServer(folder, 1) as server:
            client, other = server.client(), server.client()
            client.expect_reply(["join", "plan"], f'["joined",{JOINS + 1},{JOINS}]')
            entries = JOINS + 3 + draw_until_it_ends(client, folder)
            other.expect_reply(["join", "plan"], SENT_ON)
            other.expect_reply(["join", "plan.2"], NOT_SERVED)
            client.expect_reply('["leave"]', f'["left",{entries}]')
            self.assertEqual(ask_until_served(other, ["join", "plan.2"]), '["joined",3,2]', "the reply")
            server.kill()
            server.warnings()


# ---- kills


def draw_to_the_end(client, room, told):
    """Joins a room and puts values there until it has ended. Notes of each entry that a reply tells of its room, its
    place and its text. Returns the room to join next."""
    reply = json.loads(client.ask(["join", room]))
    if reply[0] == "renewed":
        return reply[2]
    if reply[0] == "no":
        time.sleep(0.01)
        return room
    site, seq = reply[2], 0
    told.append((room, reply[1], compact(["join", site])))
    while reply[0] != "no":
        seq += 1
        request = put(seq, site)
        reply = json.loads(client.ask(request))
        if reply[0] == "taken":
            told.append((room, reply[1], compact(["put", [site, seq], *json.loads(request)[2:]])))
    client.ask('["leave"]')
    return room


def draw(client, room, told):
    """Draws in a room, and in those that go on with it, until the connection ends."""
    try:
        client.open()
        while True:
            room = draw_to_the_end(client, room, told)
    except Ended:
        pass


class TestKills(unittest.TestCase):
    time_limit = 300

    def expect_chain(self, folder, room, told):
        """Expects that the files of a chain have what replies told, that each is a record, and that each room begins
        with what the one before drew at its end."""
        names = [room, *(f"{room}.{number}" for number in range(2, 9))]
        names = [name for name in names if path_of(folder, name).exists()]
        for name in names:
            self.assertEqual(run("check", path_of(folder, name), os.devnull), (0, "holds\n", ""), "the verdict")
            lines = whole_lines(folder, name)
            for place, text in ((place, text) for other, place, text in told if other == name):
                self.assertEqual(lines[place], text, f"entry {place} of {name}")
        for old, new in zip(names, names[1:]):
            _, count = json.loads(whole_lines(folder, old)[-1])
            with tempfile.NamedTemporaryFile("w", suffix=".record") as file:
                file.writelines(f"{line}\n" for line in whole_lines(folder, new)[:count])
                file.flush()
                self.assertEqual(run("renewed", path_of(folder, old), file.name), (0, "holds\n", ""), "the comparison")

    def test_kills(self):
        """Servers that are killed while rooms are renewed, and started again. Nothing is lost that a reply told, and
        the rooms go on."""
        renewals = 0
        for _ in range(OPTIONS.times):
            told = {room: [] for room in MANY}
            with folder_of({f"{room}.record": nearly_full() for room in MANY}) as folder:
                with server_of(folder, rooms=MANY) as server:
                    crowd = Crowd()
                    for room in MANY:
                        crowd.start(draw, server.connect(), room, told[room])
                    time.sleep(random.uniform(0, RUN))
                    server.kill()
                    crowd.end()
                renewals += sum(has_ended(folder, room) for room in MANY)
                with server_of(folder, rooms=MANY) as server:
                    client = server.client()
                    for room in MANY:
                        self.draw_once(client, room)
                    server.kill()
                    server.warnings()
                for room in MANY:
                    self.expect_chain(folder, room, told[room])
        self.assertGreater(renewals, 0, "whether some rooms were renewed")

    def draw_once(self, client, room):
        """Joins the newest room of a chain, puts a value there and leaves. Where that room ends before the put comes,
        the next one takes it."""
        for _ in range(2):
            reply = json.loads(client.ask(["join", room]))
            if reply[0] == "renewed":
                reply = json.loads(ask_until_served(client, ["join", reply[2]]))
            answer = json.loads(client.ask(put(1, reply[2])))
            client.ask('["leave"]')
            if answer[0] == "taken":
                return
            self.assertEqual(answer[2:], [22, "renewed"], "the refusal")
        self.fail("both rooms refuse the put")
