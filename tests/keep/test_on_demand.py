"""Rooms on demand whose files a folder keeps: `--rooms N --keep DIR`. From their first join to their close."""

import os
import time
import unittest

from lib.keeping import FileLibrary, KeepingServer, OnDemandServer, expect_kept, room_folder, whole_lines
from lib.observing import samples, wait_until
from lib.on_demand import (
    LINES, NOT_SERVED, ask_until_served, draw_once, is_locked, new, notices_of, refusals_of, rooms_of,
    wait_until_closed,
)
from lib.records import compact
from lib.serving import run
from lib.websocket_client import SECONDS
NO_SUCH_SITE = '["no",0,19,"no-such-site"]'
# How long a join, a creation and a leave take at most, in seconds.
PROMPT = 0.5


# ---- a room from its first join to its close


class TestFromJoinToClose(unittest.TestCase):
    time_limit = 600

    def test_first_join(self):
        """A room is made by its first join. Its file has each entry when the reply comes. At the end the room is not
        printed. The next server has the room again, with its sites."""
        for workers in 1, 4:
            with self.subTest(workers=workers):
                self.check_first_join(workers)

    def check_first_join(self, workers):
        """Has two draw in a room of a server with so many threads, which ends and starts again."""
        with room_folder() as folder:
            with OnDemandServer(folder, 2, rooms=("r",), workers=workers) as server:
                self.assertEqual(os.listdir(folder), ["r.record"], "the files")
                first, second = server.client(), server.client()
                first.expect_reply(["join", "a"], '["joined",0,1]')
                self.assertEqual(whole_lines(folder, "a"), LINES[:1], "the file")
                first.expect_reply('["new",1,[],"rect",[["x",0]]]', '["made",1,[1,1]]')
                self.assertEqual(whole_lines(folder, "a"), LINES[:2], "the file")
                second.expect_reply(["join", "a"], '["joined",2,2]')
                second.send_request('["wait",3]')
                first.expect_reply('["put",2,[[1,1]],[1,1],[],[["x",5]]]', '["taken",3,[[]]]')
                self.assertEqual(
                    second.read_reply(), '["entries",4,3,[["put",[1,2],[[1,1]],[1,1],[],[["x",5]]]]]', "the page",
                )
                self.assertEqual(server.open_files(), ["a.record", "r.record"], "the open files")
                records = server.finish()
                transcripts = server.transcripts()
                self.assertEqual({room: len(record) for room, record in records.items()}, {"a": 4}, "the records")
                self.assertEqual(notices_of(server), [], "the notices")
            with OnDemandServer(folder, 2, workers=workers, before=transcripts) as server:
                client = server.client()
                client.expect_reply(["back", "a", 1], '["back",4,1,2]')
                client.expect_reply(["show", [1, 1]], '["versions",4,[1,1],"rect",[[[],[["x",5]]]]]')
                server.client().expect_reply(["back", "a", 2], '["back",4,2,0]')
                server.client().expect_reply(["back", "a", 3], '["no",4,19,"no-such-site"]')
                server.finish()
                self.assertEqual(notices_of(server), [("INFO", f"{folder}/a.record: 4 entries")], "the notices")

    def test_closed_and_opened_again(self):
        """A room that nobody is in is closed after `--close-after`: the program closes its file, which frees its lock.
        The session that left comes back to what it left, and others join as the next sites. A room that somebody is in
        stays open."""
        with room_folder() as folder, OnDemandServer(folder, 5, close_after=1) as server:
            staying, client = server.client(), server.client()
            staying.expect_reply(["join", "b"], '["joined",0,1]')
            client.expect_reply(["join", "a"], '["joined",0,1]')
            for turn in range(1, 4):
                client.expect_reply(new(turn), compact(["made", 2 * turn - 1, [1, turn]]))
                self.assertTrue(is_locked(folder, "a"), "whether the file is locked")
                client.expect_reply(["leave"], compact(["left", 2 * turn]))
                wait_until_closed(server, "a")
                self.assertFalse(is_locked(folder, "a"), "whether the file is locked")
                client.expect_reply(["join", "a"], compact(["joined", 2 * turn, turn + 1]))
                client.expect_reply(["leave"], compact(["left", 2 * turn + 1]))
                client.expect_reply(["back", "a", 1], compact(["back", 2 * turn + 1, 1, turn]))
            staying.expect_reply(["list", 0], '["objects",1,0,0,[]]')
            self.assertEqual(server.open_files(), ["a.record", "b.record"], "the open files")
            found = rooms_of(server)
            self.assertEqual([found[name] for name in ("open", "opened_total", "closed_total")], [2, 5, 3], "the rooms")
            self.assertEqual(
                {room: len(record) for room, record in server.finish().items()}, {"a": 7, "b": 1}, "the sizes",
            )
            self.assertEqual(notices_of(server), [
                ("INFO", f"{folder}/a.record: {2 * turn} entries") for turn in range(1, 4)
            ], "the notices")

    def test_entries_are_counted_over_closes(self):
        """The metrics count what clients added, and nothing twice when a room is opened again."""
        with room_folder() as folder, OnDemandServer(folder, 1) as server:
            client = server.client()
            for turn, room in enumerate("abab"):
                client.expect_reply(["join", room], compact(["joined", 2 * (turn // 2), 1 + turn // 2]))
                client.expect_reply(new(1, 1 + turn // 2), compact(["made", 2 * (turn // 2) + 1, [1 + turn // 2, 1]]))
                client.expect_reply(["leave"], compact(["left", 2 * (turn // 2) + 2]))
            found = {name: number for name, number in samples(server).items() if name.startswith("grace_entries")}
            self.assertEqual(list(found.values()), [4, 4, 0], "the entries")
            server.finish()

    def test_burst(self):
        """Requests behind a join in one burst of bytes are answered in their order, also where the rooms are first to
        be opened."""
        for name, most in [("where each has to be opened", 1), ("where they stay open", 3)]:
            with self.subTest(name):
                self.check_burst(most)

    def check_burst(self, most):
        """Sends requests in one burst to a server that may have so many rooms open."""
        with room_folder() as folder, OnDemandServer(folder, most, workers=1) as server:
            client = server.client()
            draw_once(client, "b")
            requests = {
                '["join","a"]': '["joined",0,1]',
                new(1): '["made",1,[1,1]]',
                new(2): '["made",2,[1,2]]',
                '["join","c"]': '["no",0,3,"already-joined"]',
                '["leave"]': '["left",3]',
                '["list",0]': '["no",0,2,"not-joined"]',
                '["back","b",1]': '["back",2,1,1]',
                '["show",[1,1]]': '["versions",2,[1,1],"rect",[[[],[["x",1]]]]]',
                '["pull",2]': '["entries",2,2,[]]',
                '["leave"] ': '["left",2]',
                '["join","R"]': '["no",0,1,"bad-message"]',
                '["back","a",1]': '["back",3,1,2]',
                '["list",1]': '["objects",3,1,2,[[[1,2],"rect"]]]',
            }
            client.send(b"".join(client.frame_of(request) for request in requests))
            for request, reply in requests.items():
                self.assertEqual(client.read_reply(), reply, f"the reply to {request}")
            server.finish()

    def test_prompt(self):
        """A join of a room that is not open is answered at once, also where another room has to give place."""
        with room_folder() as folder, OnDemandServer(folder, 5, workers=1) as server:
            client, times = server.client(), []
            for number in range(40):
                start = time.monotonic()
                draw_once(client, f"room-{number}")
                times.append(time.monotonic() - start)
            median = sorted(times)[len(times) // 2]
            self.assertLessEqual(median, PROMPT, f"a join, a creation and a leave take {median:.2f} seconds")
            server.finish()

    def test_ends_while_it_waits(self):
        """A client may go away while its join waits for the room. The room is open to others."""
        library = FileLibrary()
        variables = library.variables(SLOW="/a.record", SLOW_MILLIS=1000)
        with room_folder() as folder, OnDemandServer(folder, 8, workers=1, variables=variables) as server:
            gone, closing, other = server.client(), server.client(), server.client()
            gone.send_request(["join", "a"])
            closing.send_request(["join", "a"])
            other.expect_reply(["join", "b"], '["joined",0,1]')
            gone.hang_up()
            other.expect_reply(["leave"], '["left",1]')
            site = other.reply_to(["join", "a"])[2]
            other.expect_reply(["list", 0], compact(["objects", site, 0, 0, []]))
            closing.read_reply()
            server.finish({1: "stream fault"})

    def test_end_while_a_join_waits(self):
        """The server goes away while a join waits for its room. The join is dropped, and the file of the room removed,
        which is empty."""
        library = FileLibrary()
        variables = library.variables(SLOW="/a.record", SLOW_MILLIS=2000)
        with room_folder() as folder, OnDemandServer(folder, 8, variables=variables) as server:
            waiting, other = server.client(), server.client()
            waiting.send_request(["join", "a"])
            other.expect_reply(["join", "b"], '["joined",0,1]')
            server.end_input()
            for client in (waiting, other):
                client.await_away()
            self.assertEqual(waiting.transcript.lines, [], "the replies")
            server.finish()
            self.assertEqual(os.listdir(folder), ["b.record"], "the files")

    def test_end_after_sessions(self):
        """A server for so many sessions closes its rooms on demand when it ends, and does not print them."""
        with room_folder() as folder, KeepingServer(folder, ["r"], sessions=2, on_demand=3) as server:
            for room in "ab":
                client = server.client()
                draw_once(client, room)
                client.close()
            self.assertEqual(server.output(), ["room r 0"], "the output")
            self.assertEqual(server.process.returncode, 0, "the status")
            expect_kept(folder, ["a", "b"], server.transcripts())

    def test_watch(self):
        """`grace watch` shows a room that is closed, which it has opened. It fails where the room cannot be opened."""
        with room_folder() as folder, OnDemandServer(folder, 1) as server:
            client = server.client()
            draw_once(client, "a")
            client.expect_reply(["join", "b"], '["joined",0,1]')
            client.expect_reply(["leave"], '["left",1]')
            shown = run("watch", server.name, "a", seconds=SECONDS)
            self.assertEqual(shown, (0, '["versions",2,[1,1],"rect",[[[],[["x",1]]]]]\n', ""), "what it shows")
            client.expect_reply(["back", "b", 1], '["back",1,1,0]')
            status, output, errors = run("watch", server.name, "a", seconds=SECONDS)
            self.assertEqual((status, output, errors), (3, "", "grace: session failed\n"), "the end")
            server.finish({3: "stream fault"})


# ---- no more than N rooms


class TestNoMoreRooms(unittest.TestCase):
    time_limit = 600

    def test_the_idle_one_gives_place(self):
        """Where N rooms are open, a further one takes the place of one that nobody is in, at once. If sessions are in
        all, it is refused by 21. Nothing of the rooms that gave place is lost."""
        with room_folder() as folder, OnDemandServer(folder, 2, rooms=("r",)) as server:
            first, second, third = server.client(), server.client(), server.client()
            first.expect_reply(["join", "a"], '["joined",0,1]')
            second.expect_reply(["join", "b"], '["joined",0,1]')
            for request in (["join", "c"], ["back", "c", 1], ["join", "d"]):
                third.expect_reply(request, NOT_SERVED)
            third.expect_reply(["join", "r"], '["joined",0,1]')
            third.expect_reply(["leave"], '["left",1]')
            first.expect_reply(new(1), '["made",1,[1,1]]')
            first.expect_reply(["leave"], '["left",2]')
            self.assertEqual(ask_until_served(third, ["join", "c"]), '["joined",0,1]', "the answer")
            self.assertEqual(server.open_files(), ["b.record", "c.record", "r.record"], "the open files")
            first.expect_reply(["back", "a", 1], NOT_SERVED)
            second.expect_reply(["list", 0], '["objects",1,0,0,[]]')
            second.close()
            self.assertEqual(ask_until_served(first, ["back", "a", 1]), '["back",2,1,1]', "the answer")
            self.assertEqual(server.open_files(), ["a.record", "c.record", "r.record"], "the open files")
            self.assertEqual(set(refusals_of(server)), {"full"}, f"the refusals are {refusals_of(server)}")
            found = rooms_of(server)
            names = "open", "max", "opened_total", "closed_total"
            self.assertEqual([found[name] for name in names], [3, 3, 4, 2], "the rooms")
            server.finish()
            self.assertEqual(notices_of(server), [
                ("WARN", "all 3 rooms are open"), ("INFO", f"{folder}/a.record: 2 entries"),
            ], "the notices")

    def test_the_one_left_before_it_is_kept(self):
        """Where N rooms are open, one that its last session has left gives place as soon as its file has all of it."""
        library = FileLibrary()
        variables = library.variables(SLOW="/a.record")
        with room_folder() as folder, OnDemandServer(folder, 2, variables=variables) as server:
            staying, client = server.client(), server.client()
            staying.expect_reply(["join", "c"], '["joined",0,1]')
            client.expect_reply(["join", "a"], '["joined",0,1]')
            requests = {new(1): '["made",1,[1,1]]', '["leave"]': '["left",2]', '["join","b"]': '["joined",0,1]'}
            with library.held():
                client.send(b"".join(client.frame_of(request) for request in requests))
                wait_until("the session has left", lambda: samples(server)["grace_replies_total"] >= 4)
            for request, reply in requests.items():
                self.assertEqual(client.read_reply(), reply, f"the reply to {request}")
            self.assertEqual(refusals_of(server), {}, "the refusals")
            server.finish()

    def test_the_one_entered_again_before_it_is_kept(self):
        """Where N rooms are open, one that is entered again before its file has all of it gives no place. Who waited
        for that is refused by 21."""
        library = FileLibrary()
        variables = library.variables(SLOW="/a.record")
        with room_folder() as folder, OnDemandServer(folder, 1, variables=variables) as server:
            leaving, coming, waiting = server.client(), server.client(), server.client()
            leaving.expect_reply(["join", "a"], '["joined",0,1]')
            requests = {new(1): '["made",1,[1,1]]', '["leave"]': '["left",2]'}
            with library.held():
                leaving.send(b"".join(leaving.frame_of(request) for request in requests))
                wait_until("the session has left", lambda: samples(server)["grace_replies_total"] >= 3)
                waiting.send_request(["join", "b"])
                coming.send_request(["back", "a", 1])
                wait_until("another has come", lambda: samples(server)["grace_replies_total"] >= 4)
            for request, reply in requests.items():
                self.assertEqual(leaving.read_reply(), reply, f"the reply to {request}")
            self.assertEqual(coming.read_reply(), '["back",2,1,1]', "the reply to the back")
            self.assertEqual(waiting.read_reply(), NOT_SERVED, "the reply to the join")
            self.assertEqual(refusals_of(server), {"full": 1}, "the refusals")
            server.finish()

    def test_the_one_idle_longest(self):
        """The room that gives place is the one that nobody has been in for longest."""
        with room_folder() as folder, OnDemandServer(folder, 3) as server:
            client = server.client()
            for room in "abc":
                client.expect_reply(["join", room], '["joined",0,1]')
                client.expect_reply(["leave"], '["left",1]')
                time.sleep(2.2)
            client.expect_reply(["back", "a", 1], '["back",1,1,0]')
            client.expect_reply(["leave"], '["left",1]')
            client.expect_reply(["join", "d"], '["joined",0,1]')
            self.assertEqual(server.open_files(), ["a.record", "c.record", "d.record"], "the open files")
            server.finish()

    def test_tried_names_leave_nothing(self):
        """Names that are only tried by a back leave no file and no open room."""
        with room_folder() as folder, OnDemandServer(folder, 3, close_after=1) as server:
            client = server.client()
            client.expect_reply(["join", "a"], '["joined",0,1]')
            client.expect_reply(["leave"], '["left",1]')
            for number in range(200):
                client.expect_reply(["back", f"tried-{number}", 1], NO_SUCH_SITE)
            wait_until("all are closed", lambda: server.open_files() == [])
            self.assertEqual(os.listdir(folder), ["a.record"], "the files")
            self.assertEqual(rooms_of(server)["open"], 0, "the open rooms")
            server.finish()

    def test_closed_at_the_end(self):
        """At the end of the server the rooms are closed, and empty files are removed."""
        for name, workers in [("with all in one thread", 1), ("in two threads", 2)]:
            with self.subTest(name):
                with room_folder() as folder, OnDemandServer(folder, 9, rooms=("r",), workers=workers) as server:
                    client = server.client()
                    client.expect_reply(["back", "a", 1], NO_SUCH_SITE)
                    draw_once(client, "b")
                    client.expect_reply(["join", "c"], '["joined",0,1]')
                    server.finish()
                    self.assertEqual(sorted(os.listdir(folder)), ["b.record", "c.record", "r.record"], "the files")
