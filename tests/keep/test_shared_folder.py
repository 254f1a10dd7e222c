"""Rooms on demand that another process has, and several processes over one folder."""

import os
import time
import unittest

from lib.keeping import KeepingServer, OnDemandServer, bytes_of, expect_no_start, path_of, room_folder
from lib.observing import expect_turned_away
from lib.on_demand import BAD_LINE, NOT_SERVED, RECORD, ask_until_served, draw_once, locked, new, refusals_of
from lib.records import compact
from lib.websocket_client import SECONDS, Fault


class TestSharedFolder(unittest.TestCase):
    time_limit = 600

    # ---- a room that another process has
    def test_locked_by_another(self):
        """A room whose file another process has is refused by 21. It is served soon after the file is free. For about a
        second after a refusal the server does not look at the file again."""
        with room_folder() as folder, OnDemandServer(folder, 3) as server:
            client, other = server.client(), server.client()
            other.expect_reply(["join", "b"], '["joined",0,1]')
            with locked(folder, "a"):
                start = time.monotonic()
                client.expect_reply(["join", "a"], NOT_SERVED)
                client.expect_reply(["back", "a", 1], NOT_SERVED)
            reply = client.ask(["join", "a"])
            if time.monotonic() - start < 0.9:
                self.assertEqual(reply, NOT_SERVED, "the reply at once")
            refused = refusals_of(server)
            self.assertEqual(set(refused), {"elsewhere"}, f"the refusals are {refused}")
            if reply == NOT_SERVED:
                reply = ask_until_served(client, ["join", "a"])
            self.assertEqual(reply, '["joined",0,1]', "the reply")
            other.expect_reply(new(1), '["made",1,[1,1]]')
            server.finish()

    def expect_let_in(self, server, target):
        """Connects a client over this target as soon as the server lets one in."""
        bound = time.monotonic() + SECONDS
        while True:
            client = server.connect()
            try:
                client.open(target)
                return client
            except Fault:
                server.clients.remove(client)
                client.hang_up()
                if time.monotonic() > bound:
                    raise AssertionError(f"nobody is let in over {target}") from None
            time.sleep(0.1)

    def test_by_path(self):
        """With `--by-path` the handshake is answered by 503 while the room cannot be opened: another process has its
        file, its file cannot be used, or N rooms have sessions in them. Later it is served."""
        with room_folder() as folder, OnDemandServer(folder, 2, by_path=True) as server:
            path_of(folder, "c").write_bytes(BAD_LINE)
            with locked(folder, "a"):
                expect_turned_away(server, "/a")
            expect_turned_away(server, "/c")
            client = self.expect_let_in(server, "/a")
            client.expect_reply(["join", "a"], '["joined",0,1]')
            client.expect_reply(["join", "b"], '["no",0,3,"already-joined"]')
            other = self.expect_let_in(server, "/b?x")
            other.expect_reply(["join", "a"], '["no",0,4,"no-such-room"]')
            other.expect_reply(["join", "b"], '["joined",0,1]')
            expect_turned_away(server, "/d")
            other.close()
            self.expect_let_in(server, "/d").expect_reply(["join", "d"], '["joined",0,1]')
            self.assertEqual(server.open_files(), ["a.record", "d.record"], "the files")
            self.assertEqual(set(refusals_of(server)), {"elsewhere", "file", "full"}, "the reasons")
            server.finish()

    def test_named_rooms(self):
        """Rooms of the command line stay open beside rooms on demand, and are printed at the end. Two processes over
        one folder may have different ones. A room of one is refused by 21 in the other; named on both command lines, it
        prevents the second start."""
        with room_folder({"s": RECORD}) as folder:
            with OnDemandServer(folder, 1, rooms=("r", "s"), close_after=1) as first:
                client = first.client()
                draw_once(client, "r")
                client.expect_reply(["back", "s", 1], '["back",3,1,1]')
                refused = expect_no_start(
                    f"grace: kept by another: {folder}/s.record", folder, "t", "s", "--rooms", 1
                )
                self.assertEqual(refused, [], "the other lines")
                with OnDemandServer(folder, 2, rooms=("t",)) as second:
                    other = second.client()
                    for room in ("r", "s"):
                        other.expect_reply(["join", room], NOT_SERVED)
                    other.expect_reply(["join", "t"], '["joined",0,1]')
                    client.expect_reply(["leave"], '["left",3]')
                    client.expect_reply(["join", "t"], NOT_SERVED)
                    second.finish()
                self.assertEqual(ask_until_served(client, ["join", "t"]), '["joined",1,2]', "the reply")
                first.before = second.transcripts()
                self.assertEqual(first.open_files(), ["r.record", "s.record", "t.record"], "the open files")
                client.close()
                first.end_input()
                heads = [line for line in first.output() if line.startswith("room ")]
                self.assertEqual(heads, ["room r 2", "room s 3"], "the heads")

    def test_named_room_that_is_bad(self):
        """A bad line, or a folder, in place of the file of a room of the command line prevents the start, with
        `--rooms` too."""
        with room_folder({"r": BAD_LINE}) as folder:
            expect_no_start(
                f"grace: bad record: {folder}/r.record line 4; after a loss of power all that clients were told stands"
                " before it: keep a copy, and then the lines before 4 alone", folder, "r", "--rooms", 1,
            )
            os.mkdir(path_of(folder, "s"))
            lines = expect_no_start(f"grace: cannot keep: {folder}", folder, "s", "--rooms", 1)
            self.assertIn(f"ERROR {folder}/s.record: ", lines[-1], "the line")
            self.assertEqual(bytes_of(folder, "r"), BAD_LINE, "the file")

    def test_old_and_new(self):
        """A server without `--rooms` has the folder alone. Such a one and one with `--rooms` exclude each other."""
        with room_folder() as folder:
            with KeepingServer(folder, ["r"], sessions=1):
                expect_no_start(f"grace: kept by another: {folder}", folder, "--rooms", 1)
                expect_no_start(f"grace: kept by another: {folder}", folder, "s", "--rooms", 1)
            with OnDemandServer(folder, 1):
                expect_no_start(f"grace: kept by another: {folder}", folder, "r")
                with OnDemandServer(folder, 1):
                    expect_no_start(f"grace: kept by another: {folder}", folder, "s")

    def test_in_two_processes(self):
        """Two processes serve one folder. A room that one has open is refused by 21 in the other, and free in it once
        the first has closed it."""
        with room_folder() as folder, OnDemandServer(folder, 3, close_after=1) as first:
            with OnDemandServer(folder, 3, close_after=1) as second:
                client, other = first.client(), second.client()
                client.expect_reply(["join", "a"], '["joined",0,1]')
                other.expect_reply(["join", "b"], '["joined",0,1]')
                client.expect_reply(new(1), '["made",1,[1,1]]')
                other.expect_reply(["leave"], '["left",1]')
                other.expect_reply(["join", "a"], NOT_SERVED)
                client.expect_reply(["leave"], '["left",2]')
                self.assertEqual(ask_until_served(other, ["back", "a", 1]), '["back",2,1,1]', "the reply")
                self.assertEqual(ask_until_served(client, ["back", "b", 1]), '["back",1,1,0]', "the reply")
                client.expect_reply(new(1), '["made",1,[1,1]]')
                other.expect_reply(new(2), '["made",2,[1,2]]')
                second.before = first.transcripts()
                client.close()
                second.finish()
            first.before = second.transcripts()[len(first.clients):]
            first.finish()

    def test_taken_over(self):
        """Where a process is killed, another one over the same folder takes its rooms. Clients come back as their
        sites, with all that they had been told."""
        rooms = [f"room-{number}" for number in range(10)]
        with room_folder() as folder, OnDemandServer(folder, 20) as standby:
            with OnDemandServer(folder, 20) as server:
                for number, room in enumerate(rooms):
                    client = server.client()
                    client.expect_reply(["join", room], '["joined",0,1]')
                    for seq in range(1, number + 2):
                        client.expect_reply(new(seq), compact(["made", seq, [1, seq]]))
                    standby.client().expect_reply(["join", room], NOT_SERVED)
                server.kill()
                standby.before = server.transcripts()
            for number, (room, client) in enumerate(zip(rooms, standby.clients)):
                reply = ask_until_served(client, ["back", room, 1])
                self.assertEqual(reply, compact(["back", number + 2, 1, number + 1]), "the reply")
                client.expect_reply(new(number + 2), compact(["made", number + 2, [1, number + 2]]))
            self.assertEqual(set(refusals_of(standby)), {"elsewhere"}, "the reasons")
            standby.finish()
