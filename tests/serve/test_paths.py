"""Sessions that may enter only the room of their request's path: `--by-path`."""

import unittest

from lib.serving import Server, run
from lib.websocket_client import SECONDS

NONE = '["no",0,4,"no-such-room"]'
# Targets that name room r.
OF_ROOM = ["/r", "/r?", "/r?token=a/b?c", "/r?/s"]
# Targets that name none of the rooms r and s.
OF_NONE = [
    "/", "//r", "/r/", "/./r", "/a/../r", "/%72", "/R", "/r%3f", "/r;s", "/r,s", "/?r", "?/r", "r", "*", "/t",
    "/" + 65 * "a", "http://localhost/r", "/r.record", "/r.2",
]


class TestPaths(unittest.TestCase):
    def test_room_of_the_path(self):
        """A session over /NAME may enter NAME alone, and again after it left. It is not told whether another room
        exists."""
        with Server(len(OF_ROOM), 1, rooms=("r", "s"), by_path=True) as server:
            for site, target in enumerate(OF_ROOM, 1):
                client = server.client(target)
                for request in (["join", "s"], ["back", "s", 1], ["join", "t"], ["join", "rr"]):
                    client.expect_reply(request, NONE)
                self.assertEqual(client.reply_to(["join", "r"])[0::2], ["joined", site], "the join")
                client.expect_reply(["join", "s"], '["no",0,3,"already-joined"]')
                self.assertEqual(client.reply_to(["leave"])[0], "left", "the leave")
                client.expect_reply(["back", "s", 1], NONE)
                self.assertEqual(client.reply_to(["back", "r", site])[0], "back", "coming back")
            server.finish()

    def test_no_room_of_the_path(self):
        """A session over any other target may enter no room. Nothing in it is decoded."""
        with Server(len(OF_NONE), 1, rooms=("r", "s"), by_path=True) as server:
            for target in OF_NONE:
                client = server.client(target)
                for request in (["join", "r"], ["join", "s"], ["back", "r", 1]):
                    client.expect_reply(request, NONE)
                client.expect_reply(["leave"], '["no",0,2,"not-joined"]')
            server.finish()

    def test_any_path(self):
        """Without the option a session may enter each room, whatever its target is."""
        targets = ["/", "/s", "/no/room?s"]
        with Server(len(targets), 1, rooms=("r", "s")) as server:
            for site, target in enumerate(targets, 1):
                client = server.client(target)
                self.assertEqual(client.reply_to(["join", "r"])[0::2], ["joined", site], "the join")
                client.reply_to(["leave"])
                self.assertEqual(client.reply_to(["join", "s"])[0::2], ["joined", site], "the join")
            server.finish()

    def test_watch(self):
        """`grace watch` shows the room of its request's path."""
        with Server(2, 1, rooms=("r", "s"), by_path=True) as server:
            client = server.client("/s")
            client.expect_reply(["join", "s"], '["joined",0,1]')
            client.expect_reply(["new", 1, [], "rect", [["x", 0]]], '["made",1,[1,1]]')
            shown = run("watch", server.name, "s", seconds=SECONDS)
            self.assertEqual(shown, (0, '["versions",3,[1,1],"rect",[[[],[["x",0]]]]]\n', ""), "the end of grace watch")
            watcher = server.other_client()
            watcher.joined("s", 2, 2)
            server.finish()
