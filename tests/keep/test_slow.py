"""A disk that takes long for the syncs of one room."""

import select
import time
import unittest

from lib.keeping import FileLibrary, KeepingServer, expect_kept, room_folder
from lib.observing import samples, wait_until
from lib.records import compact

# What a put in another room may take, with its wait, in seconds.
PROMPT = 0.5
PUTS = 50
# Samples of the metrics.
CHANGES, SYNCS = 'grace_entries_total{kind="change"}', "grace_sync_seconds_count"


def put(site, seq):
    """Returns a put of a site that is alone with its object."""
    return compact(["put", seq, [[site, seq - 1]], [site, 1], [], [["x", seq]]])


class TestSlowDisk(unittest.TestCase):
    def test_other_rooms_go_on(self):
        """Both rooms are served by one thread. While the slow room waits for its disk, the other one answers at once,
        wakes who waits, and lets clients in. The slow room's replies come after its syncs, and one sync serves all that
        came before it."""
        library = FileLibrary()
        variables = library.variables(SLOW="/slow.record")
        with room_folder() as folder:
            with KeepingServer(folder, ["slow", "fast"], sessions=4, workers=1, variables=variables) as server:
                slow, fast, waiting = server.client(), server.client(), server.client()
                with library.held():
                    slow.send_request('["join","slow"]')
                    self.draw_promptly(fast, waiting)
                    self.expect_no_reply(slow)
                self.assertEqual(slow.read_reply(), '["joined",0,1]', "the reply")
                self.send_together(library, server, slow)
                # The server answers requests for its metrics until its last session begins.
                server.client()
                transcripts = server.transcripts()
                server.finish()
            expect_kept(folder, ["slow", "fast"], transcripts)

    def draw_promptly(self, fast, waiting):
        """Draws in the fast room with one client, while another waits for each entry. The replies come at once; the
        machine may delay some."""
        fast.expect_reply('["join","fast"]', '["joined",0,1]')
        waiting.expect_reply('["join","fast"]', '["joined",1,2]')
        fast.expect_reply('["new",1,[],"rect",[["x",1]]]', '["made",2,[1,1]]')
        times = []
        for seq in range(2, PUTS):
            start = time.monotonic()
            waiting.send_request(compact(["wait", seq + 1]))
            fast.expect_reply(put(1, seq), compact(["taken", seq + 1, [[]]]))
            waiting.read_reply()
            times.append(time.monotonic() - start)
        median = sorted(times)[len(times) // 2]
        self.assertLessEqual(median, PROMPT, f"a put takes {median:.3f} seconds")

    def send_together(self, library, server, slow):
        """Sends many puts at once in the slow room. All replies come after two syncs at most, since the first may begin
        before the last put came."""
        before = samples(server)
        with library.held():
            slow.send_request('["new",1,[],"rect",[["x",1]]]')
            for seq in range(2, PUTS):
                slow.send_request(put(1, seq))
            wait_until("the room has all puts", lambda: samples(server)[CHANGES] == before[CHANGES] + PUTS - 2)
            self.expect_no_reply(slow)
        for _ in range(1, PUTS):
            slow.read_reply()
        more = samples(server)[SYNCS] - before[SYNCS]
        self.assertLessEqual(more, 2, f"{more} syncs in place of two at most")

    def expect_no_reply(self, client):
        """Expects that the server has sent nothing more to the client."""
        readable, _, _ = select.select([client.socket], [], [], 0)
        self.assertFalse(readable or client.received, "whether there is a reply")
