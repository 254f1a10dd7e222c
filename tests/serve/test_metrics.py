"""`GET /metrics`: what the server has counted."""

import time
import unittest

from lib.answers import WORDS
from lib.observing import samples
from lib.serving import Server
from lib.websocket_client import SECONDS

CAUSES = [
    "closed", "handshake failed", "stream fault", "out of memory", "torn from its room", "record not kept",
]
REASONS = ["full", "elsewhere", "file", "memory", "late"]


def ask_all(client, *requests):
    """Sends each request and waits for its reply."""
    for request in requests:
        client.ask(request)


class TestMetrics(unittest.TestCase):
    def samples_once(self, server, sessions):
        """Returns the samples once there are this many sessions."""
        for _ in range(10 * SECONDS):
            found = samples(server)
            if found["grace_sessions"] == sessions:
                return found
            time.sleep(0.1)
        self.fail(f"there are {found['grace_sessions']} sessions, not {sessions}")

    def test_metrics(self):
        """Sessions, replies, refusals by their code, and entries by their kind are counted. A probe is no session.
        Nothing is synced without a folder."""
        with Server(5, 2, rooms=("r", "s"), clients=7) as server:
            closed, open_client = server.client(), server.client()
            ask_all(closed, '["join","t"]', '["join","r"]', '["new",1,[],"rect",[["x",0]]]', '["leave"]', "hello")
            closed.close()
            ask_all(open_client, '["back","r",1]', '["put",2,[[1,1]],[1,1],[],[["x",5]]]')
            ask_all(open_client, '["put",9,[],[1,1],[],[["x",6]]]')
            server.client().expect_reply('["join","s"]', '["joined",0,1]')
            server.client().hang_up()
            found = self.samples_once(server, 2)
            expected = {
                "grace_sessions": 2, "grace_sessions_max": 7, "grace_sessions_total": 4, "grace_turned_away_total": 0,
                "grace_rooms_open": 2, "grace_rooms_max": 2, "grace_rooms_opened_total": 0,
                "grace_rooms_closed_total": 0, "grace_replies_total": 9,
                **{f'grace_rooms_not_served_total{{reason="{reason}"}}': 0 for reason in REASONS},
                **{f'grace_sessions_ended_total{{cause="{cause}"}}': 0 for cause in CAUSES},
                'grace_sessions_ended_total{cause="closed"}': 1, 'grace_sessions_ended_total{cause="stream fault"}': 1,
                'grace_entries_total{kind="join"}': 2, 'grace_entries_total{kind="creation"}': 1,
                'grace_entries_total{kind="change"}': 1,
            }
            syncs = {name: number for name, number in found.items() if name.startswith(("grace_sync", "grace_file"))}
            self.assertEqual(syncs, dict.fromkeys(syncs, 0), "the syncs")
            others = ("grace_refusals", *syncs)
            counts = {name: number for name, number in found.items() if not name.startswith(others)}
            version = [name for name in counts if name.startswith("grace_build_info")]
            self.assertEqual([counts.pop(name) for name in version], [1], "the samples that tell the version")
            self.assertEqual(counts, expected, "the samples")
            refusals = {name: number for name, number in found.items() if name.startswith("grace_refusals") and number}
            self.assertEqual(refusals, {
                'grace_refusals_total{code="1",word="bad-message"}': 1,
                'grace_refusals_total{code="4",word="no-such-room"}': 1,
                'grace_refusals_total{code="7",word="wrong-seq"}': 1,
            }, "the refusals")
            self.assertEqual(
                sum(name.startswith("grace_refusals") for name in found), len(WORDS), "the refusals that are told",
            )
            server.client()
            server.finish({4: "stream fault"})
