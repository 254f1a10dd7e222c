"""`GET /metrics` of a server that keeps its rooms: the times of syncs, failed ones, and bytes."""

import errno
import time
import unittest

from lib.keeping import FileLibrary, KeepingServer, expect_not_kept, path_of, room_folder
from lib.observing import samples
from lib.records import compact

JOIN = '["join","r"]'
BOUNDS = [number * 10**power / 10000 for power in range(5) for number in (1, 2, 5)][2:] + [10]
PUTS = 20
SLOW_SECONDS = 0.3


def buckets_of(found):
    """Returns how many syncs took at most each bound."""
    return [found[f'grace_sync_seconds_bucket{{le="{bound:.6f}"}}'] for bound in BOUNDS]


def draw(client, room):
    """A client joins, creates an object and changes it. Each reply comes before the next request."""
    client.expect_reply(["join", room], '["joined",0,1]')
    client.ask('["new",1,[],"rect",[]]')
    for seq in range(2, PUTS):
        client.ask(compact(["put", seq, [[1, seq - 1]], [1, 1], [], [["x", seq]]]))


def failed_of(found):
    """Returns how many syncs failed on a full disk, and otherwise."""
    return [found[f'grace_syncs_failed_total{{kind="{kind}"}}'] for kind in ("full", "failed")]


class TestSyncMetrics(unittest.TestCase):
    def test_syncs(self):
        """Each entry for which a client waits is one sync, which counts in each bucket from its time on. Their sum is
        no more than the time that has passed, and the bytes are those of the file. A back and a refusal sync
        nothing."""
        with room_folder() as folder, KeepingServer(folder, sessions=3) as server:
            start = time.monotonic()
            draw(server.client(), "r")
            passed = time.monotonic() - start
            server.client().ask('["back","r",9]')
            found = samples(server)
            buckets = buckets_of(found)
            self.assertEqual(buckets, sorted(buckets), "the buckets")
            counts = [found[f"grace_sync_seconds_{name}"] for name in ('bucket{le="+Inf"}', "count")]
            self.assertEqual(counts, [PUTS, PUTS], "the numbers of syncs")
            self.assertGreater(found["grace_sync_seconds_sum"], 0)
            self.assertLess(found["grace_sync_seconds_sum"], passed)
            self.assertEqual(found["grace_file_bytes_total"], path_of(folder, "r").stat().st_size, "the bytes")
            self.assertEqual(failed_of(found), [0, 0], "the failed syncs")
            server.client()
            server.finish()

    def test_slow_syncs(self):
        """A sync counts by how long it took: in the buckets from its time on, and in none of less."""
        library = FileLibrary()
        variables = library.variables(SLOW="/r.record", SLOW_MILLIS=int(1000 * SLOW_SECONDS))
        with room_folder() as folder, KeepingServer(folder, sessions=2, variables=variables) as server:
            start = time.monotonic()
            server.client().expect_reply(JOIN, '["joined",0,1]')
            passed = time.monotonic() - start
            found = samples(server)
            # The disk of a busy machine adds to it.
            took = found["grace_sync_seconds_sum"]
            self.assertGreaterEqual(took, SLOW_SECONDS)
            self.assertLess(took, passed)
            self.assertEqual(buckets_of(found), [int(took <= bound) for bound in BOUNDS], "the buckets")
            server.client()
            server.finish()

    def test_failed_syncs(self):
        """An attempt that failed is counted by its kind, and not among the times. Neither are its bytes counted."""
        for name, failure, kind in [("with a full disk", errno.ENOSPC, 0), ("with another fault", errno.EIO, 1)]:
            with self.subTest(name):
                library = FileLibrary()
                variables = library.variables(FAILED=3, FAILURE=failure, LASTS=1)
                with room_folder() as folder, KeepingServer(folder, sessions=2, variables=variables) as server:
                    expect_not_kept(server.client(), JOIN)
                    found = samples(server)
                    failed = failed_of(found)
                    self.assertGreater(failed.pop(kind), 0, "whether it is counted")
                    self.assertEqual(failed, [0], "the other kind")
                    names = ("grace_sync_seconds_count", "grace_sync_seconds_sum", "grace_file_bytes_total")
                    self.assertEqual([found[name] for name in names], [0, 0, 0], "what is kept")
                    server.client().close()
                    server.expect_exit(3, "grace: room not kept")
