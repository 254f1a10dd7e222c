"""The state of a room's connection: waiting changes, a silent server, the progress of loading, and waits for news."""

import contextlib
import inspect
import operator
import signal
import socket
import threading
import time
import unittest

from grace import Room
from relay import AT_ONCE, HELD, Relay
from rooms import PATIENCE, EventLog, agree, wait_until, open_rooms, stop
from lib.serving import Server

# The most seconds that an event may be late on a busy machine. None may be early.
LATE = 0.7


@contextlib.contextmanager
def silent_server():
    """A server that accepts connections and sends nothing. Yields its address and the times of its connections."""
    times, kept = [], []
    with socket.create_server(("127.0.0.1", 0)) as listener:
        def accept():
            with contextlib.suppress(OSError):
                while True:
                    kept.append(listener.accept())
                    times.append(time.monotonic())

        threading.Thread(target=accept, daemon=True).start()
        yield "127.0.0.1:{}".format(listener.getsockname()[1]), times
        listener.shutdown(socket.SHUT_RDWR)
    for client, _ in kept:
        client.close()


def steps(events):
    """Returns the reported steps of loading."""
    return [(news.have, news.of, news.is_loaded) for news in events.of("progress")]


@contextlib.contextmanager
def behind_relay(waits):
    """Yields a relay that does this with waits, and a function that counts the waits of so many seconds."""
    with Server(10, 4) as server, Relay(server.address[1]) as relay:
        relay.waits = waits

        def during(seconds):
            before = len(relay.texts)
            time.sleep(seconds)
            return sum(text.startswith('["wait"') for text in relay.texts[before:])

        yield relay, during


class TestStanding(unittest.TestCase):
    def expect_delay(self, what, seconds, due):
        """Checks that an event came after this many seconds, and not much later."""
        self.assertTrue(due <= seconds < due + LATE, f"{what} after {seconds} seconds, not {due}")

    def test_changes_that_wait(self):
        """When a server stops, changes wait. The room reports that after a second, then each second, and at its end."""
        events = EventLog()
        with Server(10, 4) as server, open_rooms(server.name) as (room,):
            made = room.create("rect")
            agree(room)
            times = []
            room.on("state", lambda news: (times.append(time.monotonic()), events.news.append(("state", news))))
            stop(server)
            try:
                start = time.monotonic()
                room.set(made.name, (), "x", 1)
                self.assertEqual(room.state, "open", "the state at once")
                wait_until("news after four seconds", lambda: events.news and events.of("state")[-1].seconds >= 4)
                pending = [change.object for change in room.pending]
                self.assertEqual((room.state, pending), ("saving", [made.name]), "the pending changes")
            finally:
                server.process.send_signal(signal.SIGCONT)
            waits = [0, *(news.seconds for news in events.of("state"))]
            self.expect_delay("the first news came", waits[1], 1)
            longest = max(map(operator.sub, waits[1:], waits))
            self.assertLess(longest, 1 + LATE, "whether the others are about a second apart")
            for news, time_of_news in zip(events.of("state"), times):
                self.assertEqual(news.state, "saving", "the state")
                self.expect_delay("the news came", time_of_news - start, news.seconds)
                # The room counts the server's silence from its request, which may be a little earlier or later.
                if abs(news.seconds - 3) > LATE:
                    self.assertEqual("places" in news.words, news.seconds > 3, "whether places are spoken of")
            self.assertTrue(room.settled(PATIENCE), "whether all is answered")
            wait_until("the news", lambda: events.of("state")[-1].state == "open")
            last = events.of("state")[-1]
            self.assertEqual(
                (last.state, last.words, last.seconds), ("open", "Connected as site 1.", 0), "the last news",
            )

    def test_silent_server(self):
        """A client of a server that accepts and is silent reports that after three seconds."""
        events, start = EventLog("state"), time.monotonic()
        with silent_server() as (address, _), Room(address, "r", listeners=events.listeners):
            wait_until("two news", lambda: len(events.news) == 2)
            self.expect_delay("the news came", time.monotonic() - start, 3)
        self.assertEqual(
            [(it.state, "places" in it.words) for it in events.of("state")][:2],
            [("connecting", False), ("connecting", True)],
            "the news",
        )

    def test_attempts_at_a_silent_server(self):
        """An accepted connection without an answer is a failed attempt: the waits between attempts grow."""
        waits = 0.02, 0.1, 0.2, 0.4
        with silent_server() as (address, times), Room(address, "r", reply_seconds=0.05, retry_seconds=waits):
            wait_until("five attempts", lambda: len(times) > len(waits))
        for place, wait in enumerate(waits):
            passed = times[place + 1] - times[place]
            # The server's thread may have been a little late for the attempt before.
            self.assertGreaterEqual(passed, 0.05 + wait - 0.03, f"attempt {place + 1} came after {passed} seconds")

    def test_progress_of_loading(self):
        """The room reports the progress of loading page by page, and its end once. It does so for an empty room too."""
        with Server(10, 4) as server:
            events = EventLog("progress")
            with open_rooms(server.name, listeners=events.listeners) as (first,):
                wait_until("the news", lambda: len(events.news) == 2)
                self.assertEqual(steps(events), [(0, 1, False), (1, 1, True)], "of an empty room")
                for _ in range(150):
                    first.create("rect")
                agree(first)
                events = EventLog("progress")
                with open_rooms(server.name, listeners=events.listeners) as (second,):
                    wait_until("the news", lambda: len(events.news) == 4)
                    # 151 entries and its own join, 64 on a page.
                    self.assertEqual(
                        steps(events),
                        [(0, 152, False), (64, 152, False), (128, 152, False), (152, 152, True)],
                        "of a room of 151 entries",
                    )
                    self.assertEqual((second.is_loaded, len(second.objects())), (True, 150), "what there is")

    def test_waits_answered_at_once(self):
        """A server answers waits at once. The client waits often while there is news, then less often, and often
        again."""
        with behind_relay(AT_ONCE) as (relay, during):
            with open_rooms(relay.name, pause_seconds=60) as (other,), open_rooms(
                relay.name, longest_pause_seconds=0.4,
            ) as (room,):
                room.create("rect").done.result(PATIENCE)
                busy = during(0.5)
                time.sleep(2.5)
                idle = during(1.3)
                other.create("rect")
                wait_until("the news", lambda: len(room.objects()) == 2)
                again = during(0.5)
        # The first pauses are 20, 25, 31, .. milliseconds: at most ten fit. A busy machine lets fewer through.
        self.assertTrue(
            4 <= busy <= 10 and 2 <= idle <= 4 and 4 <= again <= 10,
            f"{busy} waits while there is news, then {idle}, then {again}",
        )

    def test_waits_held(self):
        """A server holds waits. The client sends nothing meanwhile. A change over a held wait is answered at once."""
        events = EventLog("state")
        with behind_relay(HELD) as (relay, during):
            with open_rooms(relay.name) as (other,), open_rooms(relay.name, reply_seconds=1) as (room,):
                made = room.create("rect")
                made.done.result(PATIENCE)
                wait_until("the news", lambda: len(other.record) == 3)
                wait_until("the next waits", lambda: relay.texts[-2:] == ['["wait",3]'] * 2)
                room.on("state", events.listeners["state"])
                self.assertEqual(during(2), 0, "the waits of both while nothing happens")
                before, start = len(relay.texts), time.monotonic()
                room.set(made.name, (), "x", 1).done.result(PATIENCE)
                wait_until("the news", lambda: len(other.record) == 4)
                self.expect_delay("the news came", time.monotonic() - start, 0)
                wait_until("the next waits", lambda: len(relay.texts) >= before + 3)
                self.assertEqual(sorted(relay.texts[before:]), [
                    '["put",2,[[2,1]],[2,1],[],[["x",1]]]', '["wait",4]', '["wait",4]',
                ], "what was sent")
                self.assertTrue(room.refresh(PATIENCE), "whether a refresh is answered")
                wait_until("the next wait", lambda: relay.texts[-2:] == ['["pull",4]', '["wait",4]'])
                self.assertEqual(events.news, [], "the changes of the connection's state")

    def test_site_long_in_use(self):
        """While a site is in use, a client tries to come back as it, by default for 90 seconds."""
        seconds = inspect.signature(Room).parameters["back_seconds"].default
        self.assertEqual(seconds, 90, "how long it tries")
        with Server(10, 4) as server, open_rooms(server.name) as (first,):
            threading.Timer(6, first.close).start()
            with open_rooms(server.name, site=1) as (again,):
                self.assertEqual((again.site, len(again.record)), (1, 1), "the site")
