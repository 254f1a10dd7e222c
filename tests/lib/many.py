"""Several processes that serve rooms on demand over one folder, behind a proxy."""

import collections
import contextlib
import json
import pathlib
import signal
import tempfile
import threading
import time
from functools import partial

from keep.test_kills import Person
from lib.checks import check
from lib.crowd import Crowd
from lib.keeping import KeepingServer, expect_kept, room_folder
from lib.haproxy import running_haproxy
from lib.nginx import lines_of_document, replace_once, running_nginx
from lib.serving import ROOT, Client, free_address
from lib.websocket_client import Connection, Ended

ROOMS = [f"room-{number}" for number in range(6)]
PROCESSES, PEOPLE_A_ROOM = 3, 2
# In seconds: how long people draw between two events, the pause of a person after an operation, how long a process
# stands still, and how soon everybody has to be back after a kill.
BETWEEN, PAUSE, STILL, BACK = 1.5, 0.03, 3, 5
# A crowd: its rooms, its people in each room, the pause of a person and the time between two events, in seconds.
CROWD_ROOMS, CROWD_A_ROOM, CROWD_PAUSE, CROWD_BETWEEN = [f"room-{number}" for number in range(200)], 5, 8, 10
# The time limit of a test with a crowd, in seconds: the checker looks at the record of each room.
CROWD_SECONDS = 900
# A line of nginx's log: the path, with who asks behind it, and the processes that it asked with their answers.
LOG = "log_format asked '{\"path\":\"$request_uri\",\"asked\":\"$upstream_addr\",\"answers\":\"$upstream_status\"}';"


def behind_nginx(folder, port, servers):
    """Runs nginx at this port before these processes, by the document's lines without TLS. Its log is in the file
    `asked` of this folder."""
    lines = lines_of_document("With nginx, behind one address:")
    for number, server in enumerate(servers):
        lines = replace_once(lines, f"127.0.0.1:{7000 + number} ", f"{server.name} ")
    lines = replace_once(lines, "listen 443 ssl;", f"listen 127.0.0.1:{port}; access_log {folder}/asked asked;")
    is_ours = lines_of_document("in the `http` part:").splitlines()[0]
    return running_nginx(folder, "\n".join([LOG, is_ours, lines]))


def behind_haproxy(folder, port, servers):
    """Runs HAProxy at this port before these processes, by the lines of examples/operations without TLS."""
    lines = (ROOT / "examples/operations/haproxy.cfg").read_text()
    for number, server in enumerate(servers):
        lines = replace_once(lines, f"127.0.0.1:{7000 + number}\n", f"{server.name}\n")
    lines = replace_once(lines, "bind :443 ssl crt /etc/haproxy/draw.pem", f"bind 127.0.0.1:{port}")
    return running_haproxy(folder, port, lines)


class Walker(Person):
    """A person who draws in a room through nginx, and connects again when the connection ends."""

    def __init__(self, number, room, address, pause):
        super().__init__(number, room)
        self.number, self.address, self.pause = number, address, pause
        self.clients = []
        # The longest time between the end of a connection and the next entrance, in seconds.
        self.away = 0

    def connect(self):
        """Returns a client that connects through nginx by the room's path. What stands behind the path says whose
        connection it is."""
        client = Client(self.address, self.number)
        client.open = partial(Connection.open, client, f"/{self.room}?{self.number}-{len(self.clients)}")
        self.clients.append(client)
        return client

    def stay(self, over):
        """Draws until that is over, and leaves."""
        ended = None
        while not over.is_set():
            client = self.connect()
            try:
                self.enter(client)
                if ended is not None:
                    self.away = max(self.away, time.monotonic() - ended)
                self.draw_on(client, over)
                client.ask(["leave"])
                client.close()
            except (Ended, ConnectionError):
                ended = time.monotonic()
                client.hang_up()

    def draw_on(self, client, over):
        """Draws in the room until that is over."""
        while not over.is_set():
            self.drawer.submit(self.drawer.next_operation(8))
            time.sleep(self.drawer.source.uniform(0, self.pause))


class Many:
    """The processes, the people and nginx's log."""

    def __init__(self, folder, rooms, pause):
        self.folder, self.rooms, self.pause = folder, rooms, pause
        self.servers = [self.start() for _ in range(PROCESSES)]
        self.people, self.killed = [], []
        self.crowd, self.over = Crowd(), threading.Event()

    def start(self, port=0):
        """Starts a process at this port, or a free one."""
        server = KeepingServer(self.folder, (), 0, 2, on_demand=len(self.rooms), by_path=True, close_after=1)
        server.port = port
        return server.__enter__()

    def admit(self, address):
        """Has one more person draw in each room."""
        for room in self.rooms:
            self.people.append(Walker(len(self.people), room, address, self.pause))
            self.crowd.start(self.people[-1].stay, self.over)

    def busiest(self):
        """Returns the process that has most rooms."""
        return max(self.servers, key=lambda server: len(rooms_in(server)))

    def restart(self, server, pause):
        """Kills a process, and starts it again at its address after so many seconds."""
        server.kill(signal.SIGKILL)
        time.sleep(pause)
        self.servers[self.servers.index(server)] = self.start(server.address[1])
        self.killed.append(server)

    def end(self):
        """Has everybody leave, and ends the processes. The files have all that was told."""
        self.over.set()
        self.crowd.end()
        transcripts = [client.transcript for person in self.people for client in person.clients]
        for server in [*self.killed, *self.servers]:
            server.__exit__()
        expect_kept(self.folder, self.rooms, transcripts)
        away = max(person.away for person in self.people)
        if away > BACK:
            raise AssertionError(f"somebody was back after {away:.1f} seconds only")
        return sum(len(client.transcript.lines) for person in self.people for client in person.clients), away


def rooms_in(server):
    """Returns the rooms that a process has open."""
    return {name.removesuffix(".record") for name in server.open_files()}


def rows_of_log(file):
    """Returns what nginx asked for each connection, by room, person and attempt: the processes with their answers."""
    rows = {}
    for line in file.read_text().splitlines():
        row = json.loads(line)
        room, _, who = row["path"][1:].partition("?")
        person, attempt = map(int, who.split("-"))
        rows[room, person, attempt] = list(zip(row["asked"].split(", "), map(int, row["answers"].split(", "))))
    return rows


def kind_of(row, attempt, gone):
    """Returns how a connection reached its room, by what nginx asked for it."""
    if len(row) == 1 and attempt == 0:
        return "at once"
    if len(row) > 1 and row[0] == (gone, 502) and attempt > 0:
        return "behind the killed"
    if len(row) > 1 and row[0] == (gone, 503) and attempt == 0:
        return "behind the returned"
    raise AssertionError(f"attempt {attempt} to reach a room asked {row}")


def expect_rows(rows, gone, moved):
    """Expects of nginx's log that each connection reached its room, and that a room was in one process before the kill
    and in one after it. Returns how often each way was taken."""
    counts, holders = collections.Counter(), collections.defaultdict(set)
    for (room, _, attempt), row in rows.items():
        check.assertEqual(row[-1][1], 101, "the last answer")
        counts[kind_of(row, attempt, gone)] += 1
        holders[room].add(row[-1][0])
    numbers = {room: len(found) for room, found in holders.items()}
    check.assertEqual(numbers, {room: 2 if room in moved else 1 for room in ROOMS}, "the processes of each room")
    return dict(counts)


@contextlib.contextmanager
def many_behind(proxy, rooms=ROOMS, people=PEOPLE_A_ROOM, pause=PAUSE):
    """Runs the processes and a proxy, and lets so many people into each room. Yields them, the proxy's address and its
    folder."""
    with room_folder() as folder, tempfile.TemporaryDirectory() as name:
        many, address = Many(folder, rooms, pause), free_address()
        place = pathlib.Path(name)
        with proxy(place, address[1], many.servers):
            for _ in range(people):
                many.admit(address)
            time.sleep(BETWEEN)
            yield many, address, place


def check_kill(proxy):
    """A process is killed and started again, and one more person comes into each room."""
    with many_behind(proxy) as (many, address, place):
        killed = many.busiest()
        moved = rooms_in(killed)
        many.restart(killed, BETWEEN)
        many.admit(address)
        time.sleep(BETWEEN)
        replies, away = many.end()
        if proxy is behind_nginx:
            print("connections:", expect_rows(rows_of_log(place / "asked"), killed.name, moved))
    print(f"a kill: {len(ROOMS)} rooms with {replies} replies hold, of which {len(moved)} moved")
    print(f"all were back after {away:.2f} s")


def check_stop(proxy):
    """A process stands still. Nobody loses a connection, and no room moves."""
    with many_behind(proxy) as (many, address, place):
        stopped = many.busiest()
        rooms = rooms_in(stopped)
        stopped.process.send_signal(signal.SIGSTOP)
        many.admit(address)
        time.sleep(STILL)
        stopped.process.send_signal(signal.SIGCONT)
        time.sleep(BETWEEN)
        check.assertEqual(rooms_in(stopped), rooms, "the rooms of the process")
        replies, _ = many.end()
        connections = sum(len(person.clients) for person in many.people)
        check.assertEqual(connections, len(many.people), "the connections")
        if proxy is behind_nginx:
            rows = rows_of_log(place / "asked")
            check.assertEqual([row for row in rows.values() if len(row) > 1], [], "those that nginx asked for twice")
    print(f"a stop: {len(ROOMS)} rooms with {replies} replies hold")


def check_crowd(proxy):
    """A thousand people draw in 200 rooms while each process is killed once and started again."""
    with many_behind(proxy, CROWD_ROOMS, CROWD_A_ROOM, CROWD_PAUSE) as (many, _, _):
        for server in list(many.servers):
            time.sleep(CROWD_BETWEEN)
            many.restart(server, CROWD_BETWEEN / 2)
        time.sleep(CROWD_BETWEEN)
        replies, away = many.end()
        check.assertEqual(
            [person for person in many.people if person.drawer.site is None], [], "those who never came in",
        )
    print(f"a crowd: {len(many.people)} people in {len(many.rooms)} rooms with {replies} replies hold")
    print(f"all were back after {away:.2f} s")
