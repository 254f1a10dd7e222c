"""The program under test as a process, and its clients, which record requests and replies. At the end the tests compare
the program's output with these transcripts."""

import calendar
import fcntl
import functools
import json
import os
import pathlib
import queue
import re
import socket
import subprocess
import tempfile
import threading
import time

from lib.checks import check
from lib.websocket_client import CLOSE, SECONDS, TEXT, Connection, Ended, Fault, closing, frame
from lib.records import Transcript, compact, compare_record, compare_rooms, split_rooms, transcript_lines

ROOT = pathlib.Path(__file__).resolve().parent.parent.parent

# A line on standard error while a server runs: time in UTC, level and text.
LINE = re.compile(r"(\d{4}-\d\d-\d\dT\d\d:\d\d:\d\dZ) (INFO|WARN|ERROR) (.*)")
TIME = "%Y-%m-%dT%H:%M:%SZ"

# The warning about a session that ended without a close: its number, the client's address, the room if it was in one,
# and the cause.
WARNING = re.compile(
    r"session (\d+) (127\.0\.0\.1:\d+)(?: room ([a-z0-9.-]+))?: "
    r"(handshake failed|stream fault|out of memory|torn from its room|record not kept)"
)

# The warning of a server without --keep.
IN_MEMORY = "WARN", "rooms are in memory only; --keep DIR keeps them"


# The default time limit of a run of the program, in seconds.
RUN = 240

# How long a client that is to get nothing is given something by mistake, in seconds.
SILENCE = 0.3

# The first line of `grace serve`, with the port.
LISTENING = re.compile(r"listening 127\.0\.0\.1:([1-9]\d*)\n")

# ---- the program


@functools.cache
def program():
    """The program's path: the one that the variable GRACE names, or the one that `./grace` runs. Builds the latter if it
    is not current."""
    if os.environ.get("GRACE"):
        return pathlib.Path(os.environ["GRACE"]).resolve()
    built = subprocess.run([ROOT / "build"], stdin=subprocess.DEVNULL, stdout=subprocess.PIPE, check=True, text=True)
    return pathlib.Path(built.stdout.rstrip("\n"))


def has_program():
    """Returns whether there is a program. It does not build one."""
    built = (ROOT / "out" / name / "grace" for name in ("proved", "released", "unproved"))
    return bool(os.environ.get("GRACE")) or any(program.exists() for program in built)


def run(*words, stdin=b"", stdout=subprocess.PIPE, seconds=RUN):
    """Runs the program with these arguments to its end. Returns its status, output and errors."""
    # The program's messages begin with argv[0], whatever the file's name is.
    done = subprocess.run(
        ["grace", *map(str, words)], executable=program(),
        input=stdin, stdout=stdout, stderr=subprocess.PIPE, timeout=seconds,
    )
    return done.returncode, (done.stdout or b"").decode(), done.stderr.decode()


def verdict(record, transcript, seconds=RUN):
    """Runs the program's checker on these lines. Returns its status and output."""
    with tempfile.TemporaryDirectory() as name:
        files = [pathlib.Path(name) / "record", pathlib.Path(name) / "transcript"]
        for file, lines in zip(files, (record, transcript)):
            file.write_text("".join(f"{line}\n" for line in lines))
        status, output, errors = run("check", *files, seconds=seconds)
    check.assertEqual(errors, "", "the checker's standard error")
    return status, output


def free_address():
    """Returns an address on which nothing listens."""
    with socket.socket() as probe:
        probe.bind(("127.0.0.1", 0))
        return probe.getsockname()


# ---- clients


class Client(Connection):
    """A client that records each request with its reply. Tests that violate the protocol use `send`, which records
    nothing."""

    def __init__(self, address, session, **options):
        super().__init__(address, **options)
        self.name = "{}:{}".format(*self.socket.getsockname())
        self.session = session
        self.transcript = Transcript()
        self.is_over = False

    def send_request(self, request, opcode=TEXT):
        """Sends a request, which is a text, bytes or a value. Does not wait for the reply."""
        self.send(self.frame_of(request, opcode))

    def frame_of(self, request, opcode=TEXT):
        """Returns the frame of a request and records the request as sent."""
        if isinstance(request, list):
            request = compact(request)
        data = request.encode() if isinstance(request, str) else request
        self.transcript.add_request(data)
        return frame(opcode, data)

    def read_reply(self):
        """Reads the next reply."""
        opcode, payload = self.read_frame()
        if opcode != TEXT:
            raise Fault(f"a frame with opcode {opcode} in place of a reply: {payload!r:.200}")
        reply = payload.decode()
        self.transcript.add_reply(reply)
        return reply

    def ask(self, request, opcode=TEXT):
        """Sends a request and returns the reply."""
        self.send_request(request, opcode)
        return self.read_reply()

    def reply_to(self, request):
        """Sends a request and returns the reply as a value."""
        return json.loads(self.ask(request))

    def expect_reply(self, request, reply, opcode=TEXT):
        """Sends a request and expects this reply."""
        text = self.ask(request, opcode)
        check.assertEqual(text, reply, f"the reply to {request!r:.100}")

    def close(self, payload=closing(1000)):
        """Closes the session. Expects that the server echoes the close and ends the connection."""
        self.send(frame(CLOSE, payload))
        check.assertEqual(self.read_frame(), (CLOSE, payload), "the answer to a close")
        self.expect_end()

    def expect_end(self):
        """Expects that the server ends the connection. Before that it may send only a close."""
        self.is_over = True
        try:
            while True:
                opcode, payload = self.read_frame()
                if opcode != CLOSE:
                    raise AssertionError(f"unexpected data before the end of the connection: {payload!r:.200}")
        except Ended:
            self.socket.close()
        except TimeoutError:
            raise AssertionError(f"the connection is still open after {SECONDS} seconds") from None

    def expect_silence(self):
        """Expects that the server sends nothing for a while."""
        self.socket.settimeout(SILENCE)
        with check.assertRaises(TimeoutError):
            self.fill()
        self.socket.settimeout(SECONDS)

    def await_away(self):
        """Reads replies up to a close of 1001, which it answers. Expects that the server then ends the connection.
        Requests without a reply were not executed."""
        while True:
            opcode, payload = self.read_frame()
            if opcode != TEXT:
                break
            self.transcript.add_reply(payload.decode())
        check.assertEqual((opcode, payload), (CLOSE, closing(1001)), "the last frame")
        self.send(frame(CLOSE, payload))
        self.expect_end()

    def hang_up(self):
        """Disconnects without a close. The server may or may not execute the unanswered requests."""
        super().hang_up()
        self.is_over = True
        self.transcript.hung_up = True


class OtherClient:
    """A session of another program. The test records its requests and replies."""

    def __init__(self):
        self.transcript = Transcript()
        self.is_over = True

    def hang_up(self):
        """Does nothing: the other program disconnects by itself."""

    def joined(self, room, at, site):
        """Records a join with this reply."""
        self.transcript.add_request(compact(["join", room]))
        self.transcript.add_reply(compact(["joined", at, site]))

    def came_back(self, room, at, site, made):
        """Records that it came back as a site with `made` operations."""
        self.transcript.add_request(compact(["back", room, site]))
        self.transcript.add_reply(compact(["back", at, site, made]))


# ---- the server


def pump(stream, lines):
    """Puts the lines of a stream into a queue, and None at its end."""
    for line in stream:
        lines.put(line)
    lines.put(None)


class Server:
    """`grace serve` on a free port, for this many sessions. `patience` bounds, in seconds, the time to listen, the time
    to exit after the last session, and the checker's time for each room. `keep` is the folder of the rooms. `before`
    has the transcripts of clients of earlier runs over it. `on_demand` is the number of rooms that it opens on demand.
    With `until_input_ends` it gets that option and a pipe as its input. `wrapper` is what runs it."""

    def __init__(
        self, sessions=1, workers=4, rooms=("r",), idle=None, patience=SECONDS, keep=None, before=(), report=None,
        clients=None, by_path=False, on_demand=0, close_after=None, until_input_ends=False, wrapper=(),
    ):
        self.port = 0
        self.sessions = sessions
        self.patience = patience
        self.rooms = list(rooms)
        self.words = [str(sessions), str(workers), *rooms]
        if idle is not None:
            self.words += ["--idle", str(idle)]
        if keep is not None:
            self.words += ["--keep", str(keep)]
        if report is not None:
            self.words += ["--report", str(report)]
        if clients is not None:
            self.words += ["--clients", str(clients)]
        if by_path:
            self.words += ["--by-path"]
        if on_demand:
            self.words += ["--rooms", str(on_demand)]
        if close_after is not None:
            self.words += ["--close-after", str(close_after)]
        if until_input_ends:
            self.words += ["--until-input-ends"]
        self.input = subprocess.PIPE if until_input_ends else subprocess.DEVNULL
        self.wrapper = list(wrapper)
        self.on_demand = on_demand
        self.places = 10_000 if clients is None else clients
        self.keep = keep
        self.before = list(before)
        self.other_notices = []
        self.warned_sessions = {}
        self.variables = {}
        self.clients = []

    def __enter__(self):
        try:
            self.listen()
        except BaseException:
            self.__exit__()
            raise
        return self

    def listen(self):
        """Starts the program and waits for the line with its port."""
        self.start()
        first = self.next_line(self.patience)
        if first is None:
            raise AssertionError(f"the program does not listen: {self.error_text():.300}")
        found = LISTENING.fullmatch(first)
        if not found:
            raise AssertionError(f"the first line is {first!r:.100}")
        self.address = "127.0.0.1", int(found[1])
        self.name = "{}:{}".format(*self.address)

    def __exit__(self, *_):
        for client in self.clients:
            client.hang_up()
        self.process.kill()
        self.process.wait()
        self.reader.join(SECONDS)
        self.process.stdout.close()
        self.end_input()
        self.errors.close()

    def start(self):
        """Starts the program."""
        self.start_time = int(time.time())
        # The program and this process share the file offset. The program appends; `error_text` reads with its own
        # offset.
        self.errors = tempfile.TemporaryFile()
        fcntl.fcntl(self.errors, fcntl.F_SETFL, fcntl.fcntl(self.errors, fcntl.F_GETFL) | os.O_APPEND)
        self.process = subprocess.Popen(
            [*self.wrapper, program(), "serve", f"127.0.0.1:{self.port}", *self.words],
            env={**os.environ, **self.variables}, stdin=self.input, stdout=subprocess.PIPE, stderr=self.errors,
            text=True,
        )
        self.lines = queue.Queue()
        self.reader = threading.Thread(target=pump, args=(self.process.stdout, self.lines), daemon=True)
        self.reader.start()

    def end_input(self):
        """Ends the input of the program, if it is a pipe of this process."""
        if self.process.stdin:
            self.process.stdin.close()

    def error_text(self):
        """Returns the complete lines on standard error so far."""
        data = os.pread(self.errors.fileno(), os.fstat(self.errors.fileno()).st_size, 0)
        return data[: data.rfind(b"\n") + 1].decode()

    def next_line(self, seconds=SECONDS):
        """Returns the next line of the output, or None at its end. Waits at most this many seconds."""
        try:
            return self.lines.get(timeout=seconds)
        except queue.Empty:
            raise AssertionError("the program printed nothing") from None

    def connect(self, **options):
        """Connects a further client, without a handshake."""
        client = Client(self.address, len(self.clients) + 1, **options)
        self.clients.append(client)
        return client

    def other_client(self):
        """Adds a client that is another program."""
        self.clients.append(OtherClient())
        return self.clients[-1]

    def client(self, target="/", **options):
        """Connects a further client and performs the handshake, over this target."""
        client = self.connect(**options)
        client.open(target)
        return client

    def memory(self):
        """Returns the resident memory of the program and its peak, in KiB."""
        status = pathlib.Path(f"/proc/{self.process.pid}/status").read_text()
        return [int(re.search(rf"{name}:\s+(\d+) kB", status)[1]) for name in ("VmRSS", "VmHWM")]

    def finish(self, warnings=None):
        """Closes the open clients, waits for the program's exit and checks all its output. The records must match the
        transcripts, and `warnings` must be the causes of the sessions that ended without a close. Returns the record of
        each room."""
        for client in self.clients:
            if not client.is_over:
                client.close()
        check.assertEqual(len(self.clients), self.sessions, "the sessions opened")
        return self.check_output(warnings)

    def check_output(self, warnings=None):
        """Waits for the program's exit and checks all its output, as `finish`."""
        lines = self.output()
        check.assertEqual(self.process.returncode, 0, "the status")
        check.assertEqual(self.warnings(), warnings or {}, "the warnings")
        records = split_rooms(lines, self.rooms, self.on_demand)
        transcripts = self.transcripts()
        compare_rooms(records, transcripts)
        for room, record in records.items():
            compare_record(room, record, transcripts)
            result = verdict(record, transcript_lines(room, transcripts), max(RUN, self.patience))
            check.assertEqual(result, (0, "holds\n"), f"the verdict of room {room}")
        return records

    def transcripts(self):
        """Returns the transcripts of all clients, those of earlier runs first."""
        return self.before + [client.transcript for client in self.clients]

    def output(self):
        """Waits for the program's exit. Returns the lines of the output after the first."""
        try:
            self.process.wait(self.patience)
        except subprocess.TimeoutExpired:
            raise AssertionError("the program still runs after its last session") from None
        lines = list(iter(self.next_line, None))
        if lines and not lines[-1].endswith("\n"):
            raise AssertionError("the last line has no line feed")
        return [line.removesuffix("\n") for line in lines]

    def notices(self):
        """Returns the level and the text of each line on standard error. Checks that its time lies between the start
        and now. Without --keep the first line must be the warning about rooms in memory; it is left out."""
        notices = []
        for line in self.error_text().splitlines():
            found = LINE.fullmatch(line)
            if not found:
                raise AssertionError(f"unexpected line on standard error: {line!r:.200}")
            logged_at = calendar.timegm(time.strptime(found[1], TIME))
            if not self.start_time <= logged_at <= time.time():
                raise AssertionError(f"wrong time, at {time.time()}: {line!r:.200}")
            notices.append((found[2], found[3]))
        if self.keep is None and (not notices or notices.pop(0) != IN_MEMORY):
            raise AssertionError("the warning about rooms in memory is missing")
        return notices

    def warnings(self):
        """Returns the cause of each session that the program warned about. Sets `warned_sessions` to the address and
        room of each, and `other_notices` to the other lines."""
        causes, self.warned_sessions, self.other_notices = {}, {}, []
        for level, text in self.notices():
            found = WARNING.fullmatch(text)
            if level != "WARN" or not found:
                self.other_notices.append((level, text))
                continue
            session = int(found[1])
            if session in causes:
                raise AssertionError(f"two warnings about session {session}")
            causes[session] = found[4]
            self.warned_sessions[session] = found[2], found[3]
        return causes
