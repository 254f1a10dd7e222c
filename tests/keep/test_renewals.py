"""Kept rooms that are nearly full: a start renews them, and goes on with the newest room of a chain."""

import contextlib
import errno
import functools
import os
import pathlib
import subprocess
import unittest

from lib import serving
from lib.checks import check
from lib.keeping import KeepingServer, OnDemandServer, expect_no_start, mounted, path_of, room_folder
from lib.limit_records import Record, full, full_of_pairs
from lib.on_demand import NOT_SERVED, ask_until_served, refusals_of, rooms_of
from lib.records import compact
from lib.serving import run
from lib.websocket_client import SECONDS

from keep.test_faults import FailingLibrary
from keep.test_files import bad_record, entries_notice, tail_notice
# The least counts that are nine tenths of 256 joins, 16,384 entries and 8,192 objects.
JOINS, ENTRIES, OBJECTS = 231, 14_746, 7_373
# A room that is nearly full by its joins: the number of its objects, each with a put, and of its entries.
DRAWN = 20
NEARLY_FULL = JOINS + 2 * DRAWN
# It renews to a join, and a creation of each object.
RENEWED = 1 + DRAWN
OLD, NEW, BESIDE = "plan.record", "plan.2.record", "plan.2.record.new"
# A server has the folder alone, or may share it: the number of --rooms.
FOLDERS = [("alone", 0), ("shared", 3)]


# ---- records and files


def text_of(entries):
    """Returns the bytes of a file with these entries."""
    return "".join(f"{compact(entry)}\n" for entry in entries).encode()


def end_of(count):
    """Returns the line that ends a record, with the number of entries of the next one."""
    return text_of([["next", count]])


@functools.cache
def nearly_full():
    """Returns the file of a room that is nearly full."""
    record = Record(JOINS)
    for number in range(DRAWN):
        record.create([("x", number), ("y", 0)])
    for place in range(1, DRAWN + 1):
        record.put(1, [("x", 100 + place), ("t", "text")], place)
    return text_of(record.entries)


@functools.cache
def full_entries():
    """Returns a full record of 512 objects."""
    return full(512).entries


@functools.cache
def ended():
    """Returns the file of this room once it has ended."""
    return nearly_full() + end_of(RENEWED)


@functools.cache
def renewed():
    """Returns the file of the room that goes on, by `grace renew`."""
    with folder_of({OLD: nearly_full()}) as folder:
        status, output, _ = run("renew", path_of(folder, "plan"))
        path_of(folder, "plan.2").write_text(output)
        comparison = run("renewed", path_of(folder, "plan"), path_of(folder, "plan.2"))
    check.assertEqual((status, output.count("\n"), comparison), (0, RENEWED, (0, "holds\n", "")), "the renewal")
    return output.encode()


@contextlib.contextmanager
def folder_of(files):
    """Creates a folder with these files, given as bytes by name."""
    with room_folder() as folder:
        for name, data in files.items():
            (pathlib.Path(folder) / name).write_bytes(data)
        yield folder


def expect_files(folder, files):
    """Expects that the folder has these files and no other."""
    actual = {file.name: file.read_bytes() for file in pathlib.Path(folder).iterdir()}
    check.assertEqual(sorted(actual), sorted(files), "the files")
    for name, data in files.items():
        check.assertEqual(actual[name], data, f"the file {name}")


# ---- servers


def server_of(folder, on_demand=0, rooms=("plan",), **options):
    """Returns a server of these rooms over this folder, with rooms on demand if there are to be some."""
    if on_demand:
        return OnDemandServer(folder, on_demand, rooms, **options)
    return KeepingServer(folder, rooms, sessions=0, **options)


def notices_of_start(folder, on_demand=0, rooms=("plan",)):
    """Starts a server and kills it. Returns what it logged."""
    with server_of(folder, on_demand, rooms) as server:
        server.kill()
        check.assertEqual(server.warnings(), {}, "the warnings")
        return server.other_notices


def expect_drawn(client):
    """Expects that the new room shows an object as the old one did."""
    versions = [[[], [["t", "text"], ["x", 102], ["y", 0]]]]
    client.expect_reply('["show",[1,2]]', compact(["versions", RENEWED + 1, [1, 2], "rect", versions]))


def expect_end(client):
    """Expects that who comes back to the old room can read its end."""
    client.expect_reply('["back","plan",1]', f'["back",{NEARLY_FULL + 1},1,{2 * DRAWN}]')
    entries = f'["entries",{NEARLY_FULL + 1},{NEARLY_FULL},[["next",{RENEWED}]]]'
    client.expect_reply(f'["pull",{NEARLY_FULL}]', entries)


def renewal_notice(old="plan", new="plan.2"):
    """Returns the notice about the renewal of the room that is nearly full."""
    return "INFO", f"room {old} renewed as {new}: {NEARLY_FULL} entries to {RENEWED}"


def declined_notice(why, room="plan"):
    """Returns the notice that a room is not renewed."""
    return "WARN", f"room {room} cannot be renewed: {why}"


# ---- a start


class TestStart(unittest.TestCase):
    time_limit = 600

    def test_renewal(self):
        """A start renews a room that is nearly full. The new room goes on, and the old one can be read. The next start
        changes nothing."""
        for name, on_demand in FOLDERS:
            with self.subTest(name):
                self.check_renewal(on_demand)

    def check_renewal(self, on_demand):
        """Starts a server twice over a room that is nearly full."""
        with folder_of({OLD: nearly_full()}) as folder:
            with server_of(folder, on_demand) as server:
                client = server.client()
                client.expect_reply('["join","plan"]', '["renewed",0,"plan.2"]')
                client.expect_reply('["join","plan.2"]', f'["joined",{RENEWED},2]')
                expect_drawn(client)
                client.expect_reply('["leave"]', f'["left",{RENEWED + 1}]')
                expect_end(client)
                server.kill()
                server.warnings()
                self.assertEqual(
                    server.other_notices,
                    [entries_notice(folder, "plan", NEARLY_FULL + 1), renewal_notice()],
                    "the notices",
                )
            files = {OLD: ended(), NEW: renewed() + b'["join",2]\n'}
            expect_files(folder, files)
            for room in ("plan", "plan.2"):
                self.assertEqual(run("check", path_of(folder, room), os.devnull), (0, "holds\n", ""), "the verdict")
            self.assertEqual(notices_of_start(folder, on_demand), [
                entries_notice(folder, "plan", NEARLY_FULL + 1), entries_notice(folder, "plan.2", RENEWED + 1),
            ], "the next start")
            expect_files(folder, files)

    def test_order_of_rooms(self):
        """The newest rooms come first, in the order of the command line, and then the rooms before them. Their entries
        are printed at the end."""
        files = {"b.record": nearly_full(), "a.record": b'["join",1]\n["next",1]\n', "a.2.record": b'["join",1]\n'}
        with folder_of(files) as folder:
            with KeepingServer(folder, ["b", "c", "a"], sessions=1) as server:
                server.client().close()
                heads = [line for line in server.output() if line.startswith("room ")]
            self.assertEqual(heads, [
                f"room b.2 {RENEWED}", "room c 0", "room a.2 1", f"room b {NEARLY_FULL + 1}", "room a 2",
            ], "the rooms")

    def test_long_chain(self):
        """The newest room of a chain is renewed too. Rooms before the last two are not opened, and what their files
        have does not matter."""
        for name, on_demand in FOLDERS:
            with self.subTest(name):
                files = {OLD: b"", NEW: b"no entry\n", "plan.3.record": end_of(0), "plan.4.record": nearly_full()}
                with folder_of(files) as folder:
                    notices = notices_of_start(folder, on_demand)
                    self.assertEqual(notices, [
                        entries_notice(folder, "plan.4", NEARLY_FULL + 1), renewal_notice("plan.4", "plan.5"),
                    ], "the notices")
                    expect_files(folder, {**files, "plan.4.record": ended(), "plan.5.record": renewed()})

    def test_restored_copy(self):
        """A room that has not ended is the newest, even if there is a file of the next one. That one stays as it is,
        and the room is not renewed."""
        for old, notices in [
            (nearly_full()[:-1], [declined_notice("the file of the next room is there")]),
            (b'["join",1]\n', []),
        ]:
            with folder_of({OLD: old, NEW: renewed()}) as folder:
                with KeepingServer(folder, ["plan"], sessions=1) as server:
                    client = server.client()
                    client.expect_reply('["join","plan.2"]', NOT_SERVED)
                    client.close()
                    server.output()
                    server.warnings()
                    logged = [line for line in server.other_notices if "cannot be renewed" in line[1]]
                self.assertEqual(logged, notices, "the notices")
                self.assertEqual(path_of(folder, "plan.2").read_bytes(), renewed(), "the file")


# ---- starts that were killed


def states():
    """Returns states in which a start that is killed may leave the files: a name, the files, and how many bytes of the
    old room's file are cut off then."""
    end = ended()[len(nearly_full()) :]
    parts = [1, 9, 200, len(renewed()) // 2, len(renewed()) - 1]
    return [
        ("nothing", {OLD: nearly_full()}, 0),
        ("a part of the end", {OLD: nearly_full() + end[:5]}, 5),
        ("the end but its line feed", {OLD: nearly_full() + end[:-1]}, len(end) - 1),
        ("an empty file of the new room", {OLD: nearly_full(), NEW: b""}, 0),
        ("the end", {OLD: ended()}, 0),
        ("the end and an empty file of the new room", {OLD: ended(), NEW: b""}, 0),
        ("the end and a part of the new file", {OLD: ended(), BESIDE: renewed()[:300]}, 0),
        *[(f"the end and {part} bytes of the new room", {OLD: ended(), NEW: renewed()[:part]}, 0) for part in parts],
    ]


def fill(path):
    """Fills the disk with a file, but for the space in the last block of another."""
    with path.open("wb", buffering=0) as file, contextlib.suppress(OSError):
        while True:
            file.write(b"x" * 4096)


class TestKilledStarts(unittest.TestCase):
    time_limit = 600

    def test_states(self):
        """Whatever a start that was killed has written, the next one ends the old room and makes the new one whole."""
        for name, on_demand in FOLDERS:
            with self.subTest(name):
                for name, files, cut in states():
                    with folder_of(files) as folder:
                        cuts = [tail_notice(folder, "plan", cut)] if cut else []
                        notices = [entries_notice(folder, "plan", NEARLY_FULL + 1), *cuts, renewal_notice()]
                        self.assertEqual(notices_of_start(folder, on_demand), notices, f"the notices after {name}")
                        expect_files(folder, {OLD: ended(), NEW: renewed()})

    def test_failing_calls(self):
        """Each call on a file fails once, also after half of its bytes. The server does not start then. The next start
        ends the old room and makes the new one whole."""
        for words in ((), ("SHORT",)):
            failer = FailingLibrary(errno.EIO, *words)
            number = 1
            while self.start_fails(failer, number):
                number += 1
            # The old file is synced, written and synced. The new one is cut, written and synced. The folder is synced.
            self.assertEqual(number - 1, 7, "the calls")

    def start_fails(self, failer, number):
        """Starts a server with this call failing, and then one without. Returns whether the first one reached the
        call."""
        with folder_of({OLD: nearly_full()}) as folder:
            # Its input has ended, so it ends once it has started.
            options = ["--until-input-ends", "--keep", folder]
            done = subprocess.run(
                [serving.program(), "serve", *options, "127.0.0.1:0", "0", "1", "plan"],
                env={**os.environ, **failer.at(number)}, stdin=subprocess.DEVNULL, capture_output=True, text=True,
                timeout=SECONDS,
            )
            if done.returncode:
                last = done.stderr.splitlines()[-1:]
                self.assertEqual((done.returncode, last), (3, [f"grace: cannot keep: {folder}"]), "the end")
            notices_of_start(folder)
            expect_files(folder, {OLD: ended(), NEW: renewed()})
        return done.returncode != 0

    def test_full_disk(self):
        """If the disk has no space for the new room, the server does not start. Once there is space, it does."""
        with mounted("size=64k") as folder:
            path_of(folder, "plan").write_bytes(nearly_full())
            ballast = pathlib.Path(folder) / "ballast"
            fill(ballast)
            expect_no_start(f"grace: cannot keep: {folder}", folder, "plan")
            ballast.unlink()
            self.assertEqual(notices_of_start(folder)[-1], renewal_notice(), "the last notice")
            expect_files(folder, {OLD: ended(), NEW: renewed()})


# ---- what prevents a start


class TestNoStart(unittest.TestCase):
    time_limit = 600

    def test_another_count(self):
        """If the end of a record names another number of entries than a renewal has, the new room is not made: the line
        of the end is bad."""
        for count in (RENEWED - 1, RENEWED + 1):
            files = {OLD: nearly_full() + end_of(count), NEW: renewed()[:200]}
            with folder_of(files) as folder:
                expect_no_start(bad_record(folder, "plan", NEARLY_FULL + 1), folder, "plan")
                expect_files(folder, files)

    def test_other_lines(self):
        """If the file of a new room has fewer lines than the end names, and others than a renewal has, they are not
        lost: the first of them is bad."""
        lines = renewed().splitlines(keepends=True)
        for other, line in [
            (b"\0" * len(renewed()), 1),
            (lines[0] + lines[2], 2),
            (b"".join(lines[:4]) + b"x", 5),
            (b"".join(lines[:-1]) + b"x" * 100, len(lines)),
        ]:
            files = {OLD: ended(), NEW: other}
            with folder_of(files) as folder:
                expect_no_start(bad_record(folder, "plan.2", line), folder, "plan")
                expect_files(folder, files)

    def test_new_room_of_another_record(self):
        """A new room with as many lines as the end names is opened, whatever these draw: a copy may have been
        restored."""
        files = {OLD: nearly_full() + end_of(1), NEW: b'["join",1]\n["join",2]\n'}
        with folder_of(files) as folder:
            self.assertEqual(notices_of_start(folder), [
                entries_notice(folder, "plan", NEARLY_FULL + 1), entries_notice(folder, "plan.2", 2),
            ], "the notices")
            expect_files(folder, files)

    def test_bad_new_room(self):
        """A new room with as many lines as the end names, of which one is bad, prevents the start. So does one that
        can't be read."""
        for name, on_demand in FOLDERS:
            with self.subTest(name):
                words = ["--rooms", on_demand] if on_demand else []
                lines = renewed().split(b"\n")
                files = {OLD: ended(), NEW: b"\n".join([*lines[:5], b"x", *lines[6:]])}
                with folder_of(files) as folder:
                    expect_no_start(bad_record(folder, "plan.2", 6), folder, *words, "plan")
                    expect_files(folder, files)
                with folder_of({OLD: ended()}) as folder:
                    path_of(folder, "plan.2").mkdir()
                    expect_no_start(f"grace: cannot keep: {folder}", folder, *words, "plan")
                    self.assertEqual(path_of(folder, "plan").read_bytes(), ended(), "the file")


# ---- rooms that are not renewed


LONG_NAME = "n" * 63


def many_objects(count):
    """Returns a record of so many objects."""
    return full(count).entries[: count + 1]


DECLINED = [
    ("a full record", "plan", full_entries, "no entry is left for the end of its record"),
    ("three quarters of the objects", "plan", lambda: many_objects(OBJECTS),
     "the new record has more than three quarters of a limit"),
    ("a longer record", "plan", lambda: full_of_pairs().entries, "the new record is longer than the old one"),
    ("a long name", LONG_NAME, lambda: full_entries()[:ENTRIES], "the name of the next room would be too long"),
]


class TestDeclined(unittest.TestCase):
    time_limit = 600

    def test_declined(self):
        """A room that cannot be renewed goes on. The log says why, at each start."""
        for name, room, entries_of, why in DECLINED:
            with self.subTest(name):
                self.expect_declined(room, entries_of(), why)

    def expect_declined(self, room, entries, why):
        """Expects that each start over a room with these entries says why it is not renewed."""
        files = {f"{room}.record": text_of(entries)}
        with folder_of(files) as folder:
            first = [declined_notice(why, room), entries_notice(folder, room, len(entries))]
            for _ in range(2):
                self.assertEqual(notices_of_start(folder, rooms=[room])[:2], first, "the first notices")
                expect_files(folder, files)


# ---- when a room is nearly full


class TestNearlyFull(unittest.TestCase):
    time_limit = 600

    def test_not_due(self):
        """A room that has used less than nine tenths of each limit goes on as it is."""
        for name, entries_of in [
            ("joins", lambda: [["join", site] for site in range(1, JOINS)]),
            ("entries", lambda: full_entries()[: ENTRIES - 1]),
            ("objects", lambda: many_objects(OBJECTS - 1)),
        ]:
            with self.subTest(name):
                self.expect_not_due(entries_of())

    def expect_not_due(self, entries):
        """Expects that a start over a room with these entries does not renew it."""
        files = {OLD: text_of(entries)}
        with folder_of(files) as folder:
            self.assertEqual(notices_of_start(folder), [entries_notice(folder, "plan", len(entries))], "the notices")
            expect_files(folder, files)

    def test_entries(self):
        """A room that has used nine tenths of its entries is renewed."""
        with folder_of({OLD: text_of(full_entries()[:ENTRIES])}) as folder:
            self.assertEqual(
                notices_of_start(folder)[-1],
                ("INFO", f"room plan renewed as plan.2: {ENTRIES} entries to 513"),
                "the last notice",
            )
            comparison = run("renewed", path_of(folder, "plan"), path_of(folder, "plan.2"))
            self.assertEqual(comparison, (0, "holds\n", ""), "the comparison")

    def test_no_objects(self):
        """A room without objects is renewed to one without entries."""
        entries = [["join", site] for site in range(1, JOINS + 1)]
        with folder_of({OLD: text_of(entries)}) as folder:
            for on_demand, last in [
                (0, ("INFO", f"room plan renewed as plan.2: {JOINS} entries to 0")),
                (0, entries_notice(folder, "plan", JOINS + 1)),
                (3, entries_notice(folder, "plan", JOINS + 1)),
            ]:
                self.assertEqual(notices_of_start(folder, on_demand)[-1], last, "the last notice")
                expect_files(folder, {OLD: text_of(entries) + end_of(0), NEW: b""})


# ---- rooms on demand


SENT_ON = '["renewed",0,"plan.2"]'
JOINED = f'["joined",{RENEWED},2]'


class TestOnDemand(unittest.TestCase):
    time_limit = 600

    def test_rooms_that_are_not_reached(self):
        """A room with a number is not opened on demand unless the room before it has ended. No file is made or
        removed."""
        for name, contents in [
            ("no first room", {NEW: renewed, "plan.3.record": renewed}),
            ("a first room that goes on", {OLD: lambda: b'["join",1]\n', NEW: renewed}),
        ]:
            with self.subTest(name):
                self.check_rooms_that_are_not_reached(name, contents)

    def check_rooms_that_are_not_reached(self, name, contents):
        """Asks for the later rooms of a chain with these files."""
        files = {name: data() for name, data in contents.items()}
        with folder_of(files) as folder, OnDemandServer(folder, 3) as server:
            client = server.client()
            for room in ("plan.2", "plan.3"):
                client.expect_reply(["join", room], NOT_SERVED)
                client.expect_reply(["back", room, 1], NOT_SERVED)
            self.assertEqual(refusals_of(server), {"file": 4}, "the refusals")
            server.finish()
            expect_files(folder, files)

    def test_renewal_on_demand(self):
        """The opening of a room that is nearly full ends it. Who joins is sent on, and the new room is made when it is
        opened. Who comes back can read the old one. The next opening changes nothing."""
        with folder_of({OLD: nearly_full()}) as folder:
            with OnDemandServer(folder, 3) as server:
                client = server.client()
                client.expect_reply(["join", "plan"], SENT_ON)
                client.expect_reply(["join", "plan.2"], JOINED)
                expect_drawn(client)
                expect_end(server.client())
                self.assertEqual(rooms_of(server)["open"], 2, "the open rooms")
                server.kill()
                server.warnings()
                self.assertEqual(
                    server.other_notices,
                    [entries_notice(folder, "plan", NEARLY_FULL + 1), renewal_notice()],
                    "the notices",
                )
            files = {OLD: ended(), NEW: renewed() + b'["join",2]\n'}
            expect_files(folder, files)
            with OnDemandServer(folder, 3) as server:
                client = server.client()
                client.expect_reply(["back", "plan.2", 2], f'["back",{RENEWED + 1},2,0]')
                client.expect_reply(["leave"], f'["left",{RENEWED + 1}]')
                client.expect_reply(["join", "plan"], SENT_ON)
                self.assertEqual(rooms_of(server)["open"], 1, "the open rooms")
                server.kill()
                server.warnings()
            expect_files(folder, files)

    def test_states_on_demand(self):
        """Whatever a server that was killed has written, the opening of a chain's rooms ends the old room and makes the
        new one whole."""
        for name, files, _cut in states():
            with folder_of(files) as folder:
                with OnDemandServer(folder, 3) as server:
                    client = server.client()
                    self.assertEqual(client.ask(["join", "plan"]), SENT_ON, f"the join after {name}")
                    self.assertEqual(client.ask(["join", "plan.2"]), JOINED, f"the next join after {name}")
                    server.kill()
                    server.warnings()
                expect_files(folder, {OLD: ended(), NEW: renewed() + b'["join",2]\n'})

    def test_emptied_rooms(self):
        """Who asks for an earlier room is sent to the newest, also if the files before the last two were emptied."""
        files = {OLD: b"", NEW: b"", "plan.3.record": end_of(0), "plan.4.record": renewed()}
        with folder_of(files) as folder, OnDemandServer(folder, 3) as server:
            client = server.client()
            for room in ("plan", "plan.2", "plan.3"):
                client.expect_reply(["join", room], '["renewed",0,"plan.4"]')
            client.expect_reply(["join", "plan.5"], NOT_SERVED)
            server.finish()
            expect_files(folder, files)

    def test_one_process_for_a_chain(self):
        """A process that has a room open has all rooms of its chain: another one refuses them by 21. It serves them
        once the first has closed the room."""
        with folder_of({OLD: ended(), NEW: renewed()}) as folder, OnDemandServer(folder, 3, close_after=1) as first:
            client = first.client()
            client.expect_reply(["join", "plan.2"], JOINED)
            with OnDemandServer(folder, 3) as second:
                other = second.client()
                for room in ("plan", "plan.2"):
                    other.expect_reply(["join", room], NOT_SERVED)
                client.expect_reply(["leave"], f'["left",{RENEWED + 1}]')
                self.assertEqual(ask_until_served(other, ["join", "plan"]), SENT_ON, "the reply")
                other.expect_reply('["back","plan.2",2]', f'["back",{RENEWED + 1},2,0]')
                second.kill()
                second.warnings()

    def test_no_place_for_the_old_room(self):
        """Who comes back to a room that has ended is not sent on while it cannot be opened for want of a place: what it
        has pending can go along later."""
        with folder_of({OLD: nearly_full()}) as folder, OnDemandServer(folder, 1) as server:
            client, other = server.client(), server.client()
            client.expect_reply(["join", "plan"], SENT_ON)
            client.expect_reply(["join", "plan.2"], JOINED)
            other.expect_reply(["back", "plan", 1], NOT_SERVED)
            client.expect_reply(["leave"], f'["left",{RENEWED + 1}]')
            self.assertEqual(
                ask_until_served(other, ["back", "plan", 1]), f'["back",{NEARLY_FULL + 1},1,{2 * DRAWN}]', "the reply",
            )
            server.kill()
            server.warnings()

    def test_chain_by_path(self):
        """With `--by-path` a handshake over /plan is let in while a later room of the chain has the only place."""
        with folder_of({OLD: ended(), NEW: renewed()}) as folder, OnDemandServer(folder, 1, by_path=True) as server:
            for site in (2, 3):
                client = server.client("/plan")
                client.expect_reply(["join", "plan"], SENT_ON)
                client.expect_reply(["join", "plan.2"], f'["joined",{RENEWED + site - 2},{site}]')
            server.kill()
            server.warnings()
