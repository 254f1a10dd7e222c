"""What bench/renewals checks at its end: pages of clients, and the records of rooms that were renewed."""

import collections
import itertools
import json
import pathlib
import tempfile
import time

from lib.checks import check
from lib.drawing import come_back
from lib.keeping import path_of, whole_lines
from lib.records import transcript_lines
from lib.serving import run, verdict

# The seconds in which all clients of a room have to show the same, and in which a reply has to come. They allow for a
# machine that has no time for the clients or the server.
PATIENCE = 600


def records_of(folder, rooms):
    """Returns the names of the rooms of each chain, in order, by the name of the first. They are those with a file."""
    found = {}
    for room in rooms:
        names = itertools.chain([room], (f"{room}.{number}" for number in itertools.count(2)))
        found[room] = list(itertools.takewhile(lambda name: path_of(folder, name).exists(), names))
    return found


# ---- pages of clients


def page_of(client):
    """Returns what a client shows: name, kind and versions of each object."""
    shown = []
    for name in client.objects():
        versions = [[it.id, "gone" if it.is_gone else list(it.attributes.items())] for it in client.versions(name)]
        shown.append([name, client.kind(name), versions])
    return json.loads(json.dumps(shown))


def page_of_session(session):
    """Returns what a session is shown in its room: name, kind and versions of each object."""
    shown, total = [], 1
    while len(shown) < total:
        *_, total, page = session.reply_to(["list", len(shown)])
        shown += [session.reply_to(["show", name])[2:] for name, _ in page]
    return shown


def await_agreement(clients):
    """Waits until all clients are in the same room and have the same record, of which no change is missing."""
    bound = time.monotonic() + PATIENCE
    while True:
        are_settled = all([client.settled(PATIENCE) and client.refresh(PATIENCE) for client in clients])
        if are_settled and all(client.record == clients[0].record for client in clients[1:]):
            if len({client.name for client in clients}) == 1 and not any(it.has_ended for it in clients):
                return
        if time.monotonic() > bound:
            raise AssertionError(f"clients do not agree: {[(it.name, len(it.record), it.words) for it in clients]}")


def check_pages(server, clients_of):
    """Checks that all clients of each room show what a fresh session is shown. That session is the site of the first
    client, so that it adds no entry. Prints how much that was."""
    objects, versions = 0, 0
    for clients in clients_of.values():
        await_agreement(clients)
        first, name, site = clients[0], clients[0].name, clients[0].site
        pages = [page_of(client) for client in clients]
        first.close()
        session = server.connect()
        session.socket.settimeout(PATIENCE)
        session.open()
        come_back(session.reply_to, name, site)
        shown = page_of_session(session)
        session.close()
        for number, page in enumerate(pages, 1):
            check.assertEqual(page, shown, f"what client {number} of {len(pages)} in {name} shows")
        objects += len(shown)
        versions += sum(len(of_object) for *_, of_object in shown)
    print(f"{sum(map(len, clients_of.values()))} clients show what `show` says: {objects} objects, {versions} versions")


# ---- records


def check_records(server, rooms, values, failed):
    """Checks the records of all rooms, and that each value of a change that was taken is in one of them. `values` has
    its room and the value, `failed` those of refused changes too, with a word. Prints how much that was."""
    chains = records_of(server.keep, rooms)
    lines_of = {room: whole_lines(server.keep, room) for room in itertools.chain(*chains.values())}
    transcripts = server.transcripts()
    for room, lines in lines_of.items():
        check.assertEqual(verdict(lines, transcript_lines(room, transcripts)), (0, "holds\n"), f"the verdict of {room}")
    print(f"{len(lines_of)} records with {sum(map(len, lines_of.values()))} entries hold")
    pairs = [pair for chain in chains.values() for pair in itertools.pairwise(chain)]
    for old, new in pairs:
        check_renewal(old, lines_of[old], new, lines_of[new])
    lengths = [len(lines_of[old]) for old, _ in pairs] or [0]
    print(f"{len(pairs)} records, of {min(lengths)} to {max(lengths)} entries, go on in one that draws the same")
    for room, chain in chains.items():
        check_values(
            room, [list(map(json.loads, lines_of[name])) for name in chain],
            [value for first, value in values if first == room],
            [value for first, value, _ in failed if first == room and value is not None],
        )
    print(f"all {len(values)} values of changes that were taken are in the records, none in two")


def check_renewal(old, old_lines, new, new_lines):
    """Checks that a record ends with how many entries of the next one draw the same, and that these do."""
    word, count = json.loads(old_lines[-1])
    check.assertEqual((word, count <= len(new_lines)), ("next", True), f"the end of {old}")
    with tempfile.TemporaryDirectory() as folder:
        files = [pathlib.Path(folder) / name for name in (old, new)]
        for file, lines in zip(files, (old_lines, new_lines[:count])):
            file.write_text("".join(f"{line}\n" for line in lines))
        check.assertEqual(run("renewed", *files), (0, "holds\n", ""), f"whether {new} goes on as {old}")


def check_values(room, records, taken, refused):
    """Checks that the values of the changes that were taken are in these records of a chain, and those of refused ones
    are not. None may be put in two of the records. The first entries of a record repeat what the one before draws, so
    they do not count."""
    puts, created, start = collections.Counter(), set(), 0
    for record in records:
        added = [entry for entry in record[start:] if entry[0] in ("new", "put")]
        puts.update({value for word, *_, pairs in added if word == "put" for _, value in pairs})
        created.update(value for word, *_, pairs in added if word == "new" for _, value in pairs)
        start = record[-1][-1]
    there = created.union(puts)
    check.assertEqual([value for value in taken if value not in there], [], f"the values of {room} that are lost")
    twice = [value for value, count in puts.items() if count > 1]
    check.assertEqual(twice, [], f"the values of {room} that are in two records")
    check.assertEqual(
        [value for value in refused if value in there], [], f"the refused values of {room} that are there",
    )
