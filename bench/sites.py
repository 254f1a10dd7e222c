#!/usr/bin/env python3
"""Measures the memory of `grace serve` with a room whose record is full, by the number of its objects and of the sites
that have read all of it. Prints the peak of the process in KiB. In the lines `stay`, up to 64 sites stay in the room.
In the lines `come_back`, 256 sessions come one after another before the record is full and again afterwards, as one
site or as 256."""

from server import Server, program_of, words_of

ENTRIES, VISITS = 16_384, 256
# The numbers of objects: few with many changes each, and the most that a room has.
OBJECTS = 512, 8_192


def fill(client, entries, objects):
    """Adds this many operations of site 1: creations of this many objects, and puts on them in turn."""
    for seq in range(1, entries + 1):
        seen = [[1, seq - 1]] if seq > 1 else []
        if seq <= objects:
            request = ["new", seq, seen, "rect", []]
        else:
            request = ["put", seq, seen, [1, seq % objects + 1], [], [["x", seq]]]
        reply = client.reply_to(request)
        if reply[0] not in ("made", "taken"):
            raise SystemExit(f"the reply to {request} is {reply}")


def visit_room(server, request, objects):
    """Runs a session that enters by this request, lists the last object, and closes."""
    client = server.client()
    client.reply_to(request)
    client.reply_to(["list", objects - 1])
    client.close()


def stay(server, sites, objects):
    """This many sites are in the room while the record fills, and then list the last object."""
    clients = [server.client() for _ in range(sites)]
    for client in clients:
        client.reply_to(["join", "r"])
    fill(clients[0], ENTRIES - sites, objects)
    for client in clients:
        client.reply_to(["list", objects - 1])


def come_back(server, sites, objects):
    """Sessions enter as this many sites, and come back once the record is full."""
    for visit in range(VISITS):
        visit_room(server, ["join", "r"] if visit < sites else ["back", "r", visit % sites + 1], objects)
    client = server.client()
    client.reply_to(["back", "r", 1])
    fill(client, ENTRIES - sites, objects)
    client.close()
    for visit in range(VISITS):
        visit_room(server, ["back", "r", visit % sites + 1], objects)


def peak_memory(visit, sites, objects):
    """Returns the peak of memory with this many sites, all of which have read the full record."""
    with Server(1_000, ["r"]) as server:
        visit(server, sites, objects)
        return server.memory()[1]


def main():
    program_of(words_of(__doc__, 1).parse_args())
    for objects in OBJECTS:
        print(f"{objects:,} objects:")
        for visit, sites in ((stay, 1), (stay, 64), (come_back, 1), (come_back, 256)):
            print(f"{visit.__name__} {sites}: {peak_memory(visit, sites, objects):,} KiB", flush=True)


if __name__ == "__main__":
    main()
