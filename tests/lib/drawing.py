"""Clients that draw together as people would: each reads what the room shows, then changes a version, creates an object
or sends another request."""

import json
import random
import time

KEYS = ["x", "y", "fill"]
VALUES = [1, 2, "red"]
TRIES = 5
# The pause between two attempts to come back as a site in use, in seconds.
AGAIN = 0.01


class NotBack(Exception):
    """The client could not come back as the site."""


def come_back(reply_to, room, site, seconds=60):
    """Comes back to a room as a site, as soon as the site's old session has ended. Returns the site's number of
    operations. `reply_to` sends a request and returns the reply as a value."""
    bound = time.monotonic() + seconds
    while True:
        reply = reply_to(["back", room, site])
        if reply[0] == "back" and reply[2] == site:
            return reply[3]
        if reply[2:] != [20, "site-in-use"] or time.monotonic() > bound:
            raise NotBack(f"coming back as site {site} of room {room}: {reply}")
        time.sleep(AGAIN)


class Drawer:
    """One client. `ask` sends a request and returns the text of the reply."""

    def __init__(self, ask, number):
        self.ask = ask
        self.source = random.Random(number)
        self.site = None
        self.entry_count = 0
        self.counts = {}
        self.objects = []

    def reply_to(self, request):
        """Sends a request and returns the reply as a value."""
        return json.loads(self.ask(request))

    def join(self, room):
        """Joins a room."""
        self.site = self.reply_to(["join", room])[2]

    def come_back(self, room, site):
        """Comes back to a room as a site. Returns the site's number of operations."""
        self.site = site
        return come_back(self.reply_to, room, site)

    def continue_from(self, other):
        """Copies what another client of the same room has pulled."""
        self.entry_count, self.counts, self.objects = other.entry_count, dict(other.counts), list(other.objects)

    def catch_up(self):
        """Pulls the new entries of the record and counts them."""
        at = None
        while self.entry_count != at:
            _, at, _, entries = self.reply_to(["pull", self.entry_count])
            self.entry_count += len(entries)
            for entry in entries:
                if entry[0] != "join":
                    self.counts[entry[1][0]] = entry[1][1]
                if entry[0] == "new":
                    self.objects.append(entry[1])

    def seq(self):
        """Returns the number of the next operation."""
        return self.counts.get(self.site, 0) + 1

    def versions(self, target):
        """Returns the identifiers of an object's versions that are not gone. Pulls until the reply matches the pulled
        record."""
        while True:
            reply = self.reply_to(["show", target])
            if reply[1] == self.entry_count:
                return [name for name, shown in reply[4] if shown != "gone"]
            self.catch_up()

    def next_operation(self, among=0):
        """Returns an operation whose state vector covers all pulled entries. It is mostly a put, sometimes a creation
        or a drop. `among` limits the choice to that many of the newest objects; 0 means all."""
        self.catch_up()
        target = self.source.choice(self.objects[-among:]) if self.objects else None
        versions = self.versions(target) if self.objects else []
        seen = sorted(map(list, self.counts.items()))
        if not versions or self.source.random() < 0.07:
            return ["new", self.seq(), seen, "rect", [["x", 0]]]
        version = self.source.choice(versions)
        if self.source.random() < 0.05:
            return ["drop", self.seq(), seen, target, version]
        keys = self.source.sample(KEYS, self.source.randrange(1, len(KEYS) + 1))
        return ["put", self.seq(), seen, target, version, [[key, self.source.choice(VALUES)] for key in keys]]

    def submit(self, operation):
        """Sends the operation. Returns whether the room accepted it."""
        return self.reply_to(operation)[0] in ("made", "taken")

    def ask_other(self):
        """Sends a request that is not an operation, or one that the room refuses."""
        requests = [["list", 0], ["list", 9999], ["show", [256, 1]], ["new", 9999, [], "rect", []]]
        requests.append(["pull", self.entry_count])
        self.ask(self.source.choice(requests))


def draw_in_rounds(drawers, count):
    """Draws in rounds: all clients read the room, then all send an operation. So the operations of one round are
    concurrent. Ends after `count` accepted operations."""
    accepted = 0
    while accepted < count:
        operations = [drawer.next_operation() for drawer in drawers]
        for drawer, operation in zip(drawers, operations):
            if accepted < count and drawer.submit(operation):
                accepted += 1
        drawers[accepted % len(drawers)].ask_other()


def draw_alone(drawer, count):
    """Draws with one client. Returns whether the room accepted `count` of its operations."""
    accepted = 0
    for _ in range(TRIES * count):
        if accepted < count and drawer.submit(drawer.next_operation()):
            accepted += 1
        if drawer.source.random() < 0.1:
            drawer.ask_other()
    return accepted == count
