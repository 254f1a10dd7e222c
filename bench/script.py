#!/usr/bin/env python3
"""Times `grace script` on generated scripts, and prints a Markdown table: microseconds of processor time a message,
without the program's start, and the peak of memory. Each figure is the least of the runs. With `--against PROGRAM` a
second build runs the same scripts in turn. It must print the same bytes, and its figures are in further columns. With
`--old-form` the scripts write puts of one key as `set`, for a build without puts. Scripts with other changes are then
left out, and only the number of answers is compared. Run it from anywhere. It measures the
program that `./test` proved."""

import json
import pathlib
import sys
import tempfile

from server import builds_of, compare_words_of, measured, row, titles


# ---- what scripts are made of


class NotInOldForm(Exception):
    """A script has changes that the old form cannot express."""


class Script:
    """The rooms and lines of a script, and the number of lines that the program refuses."""

    # Whether puts of one key are written in the old form.
    in_old_form = False

    def __init__(self):
        self.rooms = []
        self.lines = []
        self.refused = 0
        self.setup = 0

    def room(self, sites):
        """Adds a room that this many sites have joined."""
        return Room(self, len(self.rooms), sites)

    def add(self, session, message):
        """Adds a line with a message, which is a value or a text."""
        text = message if isinstance(message, str) else json.dumps(message, separators=(",", ":"))
        self.lines.append(f"{session} {text}\n")

    def end_setup(self):
        """Marks the end of the setup: the measured part of the script follows."""
        self.setup = len(self.lines)

    def front(self, part):
        """Returns the setup and this part of the other lines, as bytes."""
        count = self.setup + round(part * (len(self.lines) - self.setup))
        return "".join(self.lines[:count]).encode()


class Room:
    """One room of a script, and the number of operations of each site."""

    def __init__(self, script, number, sites):
        self.script = script
        self.number = number
        self.done = {site: 0 for site in range(1, sites + 1)}
        script.rooms.append(f"room-{number}")
        for site in self.done:
            self.ask(site, ["join", script.rooms[number]])

    def ask(self, site, message):
        """Adds a message of the site's session that is not an operation."""
        self.script.add(self.number * 1000 + site, message)

    def everything(self):
        """Returns a state vector of all operations so far."""
        return dict(self.done)

    def own(self, site, created):
        """Returns a state vector of this many operations of site 1 and all of the site's own."""
        return {1: created} | {site: self.done[site]}

    def operation(self, site, word, seen, *parts):
        """Adds the site's next operation. Returns its name."""
        self.done[site] += 1
        counts = [[other, count] for other, count in sorted(seen.items()) if count > 0]
        self.ask(site, [word, self.done[site], counts, *parts])
        return [site, self.done[site]]

    def new(self, site, seen, attrs=()):
        """Adds a creation by the site. Returns the object's name."""
        return self.operation(site, "new", seen, "rect", attrs)

    def put(self, site, seen, target, pairs, version=()):
        """Adds a put of these pairs of a key and a value to a version of an object. Returns its name."""
        if not Script.in_old_form:
            return self.operation(site, "put", seen, target, version, pairs)
        if len(pairs) > 1:
            raise NotInOldForm
        return self.operation(site, "set", seen, target, version, *pairs[0])

    def put_key(self, site, seen, target, key, value, version=()):
        """Adds a put of one pair. Returns its name."""
        return self.put(site, seen, target, [[key, value]], version)

    def drop(self, site, seen, target, version=()):
        """Adds a drop of a version of an object. Returns its name."""
        if Script.in_old_form:
            raise NotInOldForm
        return self.operation(site, "drop", seen, target, version)


def five_pairs(room):
    """Site 1 creates an object. Ten sites that have seen only that give five keys two values each, which makes 32
    versions. Returns the object, the number of site 1's operations at its creation, and the puts: two for each key."""
    target = room.new(1, room.own(1, 0))
    created = room.done[1]
    puts = [room.put_key(site, room.own(site, created), target, f"key{(site - 1) // 2}", site) for site in range(1, 11)]
    return target, created, [puts[place : place + 2] for place in range(0, 10, 2)]


# ---- scripts


def one_site(size):
    """One site creates 500 objects and puts one key after another, in order."""
    script = Script()
    room = script.room(1)
    objects = []
    for turn in range(size):
        if turn % 32 == 0:
            objects.append(room.new(1, room.everything(), [["x", turn]]))
        else:
            room.put_key(1, room.everything(), objects[turn % len(objects)], "x", turn)
    return script


def disjoint_keys(size):
    """Eight sites in turn put a key of their own on 500 objects. Puts of different sites are concurrent, and none
    conflict."""
    script = Script()
    room = script.room(8)
    objects = [room.new(1, room.everything()) for _ in range(500)]
    for turn in range(size // 8):
        for site in room.done:
            room.put_key(site, room.own(site, 500), objects[turn % 500], f"key{site}", turn)
    return script


def full_vectors(size):
    """256 sites create and put in turn. Each state vector covers all operations."""
    script = Script()
    room = script.room(256)
    objects = [room.new(site, room.everything()) for site in room.done]
    for turn in range(size - len(script.lines)):
        site = turn % 256 + 1
        if turn % 12 == 0:
            objects.append(room.new(site, room.everything()))
        else:
            room.put_key(site, room.everything(), objects[turn % len(objects)], "x", turn)
    return script


def chains(size):
    """In each of 16 rooms one site creates an object and puts a chain on it. The rooms take turns."""
    script = Script()
    rooms = [script.room(1) for _ in range(16)]
    objects = [room.new(1, {}) for room in rooms]
    script.end_setup()
    for turn in range(size):
        for room, target in zip(rooms, objects):
            room.put_key(1, room.everything(), target, "x", turn)
    return script


def compatible(size, lag):
    """In each of eight rooms eight sites put a key of their own on one object. Each has seen its own puts and those of
    the others up to `lag` turns before; with a lag of `size` it has seen none of them."""
    script = Script()
    rooms = [script.room(8) for _ in range(8)]
    objects = [room.new(1, {}) for room in rooms]
    for turn in range(size // 8):
        late = max(0, turn - lag)
        for room, target in zip(rooms, objects):
            for site in room.done:
                others = {other: late + (other == 1) for other in room.done}
                room.put_key(site, others | {site: room.done[site]}, target, f"key{site}", turn)
    return script


def fans(size, turns):
    """On each object 32 sites that have seen only its creation and their own puts give one key values, in so many
    turns. No two values are the same."""
    script = Script()
    room = script.room(32)
    for _ in range(size):
        target = room.new(1, room.own(1, 0))
        created = room.done[1]
        for turn in range(turns):
            for site in room.done:
                room.put_key(site, room.own(site, created), target, "x", 100 * turn + site)
    return script


def unseen_pairs(size, turns):
    """On each object ten sites that have seen only its creation and their own puts give five keys two values each, in
    so many turns, which makes 32 versions."""
    script = Script()
    room = script.room(10)
    for _ in range(size):
        target = room.new(1, room.own(1, 0))
        created = room.done[1]
        for turn in range(turns):
            for site in room.done:
                room.put_key(site, room.own(site, created), target, f"key{(site - 1) // 2}", 100 * turn + site)
    return script


def pairs(size):
    """Each object gets 32 versions by five pairs. Then an eleventh site that has seen none of the puts sends 40 puts;
    each is in every version."""
    script = Script()
    room = script.room(11)
    for _ in range(size):
        target, created, _ = five_pairs(room)
        for turn in range(40):
            room.put_key(11, room.own(11, created), target, "more", turn)
    return script


def built_on_pairs(size):
    """Each object gets 32 versions by five pairs. Then an eleventh site that has seen all puts twice on each version.
    Such a put is in that version alone. So each identifier has one put of each pair and the puts on it, in order."""
    script = Script()
    room = script.room(11)
    for _ in range(size):
        target, _, puts = five_pairs(room)
        versions = [[pair[number >> place & 1] for place, pair in enumerate(puts)] for number in range(32)]
        for turn in range(64):
            version = versions[turn * 13 % 32]
            version.append(room.put_key(11, room.everything(), target, "more", turn, sorted(version)))
    return script


def many_rooms(size):
    """In each of `size` rooms one site creates two objects and gives four keys of each a value."""
    script = Script()
    rooms = [script.room(1) for _ in range(size)]
    objects = [[room.new(1, room.everything(), [["x", 1], ["y", 2]]) for _ in range(2)] for room in rooms]
    for turn in range(8):
        for room, targets in zip(rooms, objects):
            room.put_key(1, room.everything(), targets[turn % 2], f"key{turn // 2}", turn)
    return script


def shows_and_pulls(size):
    """A site requests in turn an object, a page of the objects and a page of the record. There are 65 objects with
    eight attributes; only the first has 32 versions."""
    script = Script()
    room = script.room(10)
    five_pairs(room)
    attrs = [[f"key{place}", "twenty bytes of text"] for place in range(8)]
    for _ in range(64):
        room.new(1, room.own(1, 0), attrs)
    requests = [["show", [1, 1]], ["list", 0], ["pull", 0], ["show", [1, 20]], ["pull", 21]]
    for turn in range(size):
        room.ask(1, requests[turn % len(requests)])
    return script


def refusals(size):
    """A site sends operations with a wrong number."""
    script = Script()
    room = script.room(1)
    script.refused = size
    for _ in range(size):
        room.ask(1, ["new", 7, [], "rect", []])
    return script


def long_messages(size, text, length):
    """Creations with this text for each of sixteen keys, with spaces behind up to this length."""
    script = Script()
    rooms = [script.room(1) for _ in range(4)]
    attrs = ",".join(f'["key{place}","{text}"]' for place in range(16))
    for turn in range(size // 4):
        seen = f"[[1,{turn}]]" if turn else "[]"
        message = f'["new",{turn + 1},{seen},"rect",[{attrs}]]'
        for room in rooms:
            room.ask(1, message.ljust(length))
    return script


def long_texts(size):
    """Creations of sixteen texts of 256 bytes, without escapes or spaces."""
    return long_messages(size, "b" * 256, 0)


def long_escapes(size):
    """Creations of 10,000 bytes: sixteen texts of 256 bytes, some of these as escapes, and spaces."""
    return long_messages(size, "\\u0061" * 70 + "b" * 186, 10000)


def puts_of(size, count):
    """One site puts values to this many keys, the same in each put, on 500 objects in turn."""
    script = Script()
    room = script.room(1)
    objects = [room.new(1, room.everything()) for _ in range(500)]
    for turn in range(size):
        pairs = [[f"key{key}", turn] for key in range(count)]
        room.put(1, room.everything(), objects[turn % 500], pairs)
    return script


def one_each(size, change):
    """In each of `size` rooms a site that has seen 500 objects changes each once."""
    script = Script()
    for room in [script.room(1) for _ in range(size)]:
        objects = [room.new(1, room.everything()) for _ in range(500)]
        for target in objects:
            change(room, target)
    return script


def put_one(room, target):
    room.put_key(1, room.everything(), target, "x", 1)


def drop_one(room, target):
    room.drop(1, room.everything(), target)


CASES = [
    ("one site creates and puts", one_site, 16000),
    ("eight sites, 500 objects, a key each", disjoint_keys, 12000),
    ("vectors of 256 sites", full_vectors, 3000),
    ("a chain of 1,024 puts, 16 rooms", chains, 1024),
    ("compatible puts, unseen, 1,024 an object", lambda size: compatible(size, size), 1024),
    ("compatible puts, seen late, 1,024 an object", lambda size: compatible(size, 8), 1024),
    ("32 versions by a fan", lambda size: fans(size, 1), 200),
    ("32 versions by a fan, 16 unseen puts each", lambda size: fans(size, 16), 10),
    ("32 versions by five pairs, 8 unseen puts each", lambda size: unseen_pairs(size, 8), 50),
    ("32 versions by five pairs, puts in all", pairs, 200),
    ("32 versions by five pairs, puts on one", built_on_pairs, 100),
    ("500 rooms", many_rooms, 500),
    ("shows and pages", shows_and_pulls, 3000),
    ("refusals", refusals, 100000),
    ("sixteen texts of 256 bytes", long_texts, 2000),
    ("messages of 10,000 bytes, with escapes", long_escapes, 2000),
    ("puts of one key", lambda size: puts_of(size, 1), 15000),
    ("puts of 16 keys", lambda size: puts_of(size, 16), 15000),
    ("a put to each of 500 objects, 16 rooms", lambda size: one_each(size, put_one), 16),
    ("a drop of each of 500 objects, 16 rooms", lambda size: one_each(size, drop_one), 16),
]


# ---- measures


class Figures:
    """The least processor seconds and peak memory of a program's runs, for each part of a script."""

    def __init__(self):
        self.seconds = {}
        self.peak = float("inf")

    def add(self, part, seconds, peak):
        """Adds a run of this part of the script."""
        self.seconds[part] = min(seconds, self.seconds.get(part, seconds))
        if part == 1:
            self.peak = min(peak, self.peak)

    def a_message(self, count):
        """Returns microseconds a message, without the program's start."""
        return (self.seconds[1] - self.seconds[0]) / count * 1e6

    def growth(self):
        """Returns the time of the last quarter by that of the second."""
        return (self.seconds[1] - self.seconds[0.75]) / (self.seconds[0.5] - self.seconds[0.25])


def run(program, rooms, folder, data):
    """Runs a program once on these bytes. Returns processor seconds, peak memory in MiB, and the answers."""
    source, answers = folder / "source", folder / "answers"
    source.write_bytes(data)
    status, seconds, peak, _ = measured([program, "script", *rooms], source, answers)
    if status != 0:
        sys.exit(f"bench: {program} exited with {status}")
    return seconds, peak, answers.read_bytes()


def check(script, name, answers):
    """Checks the numbers of answers and of refusals."""
    lines, no = answers.count(b"\n"), answers.count(b' ["no",')
    if lines != len(script.lines) or no != script.refused:
        sys.exit(f"bench: {name}: {len(script.lines)} lines, {lines} answers, {no} refused")


def measure(name, script, programs, runs):
    """Returns the figures of each program. The programs take turns, and each turn runs all parts of the script."""
    parts = [0, 0.25, 0.5, 0.75, 1] if script.setup else [0, 1]
    figures = [Figures() for _ in programs]
    first = None
    with tempfile.TemporaryDirectory() as folder:
        for _ in range(runs):
            for program, figure in zip(programs, figures):
                for part in parts:
                    data = script.front(part) if part else b""
                    seconds, peak, answers = run(program, script.rooms, pathlib.Path(folder), data)
                    figure.add(part, seconds, peak)
                check(script, name, answers)
                first = first or answers
                if answers != first and not Script.in_old_form:
                    sys.exit(f"bench: {name}: {program} prints other bytes")
    return figures


# ---- the table


def heads(count):
    """Returns the titles of the columns, for one program or two."""
    more = ["The other's", "Ratio"] if count == 2 else []
    return ["Script", "Messages", "Microseconds a message", *more, "MiB", *more]


def beside(values, digits):
    """Returns the cells of one program, or of two and their ratio."""
    cells = [f"{value:.{digits}f}" for value in values]
    return cells + [f"{values[0] / values[1]:.2f}"] if len(values) == 2 else cells


def main():
    parser = compare_words_of(__doc__, 9)
    parser.add_argument("--only", default="", metavar="WORD", help="only scripts with WORD in their names")
    parser.add_argument("--old-form", action="store_true", help="write puts of one key as `set`")
    options = parser.parse_args()
    Script.in_old_form = options.old_form
    programs = builds_of(options)
    titles(heads(len(programs)))
    growths = []
    for name, make, size in CASES:
        if options.only not in name:
            continue
        try:
            script = make(size)
        except NotInOldForm:
            continue
        figures = measure(name, script, programs, options.runs)
        count = len(script.lines)
        times = beside([figure.a_message(count) for figure in figures], 2)
        row([name, f"{count:,}", *times, *beside([figure.peak for figure in figures], 1)])
        if script.setup:
            growths.append((name, [f"{figure.growth():.2f}" for figure in figures]))
    for name, values in growths:
        print(f"\n{name}: the last quarter takes {' and '.join(values)} times as long as the second")


if __name__ == "__main__":
    main()
