"""Records of rooms at their limits, for renewal: each a list of entries. The versions of an object and its keys are as
many as the limits allow, or its versions agree, or no two have a key in common, or the record is full."""

import itertools

MAX_ENTRIES = 16_384
MAX_OBJECTS = 8_192
MAX_VERSIONS = 32
# Pairs of a put, and attributes of a creation.
MAX_PAIRS = 16
# Keys that the puts of an object give.
MAX_KEYS = 64
# Bytes of a text that is a value.
MAX_TEXT = 256


class Record:
    """A record in the making. All objects are created by site 1, before any put. The state vector of an operation
    covers the creations and the site's own operations, so those of different sites are concurrent."""

    def __init__(self, sites):
        self.entries = [["join", site] for site in range(1, sites + 1)]
        self.made = {site: 0 for site in range(1, sites + 1)}
        self.creations = 0

    def add(self, site, word, *rest, seen=None):
        """Adds the site's next operation. `seen` names further counts of its state vector."""
        counts = {1: self.creations, site: self.made[site], **(seen or {})}
        self.made[site] += 1
        vector = sorted([other, count] for other, count in counts.items() if count)
        self.entries.append([word, [site, self.made[site]], vector, *rest])

    def create(self, attrs=(), kind="rect"):
        """Adds the creation of an object."""
        self.add(1, "new", kind, list(map(list, attrs)))
        self.creations += 1

    def put(self, site, pairs, place=1, version=(), **options):
        """Adds a put to the object of this place, from 1."""
        self.add(site, "put", [1, place], list(map(list, version)), list(map(list, pairs)), **options)

    def put_all(self, site, pairs, place=1):
        """Adds as many puts as these pairs need."""
        for start in range(0, len(pairs), MAX_PAIRS):
            self.put(site, pairs[start : start + MAX_PAIRS], place)


def fan(sites, pairs_of, attrs=()):
    """Returns a record of one object to which each site puts the pairs that `pairs_of` gives it."""
    record = Record(sites)
    record.create(attrs)
    for site in range(1, sites + 1):
        record.put_all(site, pairs_of(site))
    return record


def many_keys(sites, value_of=lambda number, site: 100 * number + site):
    """An object of 80 keys: 16 from its creation, and 64 from the puts of each site."""
    attrs = [(f"a{number}", value_of(number, 0)) for number in range(MAX_PAIRS)]
    return fan(sites, lambda site: [(f"k{number:02}", value_of(number, site)) for number in range(MAX_KEYS)], attrs)


def longest_answer():
    """An object of 32 versions of 80 keys with the longest texts, of which each byte but two needs an escape of six. An
    answer that shows it takes 3.9 million bytes."""
    return many_keys(MAX_VERSIONS, lambda number, site: "\x01" * (MAX_TEXT - 2) + f"{site:02}")


def five_pairs(attrs):
    """An object of 32 versions by ten puts: any two sites of a pair give one key two values."""
    return fan(10, lambda site: [("abcde"[(site - 1) // 2], site % 2)], attrs)


def agreeing(sites):
    """An object whose versions agree in the end: after one value each, all sites put the same."""
    record = fan(sites, lambda site: [("x", site)], [("x", 0)])
    for site in range(1, sites + 1):
        record.put(site, [("x", 3)])
    return record


TRIANGLE = {1: [("x", 1), ("y", 1)], 2: [("x", 2), ("z", 1)], 3: [("y", 2), ("z", 2)]}


def triangle(attrs, spare_keys):
    """An object of three versions, any two of which have another key in common. Each has further keys of its own."""
    spare = [(f"s{number:02}", 0) for number in range(spare_keys)]
    return fan(3, lambda site: TRIANGLE[site] + spare[site - 1 :: 3], attrs)


def projective_plane(order=5):
    """An object of 31 versions of six keys, any two of which have exactly one in common."""
    points = [p for p in itertools.product(range(order), repeat=3) if next((x for x in p if x), 0) == 1]
    lines = [
        [number for number, point in enumerate(points) if sum(a * b for a, b in zip(point, line)) % order == 0]
        for line in points
    ]
    return fan(len(lines), lambda site: [(f"p{number}", site) for number in lines[site - 1]])


def with_gone():
    """Twenty objects of two versions, of some of which one is gone, of some both."""
    record = Record(4)
    for number in range(20):
        record.create([("x", number)], "oval")
    for place in range(1, 21):
        record.put(2, [("x", -1)], place)
        record.put(3, [("x", -2)], place)
    for place in range(2, 21, 2):
        record.add(4, "drop", [1, place], [[2, place]], seen={2: 20, 3: 20})
        if place % 4 == 0:
            record.add(4, "drop", [1, place], [[3, place]], seen={2: 20, 3: 20})
    return record


def full(objects, sites=1):
    """A full record of objects of as many versions as there are sites; the sites put in turn, object by object."""
    record = Record(sites)
    for number in range(objects):
        record.create([("x", number), ("y", 0)])
    for number, place, site in in_turn(objects, sites):
        if len(record.entries) == MAX_ENTRIES:
            break
        record.put(site, [("x", 1000 * number + site), ("t", f"text {number}")], place)
    return record


def in_turn(objects, sites):
    """Yields a number, a place and a site for each change, site by site and object by object."""
    for number in itertools.count():
        for place in range(1, objects + 1):
            for site in range(1, sites + 1):
                yield number, place, site


def full_of_pairs():
    """A full record of objects of four versions by four puts: any two sites of a pair give one key two values."""
    record = Record(4)
    objects = (MAX_ENTRIES - 4) // 5
    for _ in range(objects):
        record.create()
    for place in range(1, objects + 1):
        for site in range(1, 5):
            record.put(site, [("ab"[(site - 1) // 2], site % 2)], place)
    return record


# The name of a record, and the record.
AT_LIMITS = [
    ("joins alone", lambda: Record(256)),
    ("80 keys", lambda: many_keys(1)),
    ("32 versions of 80 keys", lambda: many_keys(MAX_VERSIONS)),
    ("a fan of 32 values", lambda: fan(MAX_VERSIONS, lambda site: [("x", site)])),
    ("two versions that agree", lambda: agreeing(2)),
    ("32 versions that agree", lambda: agreeing(MAX_VERSIONS)),
    ("no common key", lambda: triangle([], 0)),
    ("no common key, 64 keys", lambda: triangle([], 61)),
    ("no common key, 64 keys and an attribute", lambda: triangle([("c", 1)], 61)),
    ("a projective plane of 31 versions", projective_plane),
    ("gone versions and objects", with_gone),
]
# These are renewed only by more entries than they have.
LONGER = [
    ("five pairs", lambda: five_pairs([("z", 0)])),
    ("five pairs without attributes", lambda: five_pairs([])),
    ("a full record of pairs", full_of_pairs),
]
