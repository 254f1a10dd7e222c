"""The objects of a record and their versions, computed from the operations alone. Operations are added one at a time,
in any causal order: each after all operations that its state vector counts. The versions do not depend on which causal
order it was.

A set of changes of one object is an integer used as a bit set. Bit i stands for the change at index i, in the order of
arrival."""

from __future__ import annotations

from collections.abc import Callable, Iterator

from .forms import Name, Operation, ProtocolFault, Refused, Seen, Value, VersionId


class Version:
    """One version of an object, as it was when you read it. It is immutable.

    `id` is the identifier that a put or a drop names as its base. `is_gone` tells whether a drop deleted the version.
    `attributes` is sorted by key, and empty if the version is gone. `members` are the names of all changes in the
    version. `outlived` are the drops that the version survived: others changed it concurrently. `owner` is for the
    module alone."""

    __slots__ = ("id", "is_gone", "attributes", "members", "outlived", "owner")

    def __init__(
        self, identifier: VersionId, attributes: dict[str, Value] | None, members: tuple[Name, ...],
        outlived: tuple[Name, ...], owner: DrawnObject,
    ) -> None:
        self.id = identifier
        self.is_gone = attributes is None
        self.attributes = attributes or {}
        self.members = members
        self.outlived = outlived
        # The object as the drawing has it, which knows its drawing.
        self.owner = owner

    def __repr__(self) -> str:
        return f"Version(id={self.id}, {'gone' if self.is_gone else self.attributes})"

    def has(self, name: Name) -> bool:
        """Whether this version contains the change."""
        return tuple(name) in self.members


def indexes_of(members: int) -> Iterator[int]:
    """The indexes in a bit set, in ascending order."""
    while members:
        lowest = members & -members
        yield lowest.bit_length() - 1
        members ^= lowest


class DrawnObject:
    """An object and its changes."""

    def __init__(self, creation: Operation, drawing: Drawing) -> None:
        self.creation, self.drawing = creation, drawing
        self.changes: list[Operation] = []
        self.keys: set[str] = set()
        self._indexes: dict[Name, int] = {}
        # By index: the base together with the change itself, the direct conflicts, and all conflicts.
        self._bases_with_self: list[int] = []
        self._direct: list[int] = []
        self._conflicts: list[int] = []
        self._disputed = 0
        self._drops = 0
        # By a drop's index: the set of changes that its author had seen.
        self._known_by_drops: dict[int, int] = {}
        self._groups = [0]
        self._versions: list[Version] | None = None

    def add(self, change: Operation) -> None:
        """Adds a change. The object must have received all changes that the change's state vector counts. Raises
        `Refused` if the author had not seen the object, had seen no version with this identifier, or the base contains
        a drop. The object is then unchanged."""
        known, unknown, base = self.check(change)
        index = len(self.changes)
        self.changes.append(change)
        if change.word == "drop":
            self._drops |= 1 << index
            self._known_by_drops[index] = known
        else:
            self.keys.update(key for key, _ in change.attributes or ())
        self._indexes[change.name] = index
        self._bases_with_self.append(base | 1 << index)
        relate(self._direct, index, self._direct_with(change, unknown))
        conflicts = self._conflicts_with(index, known, unknown, base)
        relate(self._conflicts, index, conflicts)
        self._disputed |= conflicts | (bool(conflicts) << index)
        self._groups = with_change(self._groups, index, conflicts)
        self._versions = None

    def check(self, change: Operation) -> tuple[int, list[int], int]:
        """Checks a change without adding it. Returns the set of changes that its author had seen, the indexes of the
        others, and the base. Raises as `add`."""
        counts = dict(change.seen)
        creator, made = self.creation.name
        if counts.get(creator, 0) < made:
            raise Refused("no-such-object")
        known, unknown = 0, []
        for index, (site, number) in enumerate(other.name for other in self.changes):
            if number <= counts.get(site, 0):
                known |= 1 << index
            else:
                unknown.append(index)
        base = self._group_named(known, change.version or ())
        if base is None:
            raise Refused("no-such-version")
        if base & self._drops:
            raise Refused("gone")
        return known, unknown, base

    def versions(self) -> list[Version]:
        """The versions, sorted by identifier."""
        if self._versions is None:
            self._versions = sorted(map(self._version_of, self._groups), key=lambda version: version.id)
        return self._versions

    def _group_named(self, known: int, identifier: VersionId) -> int | None:
        """The group among the known changes that has this identifier, or None. A group contains every undisputed
        change. Of the disputed changes it contains exactly those that the identifier names, and each other one
        conflicts with one of them."""
        named = 0
        for name in identifier:
            index = self._indexes.get(name)
            if index is None or not known >> index & 1:
                return None
            named |= 1 << index
        group = named
        for index in indexes_of(known):
            conflicts = self._conflicts[index] & known
            is_named = bool(named >> index & 1)
            if not conflicts:
                if is_named:
                    return None
                group |= 1 << index
            elif bool(conflicts & named) == is_named:
                return None
        return group

    def _direct_with(self, change: Operation, unknown: list[int]) -> int:
        """The earlier changes that conflict directly with this one."""
        direct = 0
        for index in unknown:
            if conflict_directly(change, self.changes[index]):
                direct |= 1 << index
        return direct

    def _conflicts_with(self, index: int, known: int, unknown: list[int], base: int) -> int:
        """The earlier changes that conflict with the one at this index. Its direct conflicts must be stored already."""
        conflicts, opposed = known & ~base, self._direct[index]
        for member in indexes_of(base) if unknown else ():
            opposed |= self._direct[member]
        for other in unknown:
            if opposed & self._bases_with_self[other]:
                conflicts |= 1 << other
        return conflicts

    def _version_of(self, group: int) -> Version:
        """The version that shows a group."""
        names = [self.changes[index].name for index in indexes_of(group)]
        identifier = tuple(sorted(self.changes[index].name for index in indexes_of(group & self._disputed)))
        if group & self._drops:
            return Version(identifier, None, tuple(names), (), self)
        outlived = [self.changes[drop].name for drop in indexes_of(self._drops) if self._outlives(group, drop)]
        return Version(identifier, self._attributes(group), tuple(names), tuple(outlived), self)

    def _outlives(self, group: int, drop: int) -> bool:
        """Whether a version survives a drop: the drop's base contains all of the group that the drop's author had
        seen."""
        return not group & ~self._bases_with_self[drop] & self._known_by_drops[drop]

    def _attributes(self, group: int) -> dict[str, Value]:
        values = dict(self.creation.attributes or ())
        for index in indexes_of(group):
            values.update(self.changes[index].attributes or ())
        return dict(sorted(values.items()))


def relate(relation: list[int], index: int, others: int) -> None:
    """Stores in a symmetric relation that the next index is related to these others."""
    for other in indexes_of(others):
        relation[other] |= 1 << index
    relation.append(others)


def conflict_directly(one: Operation, other: Operation) -> bool:
    """Whether two concurrent changes conflict directly: exactly one is a drop, or two puts give a key different
    values."""
    if "drop" in (one.word, other.word):
        return one.word != other.word
    values = dict(other.attributes or ())
    return any(key in values and values[key] != value for key, value in one.attributes or ())


def with_change(groups: list[int], index: int, conflicts: int) -> list[int]:
    """The maximal compatible groups after a change is added that conflicts with these."""
    groups_after = [group if group & conflicts else group | 1 << index for group in groups]
    for group in groups:
        candidate = group & ~conflicts | 1 << index
        if not group & conflicts or any(not candidate & ~other for other in groups_after):
            continue
        # A new candidate may contain an earlier candidate, but never one of the old groups.
        groups_after = [other for other in groups_after if other & ~candidate] + [candidate]
    return groups_after


class Drawing:
    """Objects and their versions, computed from the operations added so far."""

    def __init__(self) -> None:
        self._counts: dict[int, int] = {}
        self._objects: dict[Name, DrawnObject] = {}

    def count(self, site: int) -> int:
        """How many operations of the site were added."""
        return self._counts.get(site, 0)

    def seen(self) -> Seen:
        """The state vector of all operations added so far, sorted by site."""
        return tuple(sorted(self._counts.items()))

    def add(self, operation: Operation) -> None:
        """Adds an operation. Raises `ProtocolFault` if it is not the next of its site, or counts an operation that is
        missing here. Raises `Refused` with `no-such-object`, `no-such-version` or `gone`. The drawing is then
        unchanged."""
        self._admit(operation)
        if operation.word == "new":
            self._objects[operation.name] = DrawnObject(operation, self)
        else:
            self._find(operation.object).add(operation)
        site, number = operation.name
        self._counts[site] = number

    def check(self, change: Operation) -> None:
        """Checks whether `add` would accept a change. The drawing stays unchanged. Raises as `add`."""
        self._admit(change)
        self._find(change.object).check(change)

    def remove(self, site: int, first: int) -> None:
        """Removes the operations of a site from this number on. No operation of another site may count them."""

        def is_removed(operation: Operation) -> bool:
            return operation.name[0] == site and operation.name[1] >= first

        for name, drawn in list(self._objects.items()):
            if is_removed(drawn.creation):
                del self._objects[name]
            elif any(map(is_removed, drawn.changes)):
                self._objects[name] = rebuild(drawn, is_removed)
        self._counts[site] = first - 1
        if first == 1:
            del self._counts[site]

    @property
    def size(self) -> int:
        """How many objects there are."""
        return len(self._objects)

    def names(self) -> list[Name]:
        """The objects, in the order in which they were added."""
        return list(self._objects)

    def has(self, name: Name) -> bool:
        """Whether the object exists."""
        return tuple(name) in self._objects

    def kind(self, name: Name) -> str:
        """The kind of an object. Raises `Refused` (`no-such-object`)."""
        return self._find(name).creation.kind or ""

    def versions(self, name: Name) -> list[Version]:
        """The versions of an object, sorted by identifier. Raises `Refused` (`no-such-object`)."""
        return list(self._find(name).versions())

    def used(self, name: Name) -> tuple[int, set[str]]:
        """How many changes an object has, and which keys they use. Both count towards `LIMITS`."""
        drawn = self._find(name)
        return len(drawn.changes), drawn.keys

    def _admit(self, operation: Operation) -> None:
        site, number = operation.name
        if number != self.count(site) + 1:
            raise ProtocolFault(f"operation {site},{number} is not the next of its site")
        if any(count > self.count(other) for other, count in operation.seen):
            raise ProtocolFault(f"operation {site},{number} counts an operation that is missing here")

    def _find(self, name: Name) -> DrawnObject:
        try:
            site, number = name
            return self._objects[site, number]
        except KeyError:
            raise Refused("no-such-object") from None


def rebuild(drawn: DrawnObject, is_removed: Callable[[Operation], bool]) -> DrawnObject:
    """A copy of an object without some of its changes."""
    rebuilt = DrawnObject(drawn.creation, drawn.drawing)
    for change in drawn.changes:
        if not is_removed(change):
            rebuilt.add(change)
    return rebuilt
