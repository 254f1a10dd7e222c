"""What a client takes with it from a room that has ended into its successor. The successor's record begins with entries
that draw what the old record draws: the same objects and versions in the same order, under other names. So objects and
versions of the two rooms correspond by place."""

from __future__ import annotations

from collections.abc import Iterable, Sequence
from dataclasses import dataclass

from .drawing import Drawing, Version
from .forms import LIMITS, Attributes, Message, Name, Operation, Value, VersionId, operation_of, write_text

# The attributes of one request together take at most half of a message. The rest is for its state vector and base.
ATTRIBUTES_BYTES: int = LIMITS.message_bytes // 2


def drawing_of(entries: Iterable[Message]) -> Drawing:
    """The drawing after these entries."""
    drawing = Drawing()
    for entry in entries:
        operation = operation_of(entry)
        if operation is not None:
            drawing.add(operation)
    return drawing


def drawn_objects(drawing: Drawing) -> list[tuple[Name, list[Version]]]:
    """The objects that a drawing draws: those with a version that is not gone, in order of creation. Each is its name
    and these versions, in order of identifier."""
    objects = ((name, [it for it in drawing.versions(name) if not it.is_gone]) for name in drawing.names())
    return [(name, versions) for name, versions in objects if versions]


def draw_same(one: Drawing, other: Drawing) -> bool:
    """Whether two drawings draw the same, apart from names and identifiers."""
    return shown_by(one) == shown_by(other)


def shown_by(drawing: Drawing) -> list[tuple[str, list[dict[str, Value]]]]:
    """Kind and attributes of all that a drawing draws."""
    return [(drawing.kind(name), [it.attributes for it in versions]) for name, versions in drawn_objects(drawing)]


@dataclass(frozen=True)
class Group:
    """Operations to send, and the names of the pending ones whose effect they have."""

    operations: list[Operation]
    pending: list[Name]


@dataclass(frozen=True)
class Place:
    """A version of the old record, and the object and version of the successor that correspond to it. An object that
    the client creates in the successor has no old version."""

    old: Version | None
    object: Name
    version: Version


@dataclass(frozen=True)
class Continuation:
    """What a version of the old room has become. `old` is that version."""

    object: Name
    version: Version
    old: Version


class Transfer:
    """The pending changes of a client, as operations for the successor. Each version that the old room would show with
    them is shown there: as a version of its object where it continues one, otherwise as an object of its own.

    `groups` has the operations to send. `copies` lists the versions that could not go on as versions of their object:
    the object, and the one that each of them became."""

    def __init__(self, old: Drawing, every: Drawing, pending: Iterable[Name], following: Drawing, site: int) -> None:
        """`old` is the drawing of the old record, `every` that of the old record and the pending operations, which have
        the names `pending`. `following` is the successor's drawing after its first entries, which draws the same as
        `old`. It gets the operations to send, so their state vectors count these entries and the operations before
        them. `site` is the client's site in the successor."""
        self.groups: list[Group] = []
        self.copies: list[tuple[Name, Name]] = []
        self._every, self._following, self._site = every, following, site
        self._pending = set(pending)
        # By the name of an object: that of the corresponding one. By a version of `every`: what it has become.
        self._objects: dict[Name, Name] = {}
        self._versions: dict[Version, Continuation] = {}
        corresponding = {
            name: [Place(version, other, now) for version, now in zip(versions, others)]
            for (name, versions), (other, others) in zip(drawn_objects(old), drawn_objects(following))
        }
        for name in every.names():
            self._carry_object(name, corresponding.get(name, []))

    @property
    def renamed(self) -> list[tuple[Name, Name]]:
        """The objects that have another name in the successor, as pairs of old and new."""
        return [(old, now) for old, now in self._objects.items() if old != now]

    def continuations(self, name: Name, members: Sequence[Name]) -> list[Continuation]:
        """What the versions of an object have become that contain all these changes, as far as it belongs to the
        corresponding object. `name` is the old name."""
        if name not in self._objects:
            return []
        later = [it for it in self._every.versions(name) if all(map(it.has, members))]
        found = [self._versions[version] for version in later if version in self._versions]
        return [one for one in found if one.object == self._objects[name]]

    def find(self, name: Name, identifier: VersionId) -> Continuation | None:
        """What the version with this identifier that the old room showed at its end has become, or None. `name` is the
        object's old name."""
        versions = self._every.versions(name) if self._every.has(name) else []
        return next((self._versions.get(version) for version in versions if version.id == identifier), None)

    def _carry_object(self, name: Name, places: list[Place]) -> None:
        if places:
            self._objects[name] = places[0].object
        rest = list(places)
        for version in self._every.versions(name):
            pending = [member for member in (name, *version.members) if member in self._pending]
            recorded = {member for member in version.members if member not in self._pending}
            place = next((it for it in rest if it.old is not None and set(it.old.members) == recorded), None)
            if place is not None:
                rest.remove(place)
            if pending:
                self._carry(name, version, place, pending)
            elif place is not None:
                self._continue(version, place.object, place.version)

    def _continue(self, version: Version, target: Name, now: Version) -> None:
        self._versions[version] = Continuation(target, now, version)

    def _carry(self, name: Name, version: Version, place: Place | None, pending: list[Name]) -> None:
        """Makes the operations for a version with pending changes."""
        if version.is_gone:
            if place is not None:
                self.groups.append(Group([self._drop(place)], pending))
            return
        changed = differences(version, place.old) if place is not None else ()
        if place is not None and self._takes(place.object, changed):
            operations = self._puts(place.object, place.version, changed)
            self._continue(version, place.object, self._after(place, operations))
            if operations:
                self.groups.append(Group(operations, pending))
        else:
            self._create(name, version, pending)

    def _takes(self, target: Name, attributes: Attributes) -> bool:
        """Whether an object takes these attributes."""
        _, keys = self._following.used(target)
        return len(keys.union(key for key, _ in attributes)) <= int(LIMITS.keys)

    def _drop(self, place: Place) -> Operation:
        return self._operation("drop", place.object, version=self._current(place.object, place.version).id)

    def _create(self, name: Name, version: Version, pending: list[Name]) -> None:
        """Creates an object with the attributes of a version."""
        first, *more = portions(tuple(version.attributes.items())) or [()]
        creation = self._operation("new", None, kind=self._every.kind(name), attributes=first)
        made = Place(None, creation.name, self._following.versions(creation.name)[0])
        puts = self._puts(made.object, made.version, tuple(pair for some in more for pair in some))
        self.groups.append(Group([creation, *puts], pending))
        self._continue(version, made.object, self._after(made, puts))
        if name in self._objects:
            self.copies.append((self._objects[name], made.object))
        else:
            self._objects[name] = made.object

    def _puts(self, target: Name, version: Version, attributes: Attributes) -> list[Operation]:
        return [
            self._operation("put", target, version=self._current(target, version).id, attributes=some)
            for some in portions(attributes)
        ]

    def _current(self, target: Name, earlier: Version) -> Version:
        """The version that contains all changes of an earlier one. The client's own operations leave exactly one."""
        return next(it for it in self._following.versions(target) if all(map(it.has, earlier.members)))

    def _after(self, place: Place, operations: list[Operation]) -> Version:
        """The version that the last of these operations made; the corresponding one if there is none."""
        if not operations:
            return place.version
        return next(it for it in self._following.versions(place.object) if it.has(operations[-1].name))

    def _operation(
        self, word: str, target: Name | None, kind: str | None = None, version: VersionId | None = None,
        attributes: Attributes | None = None,
    ) -> Operation:
        """Adds the next operation of the client in the successor."""
        name = self._site, self._following.count(self._site) + 1
        operation = Operation(word, name, self._following.seen(), target or name, kind, version, attributes)
        self._following.add(operation)
        return operation


def differences(version: Version, old: Version | None) -> Attributes:
    """The attributes of a version that another one lacks, or has with other values."""
    known = old.attributes.items() if old is not None else ()
    return tuple(pair for pair in version.attributes.items() if pair not in known)


def portions(attributes: Attributes) -> list[Attributes]:
    """Attributes in portions, each for one request."""
    found: list[list[tuple[str, Value]]] = []
    size = 0
    for attribute in attributes:
        length = len(write_text(attribute).encode()) + 1
        if not found or len(found[-1]) == LIMITS.attributes or size + length > ATTRIBUTES_BYTES:
            found.append([])
            size = 0
        size += length
        found[-1].append(attribute)
    return [tuple(some) for some in found]
