"""A client's copy of a room, and its pending changes. Callers hold the room's lock."""

import weakref
from collections.abc import Callable, Iterable, Mapping, Sequence
from dataclasses import dataclass
from typing import TYPE_CHECKING

from .change import Change, Changed, Progress, Refusal, Renewed, Reset, rename_operation
from .arguments import as_id, as_name
from .drawing import Drawing, Version
from .forms import (
    LIMITS, Attributes, GraceError, Message, Name, Operation, Refused, Seen, VersionId, entry_of, operation_of,
    request_of, write_text,
)
from .transfer import Continuation, Group, Transfer

if TYPE_CHECKING:
    from .entrance import Following

OTHER_ROOM = "The room was started again, and your old drawing is not in it."
GOES_ON = "This drawing goes on in another room."
LEFT_BEHIND = "This drawing went on in another room without your last changes."


@dataclass(frozen=True)
class Passage:
    """What became of the room before: its drawing, the transfer from it, and the later names of operations there."""

    drawing: Drawing
    transfer: Transfer
    later_names: dict[Name, Name]


class RoomState:
    """The pulled entries of the record, the drawing that is shown, and the pending changes. `emit` reports events: it
    takes the event's name and its news."""

    def __init__(self, emit: Callable[[str, object], None]) -> None:
        self.emit = emit
        self.holds = 0
        self.is_closed = False
        # Whether the client is joining or rejoining. It shows nothing new until its site is certain.
        self.is_entering = False
        # Whether the room takes nobody new, so that the client only looks at it, now and then, as a site that is free.
        self.is_looking = False
        self._reset()

    def _reset(self) -> None:
        self.site: int | None = None
        self.record: list[Message] = []
        self.drawing = Drawing()
        # How many entries of the record are shown, and how many the server has at least.
        self.shown_count = 0
        self.length = 0
        self.is_loaded = False
        self.pending: list[Change] = []
        # Own changes that the server has accepted, but that no pull has returned yet.
        self._accepted_unpulled: list[Change] = []
        # By object: the index of its creation in the record.
        self._creation_places: dict[Name, int] = {}
        # The later names of operations of this client's earlier sites.
        self._later_names: dict[Name, Name] = {}
        # What objects and versions of the room before have become, or None.
        self._passage: Passage | None = None
        # The changes that a program still holds.
        self._held: weakref.WeakSet[Change] = weakref.WeakSet()

    # ---- reading

    def count(self, length: int) -> None:
        """The room has this many entries. While the client has none of them, an earlier count may be another room's,
        and goes."""
        self.length = max(self.length, length) if self.record else length

    @property
    def lacks(self) -> bool:
        """Whether the server is known to have more entries."""
        return len(self.record) < self.length

    @property
    def has_ended(self) -> bool:
        """Whether the record has ended."""
        return bool(self.record) and self.record[-1][0] == "next"

    @property
    def has_news(self) -> bool:
        """Whether some pulled entries are not shown yet."""
        return self.shown_count < len(self.record)

    def progress(self) -> Progress:
        """How many entries of the room are loaded."""
        return Progress(len(self.record), max(self.length, len(self.record)), self.is_loaded)

    def objects(self) -> list[Name]:
        """The shown objects in the order of the record. Own objects that the record lacks come last."""
        return sorted(self.drawing.names(), key=lambda name: self._creation_places.get(name, int(LIMITS.entries)))

    def successors(self, target: Name, version: Version) -> list[Version]:
        """The current versions that contain all changes of an earlier version."""
        if version.owner.drawing is not self.drawing:
            found = [self.successors(one.object, one.version) for one in self._continuations(version)]
            return list(dict.fromkeys(later for some in found for later in some))
        if not self.drawing.has(target):
            return []
        members = [current_name(name, self._later_names) for name in version.members]
        return [later for later in self.drawing.versions(target) if all(map(later.has, members))]

    def _continuations(self, version: Version) -> list[Continuation]:
        """What a version of the room before has become."""
        passage = self._passage
        if passage is None or version.owner.drawing is not passage.drawing:
            return []
        target, *members = (
            current_name(name, passage.later_names) for name in (version.owner.creation.name, *version.members)
        )
        return passage.transfer.continuations(target, members)

    def _base_of(self, target: Name, version: Version | VersionId) -> tuple[Name, VersionId]:
        """What a change builds on: the object, and the identifier of the version. A `Version` of the room before stands
        for the one that it became."""
        if not isinstance(version, Version) or version.owner.drawing is self.drawing:
            return as_name(target), as_id(version)
        passage = self._passage
        found = None
        if passage is not None and version.owner.drawing is passage.drawing:
            old_name = current_name(version.owner.creation.name, passage.later_names)
            found = passage.transfer.find(old_name, version.id)
        if found is None:
            raise Refused("no-such-version")
        return found.object, found.version.id

    # ---- changing

    def create(self, kind: str, attributes: Attributes) -> Change:
        """Creates an object."""
        if self.drawing.size >= LIMITS.objects:
            raise Refused("too-many-objects")
        name, seen = self._next()
        return self._change(Operation("new", name, seen, name, kind=kind, attributes=attributes))

    def change_version(
        self, word: str, target: Name, version: Version | VersionId, attributes: Attributes | None = None,
    ) -> Change:
        """Makes a put or a drop if the server would accept it. The checks have the server's order, so the word is the
        same."""
        target, base = self._base_of(target, version)
        name, seen = self._next()
        operation = Operation(word, name, seen, target, version=base, attributes=attributes)
        self.drawing.check(operation)
        changes, keys = self.drawing.used(target)
        if changes >= LIMITS.changes:
            raise Refused("object-full")
        if word == "put" and len(keys.union(key for key, _ in attributes or ())) > LIMITS.keys:
            raise Refused("too-many-keys")
        return self._change(operation)

    def _next(self) -> tuple[Name, Seen]:
        """The name and the state vector of the next operation."""
        if self.is_closed:
            raise Refused("closed")
        if self.site is None:
            raise Refused("read-only" if self.is_looking else "not-joined")
        if len(self.record) + len(self.pending) >= LIMITS.entries:
            raise Refused("record-full")
        return (self.site, self.drawing.count(self.site) + 1), self.drawing.seen()

    def _change(self, operation: Operation) -> Change:
        request_of(operation)
        change = Change(operation, operation.kind or self.drawing.kind(operation.object))
        self._held.add(change)
        self._draw(change, operation)
        self.pending.append(change)
        self._emit_change([operation.object])
        return change

    def _draw(self, change: Change, operation: Operation) -> None:
        """Shows a change of this client under this operation."""
        self.drawing.add(operation)
        change.become(operation, version_with(operation, self.drawing))

    def hold(self) -> None:
        """Stops showing new entries until the hold is released."""
        self.holds += 1

    def release_hold(self) -> None:
        """Releases a hold."""
        self.holds -= 1
        self.show()

    # ---- replies of the server

    def append(self, entries: Iterable[Message]) -> None:
        """Appends the next entries of the record, and shows them unless there is a hold."""
        for entry in entries:
            operation = operation_of(entry)
            self.record.append(entry)
            if operation is not None:
                self._settle_if_own(operation)
        self.show()

    def _settle_if_own(self, operation: Operation) -> None:
        """Handles an operation of the record. If it is this client's next change, that change is settled."""
        if self.pending and self.pending[0].operation == operation:
            self.settle_first()
        elif self._accepted_unpulled and self._accepted_unpulled[0].operation == operation:
            self._accepted_unpulled.pop(0)

    def accepted(self, change: Change, at: int) -> None:
        """The server has accepted the oldest pending change, whose entry has this index in the record."""
        self.length = max(self.length, at + 1)
        if at == len(self.record):
            self.append([entry_of(change.operation)])
        else:
            self._accepted_unpulled.append(change)
            self.settle_first()

    def settle_first(self) -> None:
        """Settles the oldest pending change: the server has accepted it."""
        self.pending.pop(0).done.set_result(None)

    def show(self) -> None:
        """Shows all pulled entries, unless there is a hold."""
        if not self.is_entering and self.holds == 0:
            self._show_all()

    def _show_all(self) -> None:
        changed = []
        for place in range(self.shown_count, len(self.record)):
            self.shown_count = place + 1
            operation = operation_of(self.record[place])
            if operation is not None and self._show_one(operation, place):
                changed.append(operation.object)
        if changed:
            self._emit_change(changed)

    def _show_one(self, operation: Operation, place: int) -> bool:
        """Shows an operation of the record. Returns whether its object has changed."""
        is_new = operation.word == "new"
        if is_new:
            self._creation_places[operation.name] = place
        site, number = operation.name
        if number <= self.drawing.count(site):
            return is_new
        self.drawing.add(operation)
        return True

    def become_site(self, site: int) -> None:
        """Continues as a new site. Its changes that the record lacks become changes of the new site."""
        old, self.site = self.site, site
        if self.pending and old is not None:
            self._rename(old, self.pending[0].name[1], self.pending)

    def withdraw(self, refused: Change, refusal: Refused) -> None:
        """Removes a refused change, and all later pending changes of the same object."""
        behind = [change for change in self.pending if change is not refused]
        withdrawn = [change for change in behind if change.object == refused.object]
        self.pending = [change for change in behind if change.object != refused.object]
        self._rename(refused.name[0], refused.name[1], self.pending, [refused.object])
        self.fail([refused], refusal)
        self.fail(withdrawn, Refused("withdrawn"))

    def _rename(self, site: int, first: int, changes: Sequence[Change], also_changed: Sequence[Name] = ()) -> None:
        """Removes all operations of a site from this number on, then draws these changes again as operations of the
        current site. No other client has seen any of them."""
        names: dict[Name, Name] = {}
        assert self.site is not None
        changed = [*also_changed, *(change.object for change in changes)]
        self.drawing.remove(site, first)
        for change in changes:
            old = change.operation
            names[old.name] = self.site, self.drawing.count(self.site) + 1
            if site != self.site:
                self._later_names[old.name] = names[old.name]
            self._draw(change, rename_operation(old, names, site, first - 1))
            changed.append(change.object)
        self._emit_change(changed, list(names.items()))

    def discard_room(self) -> None:
        """Discards the old room's state, and reports it with `reset`."""
        pending, text = self._give_up()
        self.emit("reset", Reset(OTHER_ROOM, text))
        self.fail(pending, Refused("another-room"))

    def leave_behind(self, old_room: str, new_room: str) -> None:
        """Discards the old room's state, as it can no longer be read. The drawing goes on in another room."""
        pending, text = self._give_up()
        is_lost = bool(pending)
        words = LEFT_BEHIND if is_lost else GOES_ON
        self.emit("renewed", Renewed(old_room, new_room, words, [], text if is_lost else None))
        self.fail(pending, Refused("renewed"))

    def _give_up(self) -> tuple[list[Change], str]:
        """Discards the room's state. Returns the pending changes, and the text of the record without its end and of
        these."""
        behind = [entry_of(change.operation) for change in (*self._accepted_unpulled, *self.pending)]
        text = "".join(f"{write_text(entry)}\n" for entry in (*self.record, *behind) if entry[0] != "next")
        pending, gone = self.pending, self.drawing.names()
        self._reset()
        self._emit_change(gone)
        return pending, text

    def go_on_in(self, following: "Following", old_room: str, old: Drawing, drawing: Drawing) -> None:
        """Makes the successor of the room, which has ended, the client's room. `old` is the drawing of the old record,
        `drawing` that of the successor's first entries, which draws the same."""
        self._show_all()
        count = self.record[-1][1]
        pending, every = self.pending, self.drawing
        transfer = Transfer(old, every, [change.name for change in pending], drawing, following.site)
        self._passage = Passage(every, transfer, self._later_names)
        self._take_record(following, drawing, count)
        self.pending = take_along(pending, transfer.groups, drawing)
        self._move_held()
        self._emit_change([*every.names(), *drawing.names()], transfer.renamed)
        self.emit("renewed", Renewed(old_room, following.name, GOES_ON, transfer.copies, None))

    def _take_record(self, following: "Following", drawing: Drawing, count: int) -> None:
        """Takes another record, of which the drawing shows the first entries."""
        self.is_looking = False
        self.site, self.record, self.drawing = following.site, following.record, drawing
        self.shown_count, self.length = count, len(following.record)
        self._accepted_unpulled = []
        self._later_names = {}
        self._creation_places = {
            entry[1]: place for place, entry in enumerate(following.record[:count]) if entry[0] == "new"
        }

    def _move_held(self) -> None:
        """All changes but those that are sent again become changes of the objects and versions that correspond."""
        self._held.update(self.pending)
        for change in set(self._held).difference(self.pending):
            found = self._continuations(change.version)
            if found:
                change.move_to(found[0].object, found[0].version)

    def fail(self, changes: Iterable[Change], refusal: GraceError) -> None:
        """Reports that these changes have failed."""
        for change in changes:
            change.done.set_exception(refusal)
            self.emit("refusal", Refusal(refusal, change))

    def close(self) -> None:
        """Fails all pending changes."""
        self.is_closed = True
        pending, self.pending = self.pending, []
        self.fail(pending, Refused("closed"))

    def _emit_change(self, objects: Iterable[Name], names: Iterable[tuple[Name, Name]] = ()) -> None:
        self.emit("change", Changed(list(dict.fromkeys(objects)), list(names)))


def current_name(name: Name, later_names: Mapping[Name, Name]) -> Name:
    """The latest name of an operation."""
    while name in later_names:
        name = later_names[name]
    return name


def version_with(operation: Operation, drawing: Drawing) -> Version:
    """The version of a drawing that contains an operation."""
    versions = drawing.versions(operation.object)
    return next(it for it in versions if operation.word == "new" or it.has(operation.name))


def take_along(pending: Sequence[Change], groups: Iterable[Group], drawing: Drawing) -> list[Change]:
    """The pending changes after a transfer. Of each group of operations, the last is that of the last change whose
    effect the group has. The other changes settle with the groups that have their effect."""
    changes = {change.name: change for change in pending}
    settled_by: dict[Change, list[Change]] = {change: [] for change in pending}
    taken: list[Change] = []
    for group in groups:
        own = [changes[name] for name in group.pending]
        last = next((change for change in reversed(own) if change not in taken), None)
        *first, final = group.operations
        carriers = [Change(operation, own[0].kind, own[0].made) for operation in first]
        carriers.append(last or Change(final, own[0].kind, own[0].made))
        for change, operation in zip(carriers, group.operations):
            change.become(operation, version_with(operation, drawing))
        for change in own:
            settled_by[change].append(carriers[-1])
        taken += carriers
    for change in pending:
        if change not in taken:
            change.settle_with(settled_by[change])
    return taken
