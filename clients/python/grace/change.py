"""Changes that this client made, and the news that a room passes to its listeners."""

import time
from collections.abc import Mapping, Sequence
from concurrent.futures import Future
from dataclasses import dataclass, replace
from typing import TYPE_CHECKING

from .forms import GraceError, Name, Operation

if TYPE_CHECKING:
    from .drawing import Version


class Change:
    """A change that this client made: a creation, a put or a drop.

    `operation` is what was sent or will be sent. Its name changes if the client has to join as a new site. `object` is
    the name of the object that the change creates or modifies, and `kind` its kind. `version` is the version that
    contains this change, as it was directly after it. When the room is renewed, object and version become those of the
    new room.

    `done` is a `concurrent.futures.Future`. Its `result()` waits until the server has accepted the change, and raises
    `Refused` if the change failed. The word is the server's, or:
    - `withdrawn` if the server refused an earlier pending change of the same object;
    - `closed` if the room was closed first;
    - `another-room` if the server now has a different room of this name;
    - `renewed` if the drawing went on in another room without this change.

    A listener must not wait for `done`, because listeners run in the thread that receives the replies."""

    def __init__(self, operation: Operation, kind: str, made: float | None = None) -> None:
        self.kind = kind
        self.operation = operation
        self.object = operation.object
        self._version: Version | None = None
        self.done: Future[None] = Future()
        # So that nobody can cancel it.
        self.done.set_running_or_notify_cancel()
        # When the change was made, in seconds of `time.monotonic()`.
        self.made = time.monotonic() if made is None else made

    @property
    def name(self) -> Name:
        """The name of the operation. For a creation it is also the object's name."""
        return self.operation.name

    @property
    def version(self) -> "Version":
        """The version that contains this change. A change has one from the start."""
        assert self._version is not None
        return self._version

    def become(self, operation: Operation, version: "Version") -> None:
        """For the module alone: gives the change another operation."""
        self.operation = operation
        self.move_to(operation.object, version)

    def move_to(self, target: Name, version: "Version") -> None:
        """For the module alone: the change is now one of this object and version."""
        self.object, self._version = target, version

    def settle_with(self, others: "Sequence[Change]") -> None:
        """For the module alone: the change settles when these have."""

        def settle(_: "Future[None]") -> None:
            found = [it.done.exception() for it in others if it.done.done()]
            faults = [fault for fault in found if fault is not None]
            if self.done.done():
                return
            if faults:
                self.done.set_exception(faults[0])
            elif all(it.done.done() for it in others):
                self.done.set_result(None)

        for other in others:
            other.done.add_done_callback(settle)
        if not others:
            self.done.set_result(None)


def rename_operation(operation: Operation, names: Mapping[Name, Name], site: int, taken: int) -> Operation:
    """Renames an operation that no other site has seen, because this client is now another site. `names` has the new
    names of this client's operations. The result's state vector counts the first `taken` operations of the old site,
    and all earlier operations of the new one."""

    def new_name(name: Name) -> Name:
        return names.get(name, name)

    name = new_name(operation.name)
    counts = {**dict(operation.seen), site: taken}
    counts[name[0]] = name[1] - 1
    return replace(
        operation, name=name, object=new_name(operation.object),
        seen=tuple(sorted((other, count) for other, count in counts.items() if count)),
        version=operation.version and tuple(sorted(map(new_name, operation.version))),
    )


@dataclass(frozen=True)
class Changed:
    """News of the event `change`: these objects were created, changed or deleted. `renamed` lists the objects, and the
    operations of this client, that have a new name, each as a pair of old and new. An old name may be the new one of
    another object."""

    objects: list[Name]
    renamed: list[tuple[Name, Name]]


@dataclass(frozen=True)
class State:
    """News of the event `state`: `connecting`, `open`, `saving`, `waiting` or `closed`, and a sentence for people.
    `seconds` is how long the oldest change has been pending if the state is `saving`, otherwise 0."""

    state: str
    words: str
    seconds: float


@dataclass(frozen=True)
class Progress:
    """News of the event `progress`: how many entries of the record this client has, and how many the server has at
    least. The last news has `is_loaded` true."""

    have: int
    of: int
    is_loaded: bool


@dataclass(frozen=True)
class Refusal:
    """News of the event `refusal`: a change failed, and its effect was removed."""

    refusal: GraceError
    change: Change


@dataclass(frozen=True)
class Reset:
    """News of the event `reset`: the server now has a different room of this name, so the old objects are gone.
    `text` has the entries of the old record, then the pending changes, one entry a line."""

    words: str
    text: str


@dataclass(frozen=True)
class Noted:
    """News of the event `notes`: some note of the room has changed. `notes` is what `Room.notes` is now."""

    notes: dict[int, str]


@dataclass(frozen=True)
class Renewed:
    """News of the event `renewed`: the room `old_room` has ended, and the client is in `new_room`, which draws the
    same. The news `Changed` before it has the new names of objects. `copies` lists versions with pending changes that
    could not go on in their object: each as a pair of the object and the copy, an object of its own. If the pending
    changes could not be taken along, `text` has the old record and them, as for a reset; otherwise it is None."""

    old_room: str
    new_room: str
    words: str
    copies: list[tuple[Name, Name]]
    text: str | None
