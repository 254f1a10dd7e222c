"""Checks of arguments: room names, kinds, keys, values, notes, object names, version identifiers, and fields of the
handshake. An error message starts with the key or the argument, and says what is wrong with it."""

import re
from collections.abc import Iterable, Mapping
from typing import TypeGuard

from .forms import LIMITS, Attributes, Name, Value, VersionId

# What programs may pass as attributes, or as fields of the handshake: a dictionary or pairs.
GivenAttributes = Mapping[str, Value] | Iterable[tuple[str, Value]]
GivenHeaders = Mapping[str, str] | Iterable[tuple[str, str]]
# What programs may pass as the name of an object.
GivenName = Name | list[int]

WORD = re.compile(r"[a-z0-9-]+")
LEAST, MOST = -(2**63), 2**63 - 1
FIELD_NAME = re.compile(r"[!#$%&'*+.^_`|~0-9A-Za-z-]+")
FIELD_VALUE = re.compile(r"[\t -~]*")
# The fields that each handshake has by itself, in lower case.
OWN_FIELDS = {"host", "upgrade", "connection", "sec-websocket-version", "sec-websocket-key"}


def as_word(what: str, word: object, most: int) -> str:
    """Checks a word of at most `most` characters. Raises `TypeError` if it is not a string, `ValueError` if it has
    other characters or a wrong length."""
    if not isinstance(word, str):
        raise TypeError(f"{what} must be a string, not {word!r:.80}")
    if len(word) > most or not WORD.fullmatch(word):
        raise ValueError(f"{what} {word!r:.80} isn't 1 to {most} of a-z, 0-9 and -")
    return word


def as_room_name(name: object) -> str:
    """Checks the name of a room."""
    return as_word("the room's name", name, LIMITS.room_bytes)


def as_kind(kind: object) -> str:
    """Checks the kind of an object."""
    return as_word("the kind", kind, LIMITS.word_bytes)


def as_value(value: object, key: str) -> Value:
    """Checks a value. Raises `TypeError` if it is neither an integer nor a string. Raises `ValueError` if an integer
    exceeds 64 bits, or a string exceeds 256 bytes in UTF-8 or has an unpaired surrogate."""
    if isinstance(value, str):
        return as_text(value, key)
    if not isinstance(value, int) or isinstance(value, bool):
        raise TypeError(f"{key}: a value must be an integer or a string, not {value!r:.80}")
    if not LEAST <= value <= MOST:
        raise ValueError(f"{key}: {value} is outside the 64-bit range from -2^63 to 2^63 - 1")
    return value


def as_note(text: object) -> str:
    """Checks a note. Raises `TypeError` if it is not a string. Raises `ValueError` if it exceeds 256 bytes in UTF-8 or
    has an unpaired surrogate."""
    if not isinstance(text, str):
        raise TypeError(f"the note must be a string, not {text!r:.80}")
    return as_text(text, "the note")


def as_text(text: str, key: str) -> str:
    """Checks a string value or a note."""
    try:
        size = len(text.encode())
    except UnicodeEncodeError as fault:
        raise ValueError(f"{key}: the string has an unpaired surrogate at index {fault.start}") from None
    if size > LIMITS.text_bytes:
        raise ValueError(f"{key}: the string has {size} bytes in UTF-8; the limit is {LIMITS.text_bytes}")
    return text


def as_attributes(attributes: GivenAttributes) -> Attributes:
    """Checks the attributes of a new object or of a put: a dictionary, or pairs of a key and a value."""
    pairs = attributes.items() if isinstance(attributes, Mapping) else attributes
    read = tuple((as_word("the key", key, LIMITS.word_bytes), as_value(value, key)) for key, value in pairs)
    keys = [key for key, _ in read]
    for key in keys:
        if keys.count(key) > 1:
            raise ValueError(f"{key}: the key appears twice")
    if len(read) > LIMITS.attributes:
        raise ValueError(f"{len(read)} attributes; the limit is {LIMITS.attributes}")
    return read


def as_pairs(attributes: GivenAttributes) -> Attributes:
    """Checks the attributes of a put, which needs at least one."""
    read = as_attributes(attributes)
    if not read:
        raise ValueError("a put needs at least one attribute")
    return read


def is_name(name: object) -> TypeGuard[Name]:
    """Whether it is the name of an operation, such as (1, 2)."""
    return isinstance(name, (tuple, list)) and len(name) == 2 and all(isinstance(part, int) for part in name)


def as_name(name: object) -> Name:
    """Checks the name of an object."""
    if not is_name(name):
        raise TypeError(f"the object must be a name such as (1, 2), not {name!r:.80}")
    site, number = name
    return site, number


def as_id(version: object) -> VersionId:
    """Checks a base: a `Version` or its identifier."""
    names = getattr(version, "id", version)
    if not isinstance(names, (tuple, list)) or not all(map(is_name, names)):
        raise TypeError("the version must be a Version or its identifier")
    return tuple(sorted(map(as_name, names)))


def as_headers(headers: GivenHeaders) -> tuple[tuple[str, str], ...]:
    """Checks further fields of the handshake: a dictionary, or pairs of a name and a value. Returns the pairs."""
    pairs = headers.items() if isinstance(headers, Mapping) else headers
    return tuple(as_field(name, value) for name, value in pairs)


def as_field(name: object, value: object) -> tuple[str, str]:
    """Checks a field. Raises `TypeError` if the name or the value is not a string. Raises `ValueError` if the name is
    none of HTTP or one that each handshake has, or the value has more than printable ASCII. No message has the value,
    which may be a secret."""
    if not isinstance(name, str) or not FIELD_NAME.fullmatch(name):
        raise (ValueError if isinstance(name, str) else TypeError)(f"{name!r:.80} is not the name of a header field")
    if name.lower() in OWN_FIELDS:
        raise ValueError(f"{name}: the handshake has this field by itself")
    if not isinstance(value, str):
        raise TypeError(f"{name}: the value of a header field must be a string")
    if not FIELD_VALUE.fullmatch(value):
        raise ValueError(f"{name}: the value of a header field must be printable ASCII")
    return name, value
