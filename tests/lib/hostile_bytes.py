"""Hostile bytes for a server. The same random source produces the same bytes; each function takes it first."""

import base64

from lib import websocket_client
from lib.frame_reader import LONGEST_MESSAGE
from lib.websocket_client import BINARY, CLOSE, CONTINUATION, PING, PONG, TEXT, closing, header

RESERVED_OPCODES = [3, 4, 5, 6, 7, 11, 12, 13, 14, 15]
LEAVE = b'["leave"]'


def frame(source, opcode, payload=b"", masked=True, **options):
    """Returns a frame, with a random mask unless `masked` is false."""
    key = source.randbytes(4) if masked else None
    return websocket_client.frame(opcode, payload, masked, key, **options)


def key(source):
    """Returns a random key for a handshake."""
    return base64.b64encode(source.randbytes(16)).decode()


def data_opcode(source):
    """Returns the opcode of a text or a binary message."""
    return source.choice((TEXT, BINARY))


def with_byte_changed(source, data):
    """Returns the bytes with one of them changed."""
    place = source.randrange(len(data))
    return data[:place] + bytes([data[place] ^ source.randrange(1, 256)]) + data[place + 1 :]


def cut(source, data):
    """Splits the bytes at random places into up to four pieces."""
    places = sorted(source.randrange(len(data) + 1) for _ in range(source.randrange(4)))
    return [data[start:end] for start, end in zip([0, *places], [*places, len(data)])]


def prefix_of(source, data):
    """Returns a proper prefix of the bytes, possibly empty."""
    return data[: source.randrange(len(data))]


def in_fragments(source, opcode, parts):
    """Returns the frames of a message, one fragment for each part."""
    last = len(parts) - 1
    return [
        frame(source, CONTINUATION if place else opcode, part, final=place == last)
        for place, part in enumerate(parts)
    ]


# ---- forbidden by RFC 6455


def reserved_bits(source):
    """Returns a frame with one, two or three reserved bits set."""
    opcode = source.choice((TEXT, BINARY, PING, PONG, CLOSE))
    payload = closing(1000) if opcode == CLOSE else LEAVE
    return frame(source, opcode, payload, reserved=source.randrange(1, 8))


def reserved_opcode(source):
    """Returns a frame with a reserved opcode."""
    return frame(source, source.choice(RESERVED_OPCODES), source.randbytes(source.randrange(126)))


def bad_control(source):
    """Returns an invalid ping, pong or close: too long, fragmented, or with an invalid payload."""
    opcode = source.choice((PING, PONG, CLOSE))
    front = closing(1000) if opcode == CLOSE else b""
    bad_closes = [b"\x03", closing(1000) + b"\xff", closing(3999) + b"ok\xc3"]
    return source.choice((
        frame(source, opcode, front + b"x" * source.randrange(126, 3000)),
        frame(source, opcode, front + b"x" * source.randrange(100), final=False),
        frame(source, CLOSE, source.choice(bad_closes)),
    ))


def out_of_place(source):
    """Returns a continuation without a message, or a new message inside a fragmented one."""
    opcode, final = data_opcode(source), source.random() < 0.5
    return source.choice((
        frame(source, CONTINUATION, LEAVE, final=final),
        frame(source, PING) + frame(source, CONTINUATION, b"", final=final),
        frame(source, opcode, b"[", final=False) + frame(source, data_opcode(source), LEAVE, final=final),
        b"".join(in_fragments(source, opcode, [b"[", b"1", b"]"])) + frame(source, CONTINUATION, LEAVE, final=final),
    ))


def unmasked(source):
    """Returns a frame without a mask."""
    opcode = source.choice((TEXT, BINARY, PING, PONG, CLOSE, CONTINUATION))
    payload = closing(1000) if opcode == CLOSE else LEAVE
    return frame(source, opcode, payload, masked=False)


def invalid_utf8(source):
    """Returns a text message that is not UTF-8: a truncated sequence, a stray byte, an overlong form, a surrogate, or a
    value above U+10FFFF."""
    bad = source.choice((b"\xc3", b"\xe2\x82", b"\x80", b"\xff", b"\xc0\xaf", b"\xed\xa0\x80", b"\xf4\x90\x80\x80"))
    text = b'["join","' + "é€".encode() * source.randrange(3) + bad + b'"]'
    if source.random() < 0.5:
        return frame(source, TEXT, text)
    return b"".join(in_fragments(source, TEXT, cut(source, text)))


def too_long(source):
    """Returns a header that declares more than a message may have, and the start of the payload. Some lengths have the
    top bit set or are not in their shortest form."""
    any_length = source.randrange(LONGEST_MESSAGE + 1, 1 << 63)
    wide = source.choice((LONGEST_MESSAGE + 1, 1 << 20, 1 << 32, (1 << 63) - 1, any_length))
    long_by, length = source.choice((
        (8, wide), (8, 1 << 63 | wide), (8, (1 << 64) - 1), (8, source.randrange(65_536)), (2, source.randrange(126)),
    ))
    first = bytes([source.choice((0x80, 0)) | data_opcode(source), 0x80 | (127 if long_by == 8 else 126)])
    return first + length.to_bytes(long_by, "big") + source.randbytes(4 + source.randrange(2000))


def a_megabyte(source):
    """Returns a million bytes that are not a frame, a frame of a million bytes, or such a message in fragments."""
    opcode, data = data_opcode(source), b" " * 1_000_000
    return source.choice((
        lambda: b"a" * 1_000_000,
        lambda: frame(source, opcode, data),
        lambda: b"".join(in_fragments(source, opcode, [data[:100_000]] * 10)),
    ))()


# ---- allowed by RFC 6455, but no valid request


def long_frame_start(source):
    """Returns the start of a valid frame that declares up to the longest message."""
    length = source.choice((126, 65_535, 65_536, LONGEST_MESSAGE, source.randrange(126, LONGEST_MESSAGE)))
    return header(data_opcode(source), length) + source.randbytes(4 + source.randrange(min(length, 4000)))


NUMBERS = ["-1", "65536", "1.0", "1e0", "-0", "1e999", "1" + "0" * 400, "18446744073709551616", "null", '"1"', "[1]"]
FORMS = [
    "", " ", "{}", "null", "[]", "1", '"join"', '["join"]', '["join",1]', '["join","R"]', '["join",""]',
    '["join","r","r"]', '["sit"]', '["leave",1]', '["show"]', '["show",[1]]', '["show",[0,1]]', '["show",[257,1]]',
    '["show",[1,16385]]', '["new",0,[],"rect",[]]', '["new",1,[[1,0]],"rect",[]]', '["new",1,[],"Rect",[]]',
    '["new",1,[[2,1],[1,1]],"rect",[]]', '["new",1,[],"rect",[["x",1],["x",2]]]', '["new",1,[],"rect",[["x",1.5]]]',
    '["new",1,[],"rect",[["x",9223372036854775808]]]', '["set",1,[],[1,1],[[2,1],[1,1]],"x",1]',
    '["set",1,[],[1,1],[],"x","\\ud800"]', '["set",1,[],[1,1],[],"x",true]', '["list",0,0]', '["pull","0"]', "\0",
    '["join","' + "r" * 65 + '"]', '["new",1,[],"rect",[["x","' + "v" * 257 + '"]]]', '{"join":"r"}', '["join","r"]]',
]


def invalid_request(source):
    """Returns UTF-8 that is not a valid request. The server answers each with bad-message."""
    return source.choice((
        lambda: b"[" * source.randrange(1, 16_000),
        lambda: (lambda depth: b"[" * depth + b"]" * depth)(source.randrange(2, 8000)),
        lambda: b"a" * 100_000,
        lambda: f'["{source.choice(("list", "pull", "wait"))}",{source.choice(NUMBERS)}]'.encode(),
        lambda: source.choice(FORMS).encode(),
        lambda: LEAVE.ljust(source.randrange(16_385, LONGEST_MESSAGE)),
        lambda: ('["sit","' + chr(source.randrange(0xE000, 0x110000)) + '"]').encode(),
    ))()


def join_missing_room(source):
    """Returns a join of a room that does not exist."""
    letters = "".join(source.choice("abcdefghijklmnopqrstuvwxyz0123456789") for _ in range(source.randrange(9, 65)))
    return f'["join","{letters}"]'.encode()
