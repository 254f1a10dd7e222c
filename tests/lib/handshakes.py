"""Handshakes that open no WebSocket."""

from lib.websocket_client import head

KEY = "dGhlIHNhbXBsZSBub25jZQ=="
PLAIN = b"GET / HTTP/1.1\r\nHost: localhost\r\nAccept: */*\r\n\r\n"
HANDSHAKES = [
    ("a plain HTTP request", PLAIN),
    ("a POST", head(KEY).replace(b"GET", b"POST")),
    ("HTTP/1.0", head(KEY).replace(b"HTTP/1.1", b"HTTP/1.0")),
    ("a handshake of another version", head(KEY, version=8)),
    ("a handshake with no key", head(KEY).replace(b"Sec-WebSocket-Key", b"X-Key")),
    ("a handshake with a short key", head("AAAA")),
    ("a hello of TLS", b"\x16\x03\x01\x02\x00\x01\x00\x01\xfc\x03\x03" + bytes(range(200))),
    ("garbage", bytes(range(255, 0, -1)) * 4),
    ("a head without an end", b"GET / HTTP/1.1\r\n" + b"X-Long: value\r\n" * 5000),
]
