"""A client that speaks TLS to a relay with a certificate of its own."""

import pathlib
import shutil
import ssl
import subprocess
import tempfile
import unittest

from grace import Room
from relay import Relay
from rooms import EventLog, agree, wait_until, open_rooms, versions_of
from lib.serving import Server


class TestTls(unittest.TestCase):
    def certificate(self, folder):
        """A self-signed certificate for this machine, with its key: the two files."""
        if shutil.which("openssl") is None:
            raise unittest.SkipTest("there is no openssl here")
        files = [pathlib.Path(folder) / name for name in ("certificate.pem", "key.pem")]
        subprocess.run(
            ["openssl", "req", "-x509", "-newkey", "rsa:2048", "-nodes", "-days", "2", "-subj", "/CN=localhost",
             "-addext", "subjectAltName=DNS:localhost,IP:127.0.0.1", "-out", files[0], "-keyout", files[1]],
            check=True, capture_output=True,
        )
        return files

    def test_over_tls(self):
        """A client that trusts the certificate draws, and comes back after a cut. One that does not reports the
        reason."""
        with tempfile.TemporaryDirectory() as folder, Server(10, 4) as server:
            files = self.certificate(folder)
            own = ssl.SSLContext(ssl.PROTOCOL_TLS_SERVER)
            own.load_cert_chain(*files)
            trusting = ssl.create_default_context(cafile=files[0])
            with Relay(server.address[1], own) as relay:
                address = f"wss://{relay.name}/"
                with open_rooms(address, context=trusting) as (room,), open_rooms(server.name) as (other,):
                    made = room.create("rect", {"x": 0})
                    agree(room, other)
                    # A record of several pages, and replies of several records of TLS.
                    for _ in range(150):
                        other.create("rect", {f"k{key}": "é" * 120 for key in range(16)})
                    agree(other, room)
                    relay.cut()
                    room.set(made.name, (), "x", 5)
                    agree(room, other)
                    self.assertEqual(versions_of(other, made.name), [((), {"x": 5})], "what the other shows")
                    self.assertEqual(room.objects(), other.objects(), "the objects")
                    self.assertEqual(room.site, 1, "the site")
                events = EventLog("state")
                with Room(address, "r", listeners=events.listeners):
                    wait_until("the news", lambda: any(it.state == "waiting" for it in events.of("state")))
                words = events.of("state")[1].words
                self.assertIn("certificate verify failed", words, "whether the words say why")
