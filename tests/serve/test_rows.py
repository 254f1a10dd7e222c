"""The worked examples, each client over its own WebSocket."""

import itertools
import unittest

from lib.rows import ROWS, lines_of, rooms_of
from lib.serving import Server
from lib.websocket_client import BINARY, TEXT

KINDS = ("text", TEXT), ("binary", BINARY)


class TestRows(unittest.TestCase):
    def test_rows(self):
        """Each client sends its requests over its WebSocket."""
        for (name, rows), (kind, opcode) in itertools.product(ROWS, KINDS):
            count = max(client for client, _, _ in lines_of(rows))
            with self.subTest(f"{name}, as {kind}"), Server(count, count, rooms_of(rows)) as server:
                clients = [server.client() for _ in range(count)]
                for client, request, reply in lines_of(rows):
                    clients[client - 1].expect_reply(request, reply, opcode)
                server.finish()

    def test_white_space(self):
        """A message may have any white space of JSON, also line feeds."""
        with Server() as server:
            client = server.client()
            client.expect_reply('[\r\n"join",\t"r" ]', '["joined",0,1]')
            client.expect_reply('["show",\n[ 1 ,\t1 ]\r]', '["no",1,11,"no-such-object"]')
            server.finish()
