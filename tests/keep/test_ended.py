"""Kept rooms whose record has ended."""

import unittest

from lib.keeping import KeepingServer, bytes_of, room_folder
from lib.worked import RECORD
ENDED = "".join(f"{line}\n" for line in [*RECORD, '["next",2]']).encode()
NEXT = "".join(f"{line}\n" for line in RECORD[:2]).encode()
VERSIONS = '["versions",6,[1,1],"rect",[[[[1,2]],[["x",5]]],[[[2,1]],[["x",9]]]]]'

# What a session asks of the room, and what it is answered.
EXCHANGES = [
    ('["join","r"]', '["renewed",0,"r.2"]'),
    ('["back","r",2]', '["back",6,2,1]'),
    ('["new",2,[[2,1]],"rect",[]]', '["no",6,22,"renewed"]'),
    ('["put",2,[[1,1],[2,1]],[1,1],[],[["x",1]]]', '["no",6,22,"renewed"]'),
    ('["drop",2,[[1,1],[2,1]],[1,1],[]]', '["no",6,22,"renewed"]'),
    ('["show",[1,1]]', VERSIONS),
    ('["list",0]', '["objects",6,0,1,[[[1,1],"rect"]]]'),
    ('["pull",5]', '["entries",6,5,[["next",2]]]'),
    ('["leave"]', '["left",6]'),
]


class TestEnded(unittest.TestCase):
    time_limit = 60

    def test_room_that_has_ended(self):
        """A room that has ended is read as before. Nothing is added to it, and its file and that of the next room stay
        as they are."""
        with room_folder({"r": ENDED, "r.2": NEXT}) as folder:
            with KeepingServer(folder, sessions=1) as server:
                client = server.client()
                for request, reply in EXCHANGES:
                    client.expect_reply(request, reply)
                client.close()
                lines = server.output()
                self.assertEqual(server.process.returncode, 0, "the status")
            self.assertEqual(lines, ["room r.2 2", *RECORD[:2], "room r 6", *ENDED.decode().splitlines()], "the output")
            self.assertEqual((bytes_of(folder, "r"), bytes_of(folder, "r.2")), (ENDED, NEXT), "the files")
