"""`grace watch` against a server whose replies are given: what it asks, what it shows, and how it ends."""

import itertools
import subprocess
import unittest

from lib.checks import check
from lib.scripted_server import ScriptedServer
from lib.serving import Server, program, run
from lib.websocket_client import SECONDS

FAILED = 3, "", "grace: session failed\n"
ENTRIES = ['["join",1]', '["new",[1,1],[],"rect",[["x",0]]]', '["join",2]']
SHOWN = '["versions",3,[1,1],"rect",[[[],[["x",0]]]]]\n'
# Requests with their replies in a room with one object, where nobody is in the room as site 2.
TALK = [
    ('["back","r",1]', '["no",3,20,"site-in-use"]'),
    ('["back","r",2]', '["back",3,2,0]'),
    ('["pull",0]', f'["entries",3,0,[{",".join(ENTRIES)}]]'),
    ('["leave"]', '["left",3]'),
]


def page(at, place, entries):
    """Returns the reply to a pull."""
    return f'["entries",{at},{place},[{",".join(entries)}]]'


def watched(talk, **options):
    """Runs `grace watch` against a server with these replies. Expects these requests in order, or a prefix of them if
    the server hangs up. Returns the end of the program."""
    with ScriptedServer([reply for _, reply in talk], **options) as server:
        end = run("watch", server.name, "r")
        server.end()
    asked = [request for request, _ in talk]
    check.assertEqual(server.requests, asked[: len(server.requests)], "the requests")
    if end[0] == 0:
        check.assertEqual(len(server.requests), len(asked), "the number of requests")
        check.assertTrue(server.is_closed, "whether it closed the session")
    return end


# ---- entering a room


class TestEntering(unittest.TestCase):
    def test_comes_back(self):
        """It comes back as the first site that is not in use."""
        self.assertEqual(watched(TALK), (0, SHOWN, ""), "the end")

    def test_joins(self):
        """It joins if all sites are in use."""
        talk = [
            TALK[0], ('["back","r",2]', '["no",2,19,"no-such-site"]'), ('["join","r"]', '["joined",2,2]'), *TALK[2:],
        ]
        self.assertEqual(watched(talk), (0, SHOWN, ""), "the end")

    def test_no_room(self):
        """It ends if there is no such room."""
        self.assertEqual(watched([('["back","r",1]', '["no",0,4,"no-such-room"]')]), FAILED, "the end")

    def test_full_room(self):
        """In a full room with all sites in use it asks for each site once, and then to join."""
        talk = [(f'["back","r",{site}]', '["no",256,20,"site-in-use"]') for site in range(1, 257)]
        self.assertEqual(watched([*talk, ('["join","r"]', '["no",256,5,"room-full"]')]), FAILED, "the end")


# ---- the record


BAD_PAGES = [
    ("no page", '["left",3]'),
    ("a text that is no reply", '["entries",3,0]'),
    ("a refusal", '["no",3,17,"too-far"]'),
    ("a page from another place", page(3, 1, ENTRIES)),
    ("an empty page before the end", page(3, 0, [])),
    ("more entries than the record has", page(2, 0, ENTRIES)),
    ("an entry twice", page(4, 0, [*ENTRIES, ENTRIES[0]])),
    ("an entry without one that it counts", page(3, 0, [ENTRIES[0], ENTRIES[2], '["new",[2,1],[[1,1]],"rect",[]]'])),
    ("an operation before the site's join", page(2, 0, ENTRIES[1:])),
    ("an operation that the rules refuse", page(4, 0, [*ENTRIES, '["put",[2,1],[],[1,1],[],[["x",9]]]'])),
]


# Two sites change an object at once, and the first creates another. For each entry the places of those that it comes
# after: the site's join, and the operations that it counts.
DRAWN = [
    '["join",1]',
    '["new",[1,1],[],"rect",[["x",0]]]',
    '["join",2]',
    '["put",[1,2],[[1,1]],[1,1],[],[["x",5]]]',
    '["put",[2,1],[[1,1]],[1,1],[],[["x",9]]]',
    '["put",[2,2],[[1,1],[2,1]],[1,1],[],[["fill","red"]]]',
    '["new",[1,3],[[1,2]],"line",[]]',
    '["put",[1,4],[[1,3],[2,1]],[1,1],[[1,2]],[["x",6]]]',
]
EARLIER = [[], [0], [], [0, 1], [1, 2], [1, 2, 4], [0, 1, 3], [0, 1, 3, 4, 6]]
# The entries of places 0, 1, 3, 6 and 7 come in this order. That of place 4 comes after two, three or four of them.
# Then there is place 2 before it, and place 5 after it.
CAUSAL = 34
RECT = '["versions",8,[1,1],"rect",[[[[1,2],[1,4]],[["x",6]]],[[[2,1],[2,2]],[["fill","red"],["x",9]]]]]\n'
LINE = '["versions",8,[1,3],"line",[[[],[]]]]\n'


def is_causal(order):
    """Returns whether each place comes after all that its entry comes after."""
    return all(set(EARLIER[place]) <= set(order[:count]) for count, place in enumerate(order))


class TestRecord(unittest.TestCase):
    def test_pages(self):
        """It pulls page after page, up to the end of the record at the time of the last page."""
        pulls = [
            ('["pull",0]', page(2, 0, ENTRIES[:1])),
            ('["pull",1]', page(3, 1, ENTRIES[1:2])),
            ('["pull",2]', page(3, 2, ENTRIES[2:])),
        ]
        self.assertEqual(watched([*TALK[:2], *pulls, TALK[3]]), (0, SHOWN, ""), "the end")

    def test_bad_page(self):
        """It ends without output if the page is not part of a record."""
        for name, reply in BAD_PAGES:
            with self.subTest(name):
                self.assertEqual(watched([*TALK[:2], ('["pull",0]', reply)]), FAILED, "the end")

    def watched_in(self, order):
        """Returns the end of the program for a page of the entries in this order."""
        pull = '["pull",0]', page(len(order), 0, [DRAWN[place] for place in order])
        return watched([*TALK[:2], pull, ('["leave"]', '["left",8]')])

    def test_each_causal_order(self):
        """It shows the same for the entries in each causal order, and fails if two neighbours are exchanged so that one
        comes before an entry that it comes after."""
        orders = [order for order in itertools.permutations(range(len(DRAWN))) if is_causal(order)]
        self.assertEqual(len(orders), CAUSAL, "the causal orders")
        others = set()
        for order in orders:
            self.assertEqual(self.watched_in(order), (0, RECT + LINE, ""), f"the end for the order {order}")
            others |= {(*order[:place], order[place + 1], order[place], *order[place + 2 :]) for place in range(7)}
        for order in sorted(others - set(orders)):
            self.assertEqual(self.watched_in(order), FAILED, f"the end for the order {order}")


# ---- following


class TestFollowing(unittest.TestCase):
    def followed(self, *talk):
        """Runs `grace watch --follow` against a server with these replies after those of entering and pulling. The
        server hangs up at the message after them. Returns the last message and the end of the program."""
        talk = [*TALK[:3], *talk]
        with ScriptedServer([reply for _, reply in talk], hangs_up=True) as server:
            end = run("watch", "--follow", server.name, "r")
            server.end()
        self.assertEqual(server.requests[: len(talk)], [request for request, _ in talk], "the requests")
        return server.requests[len(talk) :], end

    def test_follow(self):
        """For each new entry that creates or changes an object it shows the object after this entry."""
        last, end = self.followed(
            ('["wait",3]', page(4, 3, ['["put",[1,2],[[1,1]],[1,1],[],[["x",5]]]'])),
            ('["wait",4]', page(4, 4, [])),
            ('["wait",4]', page(9, 4, [
                '["put",[2,1],[[1,1]],[1,1],[],[["x",9]]]', '["join",3]', '["new",[3,1],[],"line",[]]',
            ])),
            ('["wait",7]', page(8, 7, ['["drop",[3,2],[[3,1]],[3,1],[]]'])),
        )
        self.assertEqual(last, ['["wait",8]'], "the last message")
        self.assertEqual(end, (3, SHOWN + """\
["versions",4,[1,1],"rect",[[[],[["x",5]]]]]
["versions",5,[1,1],"rect",[[[[1,2]],[["x",5]]],[[[2,1]],[["x",9]]]]]
["versions",7,[3,1],"line",[[[],[]]]]
["versions",8,[3,1],"line",[[[],"gone"]]]
""", FAILED[2]), "the end")

    def test_bad_news(self):
        """It ends if the answer to a wait does not continue the record."""
        for name, reply in [
            ("no page", '["left",3]'),
            ("a refusal", '["no",3,17,"too-far"]'),
            ("a page from another place", page(4, 2, ['["join",3]'])),
            ("an entry twice", page(4, 3, ENTRIES[:1])),
            ("an operation that the rules refuse", page(5, 3, ['["join",3]', '["put",[3,1],[],[1,1],[],[["x",9]]]'])),
        ]:
            with self.subTest(name):
                self.assertEqual(self.followed(('["wait",3]', reply)), ([], (3, SHOWN, FAILED[2])), "the end")

    def test_follows_into_the_next_room(self):
        """When the room ends, it asks for the newest room of the chain until the server knows one, and goes on
        there."""
        last, end = self.followed(
            ('["wait",3]', page(5, 3, ['["put",[1,2],[[1,1]],[1,1],[],[["x",5]]]', '["next",2]'])),
            ('["leave"]', '["left",5]'),
            ('["join","r"]', '["no",5,22,"renewed"]'),
            ('["join","r"]', '["renewed",0,"r.3"]'),
            ('["back","r.3",1]', '["back",2,1,1]'),
            ('["pull",0]', page(2, 0, ['["join",1]', '["new",[1,1],[],"rect",[["x",7]]]'])),
            ('["wait",2]', page(3, 2, ['["put",[1,2],[[1,1]],[1,1],[],[["x",8]]]'])),
        )
        self.assertEqual(last, ['["wait",3]'], "the last message")
        self.assertEqual(end, (3, SHOWN + """\
["versions",4,[1,1],"rect",[[[],[["x",5]]]]]
["versions",2,[1,1],"rect",[[[],[["x",7]]]]]
["versions",3,[1,1],"rect",[[[],[["x",8]]]]]
""", FAILED[2]), "the end")

    def test_follows_live(self):
        """It shows each change of a live room as it comes, until the reader of its output has gone away."""
        with Server(2) as server:
            client = server.client()
            client.expect_reply(["join", "r"], '["joined",0,1]')
            client.expect_reply(["new", 1, [], "rect", [["x", 0]]], '["made",1,[1,1]]')
            words = ["grace", "watch", "--follow", server.name, "r"]
            process = subprocess.Popen(
                words, executable=program(), stdout=subprocess.PIPE, stderr=subprocess.PIPE, text=True,
            )
            server.other_client().joined("r", 2, 2)
            self.assertEqual(process.stdout.readline(), SHOWN, "the first line")
            client.expect_reply(["put", 2, [[1, 1]], [1, 1], [], [["x", 5]]], '["taken",3,[[]]]')
            self.assertEqual(process.stdout.readline(), '["versions",4,[1,1],"rect",[[[],[["x",5]]]]]\n', "the news")
            process.stdout.close()
            client.expect_reply(["put", 3, [[1, 2]], [1, 1], [], [["x", 6]]], '["taken",4,[[]]]')
            self.assertEqual((process.wait(SECONDS), process.stderr.read()), (3, "grace: output failed\n"), "the end")
            process.stderr.close()
            server.finish({2: "stream fault"})


# ---- the connection and the output


class TestConnectionAndOutput(unittest.TestCase):
    def test_single_bytes(self):
        """The bytes of the server's frames may arrive one by one. In a head `tungstenite` takes that for an attack."""
        self.assertEqual(watched(TALK, piece=1), (0, SHOWN, ""), "the end")

    def test_cut(self):
        """The server hangs up after 0, 3, 6, .. bytes. The program reports that. It has shown nothing if the page is
        not complete, otherwise everything."""
        outputs = []
        for most in itertools.count(0, 3):
            status, output, errors = watched(TALK, most=most)
            outputs.append(output)
            if status == 0:
                break
            self.assertEqual((status, errors), (FAILED[0], FAILED[2]), f"the end after {most} bytes")
        shown = [output for output, _ in itertools.groupby(outputs)]
        self.assertEqual(shown, ["", SHOWN], "what was shown")

    def test_full_output(self):
        """If the program cannot write its output, it reports that and exits with 3."""
        with open("/dev/full", "wb") as full, ScriptedServer([reply for _, reply in TALK]) as server:
            status, _, errors = run("watch", server.name, "r", stdout=full)
            server.end()
        self.assertEqual((status, errors), (3, "grace: output failed\n"), "the end")
