"""Scripts that reach limits: objects, identifiers, state vectors, attributes, pages and the record."""

import json
import unittest

from lib.scripts import expect_answers
from lib.serving import run

ONE_OBJECT = ['1 ["join","r"]', '1 ["new",1,[],"rect",[]]']
ONE_OBJECT_MADE = ['1 ["joined",0,1]', '1 ["made",1,[1,1]]']


def chain(puts):
    """Returns puts of x by the site that created the object, each after the one before, and their answers."""
    lines = [f'1 ["put",{seen + 1},[[1,{seen}]],[1,1],[],[["x",{seen}]]]' for seen in range(1, puts + 1)]
    return lines, [f'1 ["taken",{seen + 1},[[]]]' for seen in range(1, puts + 1)]


def names_up_to(last):
    """Returns the names of the first site's operations from the second to this one."""
    return ",".join(f"[1,{seq}]" for seq in range(2, last + 1))


def key_put(site, key, value):
    """Returns a put by an author who has seen only the creation."""
    seq = 2 if site == 1 else 1
    return f'{site} ["put",{seq},[[1,1]],[1,1],[],[["{key}",{value}]]]'


# Twelve sites, and eleven puts. Each two that give one key two values double the number of versions.
TWELVE_SITES = [*ONE_OBJECT, *[f'{site} ["join","r"]' for site in range(2, 13)]]
KEY_PUTS = [key_put(site, "aabbccddeef"[site - 1], 1 + (site - 1) % 2) for site in range(1, 12)]
VERSIONS = [1, 2, 2, 4, 4, 8, 8, 16, 16, 32, 32]


class TestSizes(unittest.TestCase):
    def test_full_object(self):
        """An object takes at most 1,024 puts, and the room can still show it."""
        puts, taken = chain(1024)
        expect_answers(
            ["r"],
            [*ONE_OBJECT, *puts, '1 ["put",1026,[[1,1025]],[1,1],[],[["x",0]]]', '1 ["show",[1,1]]'],
            [*ONE_OBJECT_MADE, *taken, '1 ["no",1026,13,"object-full"]',
             '1 ["versions",1026,[1,1],"rect",[[[],[["x",1024]]]]]'],
        )

    def test_longest_identifier(self):
        """A thousand puts of one author conflict with one of another: an identifier has 1,000 names."""
        puts, taken = chain(1000)
        names, longer = names_up_to(1001), names_up_to(1002)
        expect_answers(
            ["r"],
            [*ONE_OBJECT, *puts, '2 ["join","r"]', '2 ["put",1,[[1,1]],[1,1],[],[["x",0]]]',
             f'1 ["put",1002,[[1,1001],[2,1]],[1,1],[{names}],[["y",1]]]'],
            [*ONE_OBJECT_MADE, *taken, '2 ["joined",1002,2]', f'2 ["taken",1003,[[{names}],[[2,1]]]]',
             f'1 ["taken",1004,[[{longer}],[[2,1]]]]'],
        )

    def replies_to(self, lines):
        """Returns the replies to a script in one room, as values."""
        status, output, errors = run("script", "r", stdin="".join(f"{line}\n" for line in lines).encode())
        self.assertEqual((status, errors), (0, ""), "the end")
        return [json.loads(answer.split(" ", 1)[1]) for answer in output.splitlines()]

    def test_most_versions(self):
        """An object has at most 32 versions. The room refuses a put that would create more."""
        replies = self.replies_to([*TWELVE_SITES, *KEY_PUTS, key_put(12, "f", 2), '12 ["show",[1,1]]'])
        replies_to_puts = replies[len(TWELVE_SITES) :]
        self.assertEqual([len(reply[2]) for reply in replies_to_puts[:11]], VERSIONS, "the numbers of versions")
        self.assertEqual(replies_to_puts[11], ["no", 24, 15, "too-many-versions"], "the refusal")
        shown = replies_to_puts[12]
        self.assertEqual((shown[0], len(shown[4])), ("versions", 32), "the number of versions shown")

    def test_most_versions_and_puts(self):
        """An object with both 32 versions and 1,024 puts."""
        puts = ['12 ["put",1,[[1,1]],[1,1],[],[["z",1]]]']
        puts += [f'12 ["put",{seq},[[1,1],[12,{seq - 1}]],[1,1],[],[["z",{seq}]]]' for seq in range(2, 1014)]
        last = '12 ["put",1014,[[1,1],[12,1013]],[1,1],[],[["z",0]]]'
        replies = self.replies_to([*TWELVE_SITES, *KEY_PUTS, *puts, '12 ["show",[1,1]]', last])
        self.assertEqual(replies[-1], ["no", 1037, 13, "object-full"], "the refusal")
        word, at, *_, versions = replies[-2]
        self.assertEqual((word, at, len(versions)), ("versions", 1037, 32), "the versions")
        self.assertEqual(
            {tuple(attributes[-1]) for _, attributes in versions}, {("z", 1013)}, "the last value in each version",
        )

    def test_longest_vector(self):
        """A state vector of 256 sites, the most that a room has."""
        lines = [line for site in range(1, 257) for line in (f'{site} ["join","r"]', f'{site} ["new",1,[],"rect",[]]')]
        seen = ",".join(f"[{site},1]" for site in range(1, 257))
        replies = self.replies_to([*lines, f'256 ["put",2,[{seen}],[1,1],[],[["x",1]]]', '257 ["join","r"]'])
        self.assertEqual(replies[-2:], [["taken", 512, [[]]], ["no", 513, 5, "room-full"]], "the last replies")

    def test_all_sites(self):
        """In a room that has assigned its 256 sites, a client can come back as any site that is not in use."""
        joins = [f'{site} ["join","r"]' for site in range(1, 257)]
        requests = ['257 ["join","r"]', '257 ["back","r",256]', '256 ["leave"]', '257 ["back","r",256]',
                 '257 ["new",1,[],"rect",[]]', '256 ["back","r",256]', '7 ["leave"]', '256 ["back","r",7]',
                 '256 ["pull",256]']
        replies = self.replies_to([*joins, *requests])
        self.assertEqual(replies[255], ["joined", 255, 256], "the last join")
        self.assertEqual(replies[256:], [
            ["no", 256, 5, "room-full"], ["no", 256, 20, "site-in-use"], ["left", 256], ["back", 256, 256, 0],
            ["made", 256, [256, 1]], ["no", 257, 20, "site-in-use"], ["left", 257], ["back", 257, 7, 0],
            ["entries", 257, 256, [["new", [256, 1], [], "rect", []]]],
        ], "the last replies")

    def test_longest_attributes(self):
        """A creation with the longest kind and 16 attributes, each with the longest key and text, in ASCII and other
        characters. With one more byte or attribute it is not a valid request."""
        kind = "rectangle-of-thirty-two-letters-"
        pairs = [["k" * 30 + str(number), "v" * 256 if number % 2 else "é" * 128] for number in range(10, 26)]
        text = json.dumps(pairs, ensure_ascii=False, separators=(",", ":"))
        bad = '1 ["no",0,1,"bad-message"]'
        expect_answers(
            ["r"],
            ['1 ["join","r"]', f'1 ["new",1,[],"{kind}",{text}]', '1 ["show",[1,1]]',
             f'1 ["new",2,[[1,1]],"{kind}x",[]]', f'1 ["new",2,[[1,1]],"rect",[["{33 * "k"}",0]]]',
             f'1 ["new",2,[[1,1]],"rect",[["x","{257 * "v"}"]]]',
             f'1 ["new",2,[[1,1]],"rect",{text[:-1]},["x",0]]]'],
            ['1 ["joined",0,1]', '1 ["made",1,[1,1]]', f'1 ["versions",2,[1,1],"{kind}",[[[],{text}]]]',
             bad, bad, bad, bad],
        )

    def test_most_keys(self):
        """An object has at most 64 keys."""
        puts = [f'1 ["put",{key + 1},[[1,{key}]],[1,1],[],[["k{key}",1]]]' for key in range(1, 66)]
        replies = self.replies_to([*ONE_OBJECT, *puts])
        self.assertEqual(replies[-2:], [["taken", 65, [[]]], ["no", 66, 14, "too-many-keys"]], "the last replies")

    def test_full_room(self):
        """A room takes at most 8,192 objects and 16,384 entries. It then shows them, 64 a page, also to a client that
        comes back."""
        lines = ['1 ["join","r"]', '1 ["new",1,[],"rect",[]]']
        lines += [f'1 ["new",{seq},[[1,{seq - 1}]],"rect",[]]' for seq in range(2, 8194)]
        lines += [
            f'1 ["put",{seq},[[1,{seq - 1}]],[1,{seq % 8192 + 1}],[],[["x",{seq}]]]' for seq in range(8193, 16384)
        ]
        requests = [
            '2 ["join","r"]', '1 ["new",16384,[[1,16383]],"rect",[]]', '1 ["put",16384,[[1,16383]],[1,1],[],[["x",1]]]',
            '1 ["show",[1,8192]]', '1 ["list",8191]', '1 ["pull",16384]', '1 ["list",100]', '1 ["pull",16000]',
        ]
        backs = ['2 ["back","r",2]', '2 ["back","r",1]', '1 ["leave"]', '2 ["back","r",1]', '2 ["pull",16384]']
        replies = self.replies_to([*lines, *requests, *backs])
        self.assertEqual(replies[-5:], [
            ["no", 16384, 19, "no-such-site"], ["no", 16384, 20, "site-in-use"], ["left", 16384],
            ["back", 16384, 1, 16383], ["entries", 16384, 16384, []],
        ], "the replies after coming back")
        del replies[-5:]
        self.assertEqual(replies[8192], ["made", 8192, [1, 8192]], "the last object")
        self.assertEqual(replies[8193], ["no", 8193, 16, "too-many-objects"], "one more")
        full = ["no", 16384, 6, "record-full"]
        self.assertEqual(replies[-8:-2], [
            full, full, full, ["versions", 16384, [1, 8192], "rect", [[[], [["x", 16383]]]]],
            ["objects", 16384, 8191, 8192, [[[1, 8192], "rect"]]], ["entries", 16384, 16384, []],
        ], "the last replies")
        self.assertEqual([len(replies[-2][4]), len(replies[-1][3])], [64, 64], "the pages")
