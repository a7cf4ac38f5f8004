"""Tests of the second program: R-1 of 02, the blocks of a manifest train: their records, their refusal 13, and the program's
feed.  What they do to the averages and to a walk is in test_second_manifest."""

import ctypes
import random
import unittest

from built import core
from second_program import CASE, Session, made, parts, run

FEED = made(CASE, targets="target 5531 speed 0")
CONSIST, REST = FEED[:16], FEED[17:]                    # 600 ft and 1,000 tons; what follows the block count
LIGHT = made(CASE, cars=101)[:16]                       # 5: a car too many for 1,000 tons
LINES = run(FEED)
# Document 004's train: 1,815 ft and 3,075 tons.
THREE = ((75, 225), (1080, 2520), (660, 330))


def block(length, weight, spare=0):
    """A block's four bytes: length 15 bits, weight 15, spare 2."""
    return (length << 17 | weight << 2 | spare).to_bytes(4, "big")


def blocks(*pairs):
    return b"".join(block(*pair) for pair in pairs)


def shared(count, whole):
    """So many numbers of at least 1 that sum to the whole."""
    return [1] * (count - 1) + [whole - count + 1]


def right(count):
    """So many blocks of the case's train."""
    return blocks(*zip(shared(count, 600), reversed(shared(count, 1000))))


# Bytes that follow the case's consist and break one rule each.
BROKEN = {
    "65 blocks": right(65),
    "length 0": blocks((0, 400), (600, 600)),
    "length 0, last": blocks((600, 600), (0, 400)),
    "weight 0": blocks((200, 0), (400, 1000)),
    "weight 0, last": blocks((400, 1000), (200, 0)),
    "spare 1": blocks((600, 1000, 1)),
    "spare 2": blocks((600, 1000, 2)),
    "spare 3, last": blocks((200, 400), (400, 600, 3)),
    "spare 1, first": blocks((200, 400, 1), (400, 600)),
    "a foot short": blocks((200, 400), (399, 600)),
    "a foot long": blocks((200, 400), (401, 600)),
    "a ton short": blocks((200, 400), (400, 599)),
    "a ton over": blocks((200, 401), (400, 600)),
    "one block a foot short": blocks((599, 1000)),
    "one block a ton over": blocks((600, 1001)),
    "length and weight exchanged": blocks((1000, 600)),
    # Sums that only a narrow word takes for 600 and 1,000.
    "length 2^15 over": blocks((32767, 400), (601, 600)),
    "weight 2^15 over": blocks((200, 32767), (400, 1001)),
    "length 2^16 over": blocks((32767, 400), (32767, 300), (602, 300)),
    "weight 2^16 over": blocks((200, 32767), (200, 32767), (200, 1002)),
    "all zero": bytes(4),
}


def opening(data, session=None):
    """What an opening is answered, and the session then."""
    session = Session() if session is None else session
    return core().second_open(ctypes.byref(session), data, ctypes.c_size_t(len(data))), session


class Records(unittest.TestCase):
    """ "Each block is two bit fields, length 15 and weight 15, with two spare zero bits"."""

    def test_layout(self):
        bits = ("000000001001011" "000000011100001" "00" "000010000111000" "000100111011000" "00"
                "000001010010100" "000000101001010" "00")
        self.assertEqual(int(bits, 2).to_bytes(12, "big"), blocks(*THREE))
        number, session = opening(made(CASE, length=1815, weight=3075)[:16] + blocks(*THREE))
        self.assertEqual((number, session.train.length, session.train.weight), (0, 1815, 3075))
        carried = session.train.blocks
        self.assertEqual(carried.records, 3)
        self.assertEqual(list(carried.length), [75, 1080, 660] + [0] * 61)
        self.assertEqual(list(carried.weight), [225, 2520, 330] + [0] * 61)

    def test_as_many_as_there_are(self):
        for count in (0, 1, 2, 3, 63, 64):
            number, session = opening(CONSIST + (right(count) if count else b""))
            self.assertEqual((number, session.train.blocks.records), (0, count))
            self.assertEqual(list(session.train.blocks.length), ([*shared(count, 600)] if count else []) + [0] * (64 - count))

    def test_widest_fields(self):
        heavy = made(CASE, length=20000, weight=30000)[:16]
        self.assertEqual(opening(heavy + block(20000, 30000))[0], 0)
        for pair in ((20001, 30000), (20000, 30001), (32767, 32767)):
            self.assertEqual(opening(heavy + block(*pair))[0], 13)

    def test_opening_anew_drops_them(self):
        session = opening(CONSIST + right(64))[1]
        for count in (2, 0):
            self.assertEqual(opening(CONSIST + (right(count) if count else b""), session)[0], 0)
            self.assertEqual(session.train.blocks.records, count)
            self.assertEqual(sum(session.train.blocks.length), 600 if count else 0)


class Thirteen(unittest.TestCase):
    """ "13, blocks that break these rules, their byte count included, checked after 5"."""

    def test_each_rule(self):
        for name, data in BROKEN.items():
            with self.subTest(name=name):
                self.assertEqual(opening(CONSIST + data)[0], 13)

    def test_byte_count(self):
        for count in (0, 1, 2, 63, 64):
            data = CONSIST + (right(count) if count else b"")
            for more in (b"\0", b"\0\0", b"\0\0\0", b"\0\2\0"):
                self.assertEqual(opening(data + more)[0], 13)
            for less in (1, 2, 3)[:4 * count]:
                self.assertEqual(opening(data[:-less])[0], 13)
        for count in (66, 128, 256, 600):
            self.assertEqual(opening(CONSIST + right(count))[0], 13)

    def test_refused_opening_changes_nothing(self):
        session = opening(CONSIST + right(3))[1]
        before = bytes(session)
        for data in (*BROKEN.values(), b"\0"):
            self.assertEqual(opening(CONSIST + data, session)[0], 13)
            self.assertEqual(bytes(session), before)

    def test_two_four_and_five_come_first(self):
        for data in (*BROKEN.values(), b"\0", right(65) + b"\0"):
            self.assertEqual(opening(bytes(16) + data)[0], 4)
            self.assertEqual(opening(LIGHT + data)[0], 5)
        for count in range(16):
            self.assertEqual(opening(CONSIST[:count])[0], 2)
            self.assertEqual(opening(bytes(count))[0], 2)
        # right blocks make no consist right
        self.assertEqual(opening(LIGHT + right(2))[0], 5)
        self.assertEqual(opening(bytes(16) + right(2))[0], 4)


class Feed(unittest.TestCase):
    """ "A one-byte block count follows the consist, 0 for none": `x 13` ends the feed, after 2, 4 and 5 and before 6."""

    def lines(self, records, consist=CONSIST, rest=REST, count=None):
        count = len(records) // 4 if count is None else count
        return run(consist + bytes([count]) + records + rest)

    def test_whole_feeds(self):
        # On the level the blocks change nothing.
        self.assertIn("1 0 1 1 5032\n", LINES)
        for count in (0, 1, 2, 64):
            self.assertEqual(self.lines(right(count) if count else b""), LINES)
        self.assertEqual(made(CASE, targets="target 5531 speed 0", blocks=((200, 400), (400, 600))),
                         CONSIST + b"\2" + blocks((200, 400), (400, 600)) + REST)

    def test_each_rule(self):
        for name, records in BROKEN.items():
            with self.subTest(name=name):
                self.assertEqual(self.lines(records), "x 13\n")

    def test_count(self):
        self.assertEqual(run(CONSIST), "x 13\n")
        for count in (65, 66, 128, 255):
            self.assertEqual(run(CONSIST + bytes([count])), "x 13\n")
            self.assertEqual(self.lines(right(count), count=count), "x 13\n")
            # a count over 64 is not taken for 64
            self.assertEqual(self.lines(right(64), count=count), "x 13\n")
        # One more than there are takes the profile's first bytes for a block; one less leaves a sum short.
        self.assertEqual(self.lines(right(2), count=3), "x 13\n")
        self.assertEqual(self.lines(right(2), count=1), "x 13\n")

    def test_missing_bytes(self):
        for count in (1, 2, 64):
            data = CONSIST + bytes([count]) + right(count)
            for end in range(16, len(data)):
                self.assertEqual(run(data[:end]), "x 13\n")
            self.assertEqual(run(data), "x 6\n")
        # What came would be right by itself.
        self.assertEqual(run(CONSIST + b"\2" + right(1)), "x 13\n")

    def test_two_four_and_five_come_first(self):
        for rest in (b"", b"\xff", b"\1\0\0\0\0", b"\2" + right(1)):
            self.assertEqual(run(bytes(16) + rest), "x 4\n")
            self.assertEqual(run(LIGHT + rest), "x 5\n")
        self.assertEqual(run(CONSIST[:15]), "x 2\n")

    def test_before_six(self):
        for rest in (b"", b"\0", b"\0\1", b"\1\2", b"\0\2" + bytes(12)):
            self.assertEqual(self.lines(b"", rest=rest), "x 6\n")
            self.assertEqual(self.lines(right(2), rest=rest), "x 6\n")
            for records in BROKEN.values():
                self.assertEqual(self.lines(records, rest=rest), "x 13\n")

    def test_drawn(self):
        # One field of one block changed by one breaks a sum, whatever it is; the blocks before are right in any order.
        draw = random.Random(13)
        for _ in range(40):
            count = draw.choice((1, 2, 3, 10, 64))
            lengths, weights = (parts(draw, count, whole) for whole in (600, 1000))
            self.assertEqual(self.lines(blocks(*zip(lengths, weights))), LINES)
            changed = draw.choice((lengths, weights))
            changed[draw.randrange(count)] += draw.choice((-1, 1))
            self.assertEqual(self.lines(blocks(*zip(lengths, weights))), "x 13\n")


if __name__ == "__main__":
    unittest.main()
