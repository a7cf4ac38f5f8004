"""Tests of tools/feed: the text of any bytes gives the same bytes again."""

import random
import unittest

from feed_texts import SAMPLE, TRAIN, WHOLE
from here import feeds
from feeds.words import Line


class Show(unittest.TestCase):
    """make of show is the same bytes."""

    def same(self, data):
        text = "\n".join(feeds.show(data)) + "\n"
        self.assertEqual(feeds.make(text), data, text)

    def test_every_kind(self):
        for kind in feeds.KIND_NAMES:
            for seed in range(40):
                with self.subTest(kind=kind, seed=seed):
                    self.same(feeds.random_feed(seed, kind))

    def test_picked_kinds(self):
        for seed in range(1000, 1150):
            with self.subTest(seed=seed):
                self.same(feeds.random_feed(seed))

    def test_cut_at_every_byte(self):
        data = feeds.make(WHOLE + "target 5531 speed 0\ntarget 6000 speed 100\n" + 2 * SAMPLE)
        for end in range(len(data) + 1):
            with self.subTest(end=end):
                self.same(data[:end])
        data = feeds.make(WHOLE + SAMPLE)
        for end in range(len(data) + 1):
            with self.subTest(end=end):
                self.same(data[:end])
        data = feeds.make(TRAIN + "block 75 225\nblock 525 775\nprofile 0\nprofile 40000\n" + SAMPLE)
        for end in range(len(data) + 1):
            with self.subTest(end=end):
                self.same(data[:end])

    def test_garbage(self):
        draw = random.Random(1)
        for number in range(400):
            data = bytearray(draw.getrandbits(8) for _ in range(draw.getrandbits(8)))
            if number % 2 and len(data) > 40:
                # Small counts, so that the profile, the targets and samples are reached.
                data[16] = draw.getrandbits(2)
                place = 17 + 4 * data[16]
                data[place], data[place + 1] = 0, draw.getrandbits(3)
                place += 2 + 6 * data[place + 1]
                if number % 4 == 3 and place < len(data):
                    data[place] &= 3
            with self.subTest(number=number):
                self.same(bytes(data))

    def test_blocks(self):
        for lines, count in ((["block 75 225", "block 525 775"], 2), (["block 0 32767 spare 1", "block 32767 0 spare 2"], 2),
                             (["block-count 0"], 0), (65 * ["block 1 1"], 65), (255 * ["block 1 1"], 255)):
            data = feeds.make(TRAIN + "".join(line + "\n" for line in lines) + "profile 0\nprofile 40000\n" + SAMPLE)
            shown = feeds.show(data)
            with self.subTest(lines=lines[:2]):
                self.assertEqual(data[16], count)
                self.assertEqual(shown[10:12 + len(lines)], ["# blocks", *lines, "# profile"])
                self.assertEqual((shown[-1], shown[-2]), (SAMPLE.strip(), "# samples"))
                self.same(data)
        # a count that promises more than there is
        shown = feeds.show(feeds.make(TRAIN + "block-count 65\nblock 600 1000\nraw 04b0\ncut\n"))
        self.assertEqual(shown[10:], ["# blocks", "block-count 65", "block 600 1000", "raw 04b0", "cut"])
        self.assertEqual(feeds.show(feeds.make(TRAIN + "cut\n"))[10:], ["# blocks", "cut"])

    def test_no_bytes_and_one(self):
        self.same(b"")
        self.same(b"\0")

    def test_readings(self):
        draw = random.Random(2)
        odd = [0, 1, 0x007FFFFF, 0x00800000, 0x3F333333, 0x42C80000, 0x42C80001, 0x43200000,
               0x7F7FFFFF, 0x7F800000, 0x7FC00000, 0x3DCCCCCD, 0x461C4000, 0x49742400]
        for bits in odd + [draw.getrandbits(31) for _ in range(3000)] \
                + [draw.randrange(0x38000000, 0x43300000) for _ in range(3000)]:
            for sign in (0, 0x80000000):
                text = feeds.show_reading(bits | sign)
                line = Line(1, text)
                self.assertEqual(line.reading("speed"), bits | sign, text)
                self.assertEqual(line.words, [])

    def test_plain_readings_show_plainly(self):
        for text in ("90.0", "0.7", "100.0", "0.0", "-0.0", "88.5", "39.8", "0.01", "159.99"):
            self.assertEqual(feeds.show_reading(Line(1, text).reading("front")), text)


if __name__ == "__main__":
    unittest.main()
