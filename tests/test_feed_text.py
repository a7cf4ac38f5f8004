"""Tests of tools/feed: the bytes that a text states, and what is said of a bad text."""

import unittest

from feed_texts import SAMPLE, TRAIN, WHOLE, run
from here import example, examples, feeds


class Make(unittest.TestCase):
    """Texts and the bytes they state."""

    def test_case_of_the_rules(self):
        data = feeds.make(WHOLE + "target 5531 speed 0\n" + SAMPLE)
        self.assertEqual(
            bin(int.from_bytes(data[:16], "big"))[2:].rjust(128, "0"),
            "000001010" "00000101000" "000001111101000" "000001001011000"
            "000000110000110101000000" "000111010100110000" "0000110010"
            "10001100101000" "000111110100")
        self.assertEqual(data[16:19].hex(), "00" "0002")
        self.assertEqual(data[19:31].hex(), "000000000000" "009c40000000")
        self.assertEqual(data[31:37].hex(), "01" "00159b0000")
        self.assertEqual(data[37:].hex(), "53000000" "80001388" "00000000" "42b40000" "42b40000")

    def test_blocks(self):
        # 000000001001011 000000011100001 00, 000001000001101 000001100000111 11
        data = feeds.make(TRAIN + "block 75 225\nblock 525 775 spare 3\nprofile 0\nprofile 40000\n")
        self.assertEqual(data[16:25].hex(), "02" "00960384" "041a0c1f")
        self.assertEqual(data[25:27].hex(), "0002")
        self.assertEqual(feeds.make(TRAIN + "block 32767 0\ncut\n")[16:].hex(), "01" "fffe0000")

    def test_no_blocks_is_a_count_of_none(self):
        self.assertEqual(feeds.make(TRAIN + "block-count 0\nprofile 0\nprofile 40000\n"), feeds.make(WHOLE))
        self.assertEqual(len(feeds.make(TRAIN + "cut\n")), 16)
        self.assertEqual(feeds.make(TRAIN + "block-count 0\ncut\n")[16:], b"\0")

    def test_blocks_that_are_broken(self):
        cut = TRAIN + "block-count 65\nblock 600 1000\nraw 04b0\ncut\n"
        self.assertEqual(feeds.make(cut)[16:].hex(), "41" "04b00fa0" "04b0")
        # before the count's line the consist goes on
        self.assertEqual(feeds.make(TRAIN + "raw ff\nblock-count 0\nraw 00\ncut\n")[16:].hex(), "ff" "00" "00")
        many = feeds.make(TRAIN + "block-count 255\n" + 300 * "block 2 3\n" + "profile 0\nprofile 40000\n")
        self.assertEqual(many[16:-13].hex(), "ff" + 300 * "0004000c" + "0002")

    def test_profile_fields(self):
        data = feeds.make(TRAIN + "profile 1 grade -1 curve 2000 spare 3\nprofile 2\n")
        # 24 bits of start, then 11111111111 11111010000 11.
        self.assertEqual(data[19:25].hex(), "000001" "ffff43")

    def test_lost_rear(self):
        data = feeds.make(WHOLE + "sample 1 head 2 speed 0.7 front bits 0x3f333333 rear lost\n")
        self.assertEqual(data[-20:].hex(), "53000001" "00000002" "3f333333" "3f333333" "00000000")
        data = feeds.make(
            WHOLE + "sample 1 head 2 speed -0.0 front 0 rear lost bits 7 mark 0 spare 127\n")
        self.assertEqual(data[-20:].hex(), "00000001" "7f000002" "80000000" "00000000" "00000007")

    def test_no_targets_is_a_count_of_none(self):
        self.assertEqual(feeds.make(WHOLE)[-1:], b"\0")
        self.assertEqual(len(feeds.make(WHOLE)), 32)
        self.assertEqual(len(feeds.make(WHOLE + "cut\n")), 31)

    def test_counts_as_stated(self):
        data = feeds.make(TRAIN + "profile-count 258\nprofile 0\ntarget-count 9\n")
        self.assertEqual(data[17:].hex(), "0102" "000000000000" "09")
        many = feeds.make(WHOLE + "target-count 3\n" + 256 * "target 5 speed 0\n")
        self.assertEqual((many[31], len(many)), (3, 32 + 5 * 256))

    def test_raw_stands_where_it_is(self):
        self.assertEqual(feeds.make("raw 00 ff01\ncut"), b"\0\xff\1")
        data = feeds.make(WHOLE + "raw aabb\n" + SAMPLE + "raw cc\n")
        self.assertEqual(data[31:34].hex(), "aabb00")
        self.assertEqual(data[-1:].hex(), "cc")

    def test_nearest_binary32(self):
        # Exact, not by way of a longer binary number: just above and at a tie.
        step = 16777217                          # 2^24 + 1, half way between two
        self.assertEqual(feeds.nearest_bits(step), 0x4B800000)
        self.assertEqual(feeds.nearest_bits(step * 10 ** 30 + 1, 10 ** 30), 0x4B800001)
        self.assertEqual(feeds.nearest_bits(7, 10), 0x3F333333)
        self.assertEqual(feeds.nearest_bits(1, 1 << 149), 1)
        self.assertEqual(feeds.nearest_bits(1, 1 << 150), 0)
        self.assertEqual(feeds.nearest_bits(3, 1 << 150), 2)
        self.assertIsNone(feeds.nearest_bits(1 << 128))

    def test_examples_are_right_texts(self):
        self.assertGreaterEqual(len(examples()), 8)
        for name in examples():
            with self.subTest(name=name):
                data = feeds.make(example(name))
                self.assertEqual(feeds.make("\n".join(feeds.show(data))), data)


class BadText(unittest.TestCase):
    """Bad text: the line, what is wrong, status 1 and no bytes."""

    CASES = (
        ("carz 10\n", 1, "unknown word carz"),
        ("\n# comment\ncars ten\n", 3, "cars is not a whole number: ten"),
        ("cars 512\n", 1, "cars 512 is not from 0 to 511"),
        ("cars -1\n", 1, "cars -1 is not from 0 to 511"),
        ("cars\n", 1, "cars needs one number"),
        ("cars 1 2\n", 1, "cars needs one number"),
        ("cars 1\ncars 1\n", 2, "cars is given twice"),
        ("", 1, "the consist needs cars, axles"),
        ("cars 10\nprofile 0\n", 2, "the consist needs axles, weight"),
        (TRAIN, 9, "there is no profile"),
        (TRAIN + SAMPLE, 10, "there is no profile"),
        (TRAIN + "block\n", 10, "block needs its length and weight"),
        (TRAIN + "block 75\n", 10, "block needs its length and weight"),
        (TRAIN + "block 32768 1\n", 10, "length 32768 is not from 0 to 32767"),
        (TRAIN + "block 1 32768\n", 10, "weight 32768 is not from 0 to 32767"),
        (TRAIN + "block 1 -1\n", 10, "weight -1 is not from 0 to 32767"),
        (TRAIN + "block 1 1 spare 4\n", 10, "spare 4 is not from 0 to 3"),
        (TRAIN + "block 1 1 1\n", 10, "block does not know 1"),
        (TRAIN + "block-count 256\n", 10, "block-count 256 is not from 0 to 255"),
        (TRAIN + "block-count 1\nblock-count 1\n", 11, "block-count is given twice"),
        (TRAIN + 256 * "block 1 1\n" + "profile 0\n", 266, "more than 255 block lines need a block-count"),
        (TRAIN + "block 600 1000\ncars 1\n", 11, "the consist cannot come after the blocks"),
        (TRAIN + "block 600 1000\n", 10, "there is no profile"),
        (WHOLE + "block 600 1000\n", 12, "the blocks cannot come after the profile"),
        ("cars 10\nblock 600 1000\n", 2, "the consist needs axles, weight"),
        (TRAIN + "profile\n", 10, "profile needs its start"),
        (TRAIN + "profile 16777216\n", 10, "start 16777216 is not from 0 to 16777215"),
        (TRAIN + "profile 0 grade 1024\n", 10, "grade 1024 is not from -1024 to 1023"),
        (TRAIN + "profile 0 slope 1\n", 10, "profile does not know slope"),
        (TRAIN + "profile 0 grade\n", 10, "grade needs a number"),
        (TRAIN + "profile 0 grade 1 grade 2\n", 10, "grade is given twice"),
        (TRAIN + "profile-count 65536\n", 10, "profile-count 65536 is not from 0 to 65535"),
        (TRAIN + "profile-count 1\nprofile-count 1\n", 11, "profile-count is given twice"),
        (WHOLE + "cars 1\n", 12, "the consist cannot come after the profile"),
        (WHOLE + "target 5\n", 12, "target needs its speed"),
        (WHOLE + "target 5 speed 65536\n", 12, "speed 65536 is not from 0 to 65535"),
        (WHOLE + "target\n", 12, "target needs its location"),
        (WHOLE + "target-count 256\n", 12, "target-count 256 is not from 0 to 255"),
        (WHOLE + 256 * "target 5 speed 0\n", 267, "more than 255 target lines"),
        (WHOLE + SAMPLE + "target 5 speed 0\n", 13, "the targets cannot come after the samples"),
        (WHOLE + "sample\n", 12, "sample needs its time"),
        (WHOLE + "sample 0 head 1 speed 1.0 front 1.0\n", 12, "sample needs rear"),
        (WHOLE + "sample 0 head 1 speed fast front 1.0 rear 1.0\n", 12,
         "speed is not a decimal number: fast"),
        (WHOLE + "sample 0 head 1 speed 1e5 front 1.0 rear 1.0\n", 12,
         "speed is not a decimal number: 1e5"),
        (WHOLE + "sample 0 head 1 speed 1. front 1.0 rear 1.0\n", 12,
         "speed is not a decimal number: 1."),
        (WHOLE + "sample 0 head 1 speed " + 40 * "9" + " front 1.0 rear 1.0\n", 12,
         "above every binary32"),
        (WHOLE + "sample 0 head 1 speed bits 0x100000000 front 1.0 rear 1.0\n", 12,
         "speed bits 0x100000000 is not from 0 to 4294967295"),
        (WHOLE + "sample 0 head 1 speed bits\n", 12, "speed bits needs a number"),
        (WHOLE + "sample 0 head 1 speed 1 front 1 rear 1 mark 256\n", 12,
         "mark 256 is not from 0 to 255"),
        (WHOLE + "sample 0 head 1 head 1\n", 12, "head is given twice"),
        (WHOLE + "sample 16777216 head 1\n", 12, "time 16777216 is not from 0 to 16777215"),
        (WHOLE + "raw 0\n", 12, "raw needs pairs of hexadecimal digits"),
        (WHOLE + "raw\n", 12, "raw needs pairs of hexadecimal digits"),
        (WHOLE + "raw 0g\n", 12, "raw needs pairs of hexadecimal digits"),
        (WHOLE + "cut now\n", 12, "cut stands alone"),
        (WHOLE + "cut\n\n" + SAMPLE, 14, "nothing may follow cut"),
        ("cars 1\ncut\n", 2, "the consist needs axles"),
        ("cars \u0663\n", 1, "cars is not a whole number"),
        ("cars " + 5000 * "1" + "\n", 1, "cars is not a whole number"),
    )

    def test_line_and_reason(self):
        for text, line, what in self.CASES:
            with self.subTest(text=text[-60:]):
                with self.assertRaises(feeds.BadText) as caught:
                    feeds.make(text)
                self.assertTrue(str(caught.exception).startswith("line %d: " % line),
                                caught.exception)
                self.assertIn(what, str(caught.exception))

    def test_command(self):
        status, out, err = run(["make", "-"], b"cars 10\naxles x\n")
        self.assertEqual((status, out, err), (1, b"", "line 2: axles is not a whole number: x\n"))
        status, out, err = run(["make", "-"], b"cars \xff\n")
        self.assertEqual((status, out), (1, b""))
        self.assertTrue(err.startswith("line 1: "))
        status, out, err = run(["make", "-"], (WHOLE + SAMPLE + "sample\n").encode())
        self.assertEqual((status, out), (1, b""))


if __name__ == "__main__":
    unittest.main()
