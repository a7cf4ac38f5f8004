"""Tests of the second program: readings, and the rules of each record."""

import random
import unittest

from built import core
from here import feeds
from second_program import one_line, psi, whole


class Readings(unittest.TestCase):

    def test_hundred_mph_and_the_next_binary32(self):
        # What counts here is x 8 or not.
        hundred = one_line(speed="100.0")
        self.assertTrue(hundred.startswith("0 0 0 0 "), hundred)
        self.assertEqual(hundred, one_line(speed="bits 0x42c80000"))
        self.assertEqual(one_line(speed="bits 0x42c80001"), "x 8")
        self.assertEqual(core().second_hundredths_up(*whole(0x42C80000)), 10000)

    def test_pressure_limits(self):
        self.assertEqual(one_line(front="160.0", rear="160.0"), "0 0 0 0 5000")
        self.assertEqual(one_line(front="bits 0x43200001"), "x 8")
        self.assertEqual(one_line(rear="bits 0x43200001"), "x 8")
        for bits in ("0x7fc00000", "0x7f800000", "0xff800000", "0xbf800000", "0x80000001",
                     "0x7f800001", "0xffffffff"):
            self.assertEqual(one_line(speed="bits " + bits), "x 8")
            self.assertEqual(one_line(front="bits " + bits), "x 8")
            self.assertEqual(one_line(rear="bits " + bits), "x 8")

    def test_minus_zero_is_zero(self):
        self.assertEqual(one_line(speed="-0.0", rear="-0.0"), "0 0 0 0 5000")
        # A front of minus zero is a pressure of 0: 90 psi below the hold.
        self.assertEqual(one_line(front="-0.0"), "0 1 0 0 5000")

    def test_smallest_speed_is_one_hundredth(self):
        # q = 1: lost in the first step.  A standing train makes no step.
        self.assertEqual(one_line(speed="bits 0x00000001"), "0 0 0 0 5016")
        self.assertEqual(one_line(speed="bits 0x80000000"), "0 0 0 0 5000")

    def test_hundredths(self):
        self.assertEqual(core().second_hundredths_down(*whole(0x3F333333)), 69)
        self.assertEqual(core().second_hundredths_up(*whole(0x3F333333)), 70)
        draw = random.Random(4)
        for bits in [0, 1, 0x80000000, 0x007FFFFF, 0x00800000, 0x42C80000, 0x43200000] \
                + [draw.randrange(0x43200001) for _ in range(500)] \
                + [draw.randrange(0x38000000, 0x43200001) for _ in range(3000)]:
            exact = 100 * feeds.value_of(bits)
            self.assertEqual(core().second_hundredths_down(*whole(bits)),
                             exact.numerator // exact.denominator)
            self.assertEqual(core().second_hundredths_up(*whole(bits)),
                             -(-exact.numerator // exact.denominator))


class Records(unittest.TestCase):

    def test_lost_rear_bits(self):
        self.assertEqual(one_line(rear="lost"), "0 0 0 0 5000")
        self.assertEqual(one_line(rear="lost bits 0x80000000"), "x 3")
        self.assertEqual(one_line(rear="90.0 spare 1"), "x 3")

    def test_ten_tons_a_car(self):
        self.assertEqual(one_line(weight=100), "0 0 0 0 5000")
        self.assertEqual(one_line(weight=99), "x 5")
        self.assertEqual(one_line(weight=10, cars=1, length=50), "0 0 0 0 5000")

    def test_ranges_of_the_consist(self):
        for name, width, least, greatest in feeds.CONSIST:
            for value, right in ((least - 1, False), (least, True), (greatest, True),
                                 (greatest + 1, False)):
                if not 0 <= value < 1 << width:
                    continue
                train = {"cars": 1, "weight": 20000, name: value}
                if name == "cars":
                    train["weight"] = 30000
                head = max(5000, train.get("length", 600))
                want = "0 0 0 0 %d" % head if right else "x 4"
                rear = psi(train.get("set", 9000))
                with self.subTest(name=name, value=value):
                    self.assertEqual(one_line(head=str(head), front=rear, rear=rear,
                                              profile="profile 0\nprofile 60000", **train), want)

    def test_rules_of_the_profile(self):
        right = "0 0 0 0 5000"
        for profile, want in (
                ("profile 0\nprofile 4000000", right),
                ("profile 0\nprofile 4000001", "x 6"),
                ("profile 0 grade -500 curve 2000\nprofile 40000", right),
                ("profile 0 grade 500\nprofile 40000", right),
                ("profile 0 grade -501\nprofile 40000", "x 6"),
                ("profile 0 grade 501\nprofile 40000", "x 6"),
                ("profile 0 curve 2001\nprofile 40000", "x 6"),
                ("profile 0 spare 1\nprofile 40000", "x 6"),
                ("profile 0\nprofile 40000 spare 2", "x 6"),
                ("profile 0\nprofile 40000 grade -1", "x 6"),
                ("profile 0\nprofile 40000 curve 1", "x 6"),
                ("profile 0\nprofile 0\nprofile 40000", "x 6"),
                ("profile 40000\nprofile 0", "x 6"),
                ("profile 0", "x 6"),
                ("profile-count 0", "x 6"),
                ("profile-count 258\n" + "".join("profile %d\n" % (200 * i) for i in range(258)),
                 "x 6"),
                ("\n".join("profile %d" % (200 * i) for i in range(257)), right)):
            with self.subTest(profile=profile[:60]):
                self.assertEqual(one_line(profile=profile), want)

    def test_rules_of_the_targets(self):
        right = "0 0 0 0 5000"
        for targets, want in (
                ("", right),
                ("target 4000000 speed 10000", right),
                ("target 4000001 speed 0", "x 7"),
                ("target 0 speed 10001", "x 7"),
                ("target 5 speed 0\ntarget 5 speed 0", "x 7"),
                ("target 6 speed 0\ntarget 5 speed 0", "x 7"),
                ("\n".join("target %d speed 0" % i for i in range(8)), right),
                ("\n".join("target %d speed 0" % i for i in range(9)), "x 7"),
                ("target-count 9", "x 7"),
                ("target-count 1", "x 7")):
            with self.subTest(targets=targets[:60]):
                self.assertEqual(one_line(targets=targets), want)


if __name__ == "__main__":
    unittest.main()
