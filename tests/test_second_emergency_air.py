"""Tests of the second program: R-5 of 02, emergency behind the penalty: its air, and the curve of its cylinder."""

import ctypes
import unittest

from built import core
from second_program import Air, CONSIST, held, started, whole


class Starting(unittest.TestCase):
    """ "Combine A and find equalization by the emergency rule, unless the state is 3 or 4." """

    def test_charged(self):
        # Nominal 9,000: (45,000 + 63,000) / 14 = 7,714.3, and 108,000 / 12.
        self.assertEqual(started(held(0)), (9000, 0, 7714))

    def test_applying_service(self):
        # 01's figure: (35,000 + 10,000 + 63,000) / 14 = 7,714.3, then 98,000 / 12 = 8,166.7.  The
        # 6,428 that the service falls to has no part in it.
        self.assertEqual(started(held(1, 7000, 5000, equalization=6428)), (8166, 5000, 7714))

    def test_holding_service(self):
        # Front 8,500 and rear 7,000 make nominal 8,250: (42,500 + 2,494 + 57,750) / 14 = 7,338.9,
        # then 100,250 / 12 = 8,354.2.
        self.assertEqual(started(held(2, 8500, 1247, 8500, 7000, equalization=6428)), (8354, 1247, 7338))

    def test_emergency_is_as_it_is(self):
        # By the rule it would be (40,000 + 6,000 + 57,750) / 14 = 7,410 and 97,750 / 12 = 8,145.
        self.assertEqual(started(held(3, 8000, 3000, 8500, 7000, equalization=7714)), (8000, 3000, 7714))
        # (38,570 + 15,432 + 63,000) / 14 = 8,357 and 101,570 / 12 = 8,464.
        self.assertEqual(started(held(4, 7714, 7716, equalization=7714)), (7714, 7716, 7714))
        # Also where A is below it.
        self.assertEqual(started(held(3, 6032, 6429, 6500, 0, equalization=6089)), (6032, 6429, 6089))

    def test_charging(self):
        # Front 9,000 and rear 8,001: half of 999 is 499, nominal 8,501.  (38,570 + 59,507) / 14 =
        # 7,005.5, then 98,077 / 12 = 8,173.1.  The 7,714 of an emergency before has no part in it.
        self.assertEqual(started(held(5, 7714, 0, 9000, 8001, equalization=7714)), (8173, 0, 7005))

    def test_equalization_before_a_is_combined(self):
        # From A combined, 8,166, it would be (40,830 + 10,000 + 63,000) / 14 = 8,130; from 8,354
        # (41,770 + 2,494 + 57,750) / 14 = 7,286.
        self.assertEqual(started(held(1, 7000, 5000))[2], 7714)
        self.assertEqual(started(held(2, 8500, 1247, 8500, 7000))[2], 7338)

    def test_nominal(self):
        # A rear higher than the front makes no difference.
        self.assertEqual(started(held(0, front=7000, rear=9000)), (9000, 0, 7714))
        # 7,000 less half of 16,000 is not below 0: 35,000 / 14, and 35,000 / 12 = 2,916.7.
        self.assertEqual(started(held(0, 7000, 0, 16000, 0, set=7000)), (2916, 0, 2500))

    def test_a_below_equalization(self):
        # Nominal 5,750: (32,140 + 12,858 + 40,250) / 14 = 6,089.1, then 72,390 / 12 = 6,032.5.
        self.assertEqual(started(held(2, 6428, 6429, 6500, 0)), (6032, 6429, 6089))


class Curve(unittest.TestCase):
    """ "Drop is (A minus equalization) x t / 10,000, down, not past equalization and not below 0; p is B plus 6 drop." """

    def cylinder(self, air, t):
        p = core().second_emergency_cylinder(ctypes.byref(air), *whole(t))
        # It is the one that a walk by this air takes.
        self.assertEqual(core().second_air_cylinder(ctypes.byref(CONSIST), ctypes.byref(air), *whole(t)), p)
        return p

    def test_drop_and_cap(self):
        # 9,000 - 7,714 = 1,286.
        for t, drop in ((0, 0),
                        (7, 0),                 # 0.90
                        (8, 1),                 # 1.03
                        (1090, 140),            # 140.17
                        (5000, 643),
                        (9999, 1285),           # 1,285.87
                        (10000, 1286),
                        (10008, 1286),          # 1,287.03, past equalization
                        (2048 * 1090909, 1286)):
            with self.subTest(t=t):
                self.assertEqual(self.cylinder(Air(9000, 0, 7714, 1), t), 6 * drop)
                self.assertEqual(self.cylinder(Air(9000, 1247, 7714, 1), t), 1247 + 6 * drop)

    def test_not_below_zero(self):
        # 6,032 is 57 below 6,089; and none above.
        for t in (0, 1, 1090, 10000, 2048 * 1090909):
            self.assertEqual(self.cylinder(Air(6032, 6429, 6089, 1), t), 6429)
            self.assertEqual(self.cylinder(Air(7714, 7716, 7714, 1), t), 7716)

    def test_greatest(self):
        # No overflow: 11,000 over 0, at the longest clock.
        self.assertEqual(self.cylinder(Air(11000, 9434, 0, 1), 2048 * 1090909), 9434 + 66000)

    def test_penalty_keeps_its_own(self):
        # 01's figure, and its cap: an equalization beside it has no part in the service curve.
        for t, p in ((1090, 232), (10 ** 9, 6430)):
            for air in (Air(9000), Air(9000, 0, 7714, 0)):
                self.assertEqual(core().second_air_cylinder(ctypes.byref(CONSIST), ctypes.byref(air), *whole(t)), p)


if __name__ == "__main__":
    unittest.main()
