"""Tests of the second program: the brake states of a standing train, as lines."""

import unittest

from second_program import EVERLASTING, printed, psi


class States(unittest.TestCase):
    """Worked by hand.  Set 9,000 and 30,000 ms: a service application falls by 85 a second to 6,428
    or the front.  Recharge is 50 a second."""

    def states(self, pipe, **more):
        """pipe: (time, front, rear or None for lost or "" for like front, state)."""
        samples, want = [], []
        for time, front, rear, state in pipe:
            rear = "lost" if rear is None else psi(front if rear == "" else rear)
            samples.append((time, 5000, "0.0", psi(front), rear))
            want.append("%d %d 0 0 5000" % (time, state))
        self.assertEqual(printed(samples, **more), want)

    # Charged to state 2: A and the hold are 8,500, B is 1,247 (five times
    # floor(85 * 5 / 2) = 212, and floor(75 * 5 / 2) = 187).
    HELD = [(0, 9000, "", 0), (1, 8500, "", 1)] \
        + [(time, 8500, "", 1) for time in range(2, 7)] + [(7, 8500, "", 2)]

    # From there charging at 8 s, A still 8,500.
    CHARGING = HELD + [(8, 9000, "", 5)]

    # --- 0 and 5

    def test_application_by_rate(self):
        self.states([(0, 9000, "", 0), (1, 8900, "", 0)])               # -100
        self.states([(0, 9000, "", 0), (1, 8899, "", 1)])               # -101
        self.states([(0, 9000, "", 0), (2, 8800, "", 0)])               # -100
        self.states([(0, 9000, "", 0), (2, 8799, "", 1)])               # -100.5 is -101
        self.states([(0, 9000, "", 0), (5, 8700, "", 0)])               # -60, 300 deep

    def test_application_by_depth(self):
        # -60 a second only; 300 below the hold is none, 301 is.
        self.states([(0, 9000, "", 0), (5, 8700, "", 0), (6, 8699, "", 1)])
        # The hold is the greatest front so far: 9,200.
        self.states([(0, 9200, "", 0), (5, 8900, "", 0), (6, 8899, "", 1)])
        # And the set pressure where the front has always been lower.
        self.states([(0, 8800, "", 0), (5, 8700, "", 0), (6, 8699, "", 1)])

    def test_hold_is_not_lowered(self):
        self.states([(0, 9000, "", 0), (1, 8900, "", 0), (2, 8800, "", 0), (3, 8700, "", 0),
                     (4, 8699, "", 1)])

    def test_first_sample(self):
        # Decision 18: rate 0; 300 under the set pressure is none, more is a service.
        self.states([(7, 8700, "", 0)])
        self.states([(7, 8699, "", 1)])
        self.states([(7, 0, "", 1)])
        # Rate 0 although the front is far above: and the hold rises to it.
        self.states([(7, 9500, "", 0), (12, 9199, "", 1)])

    def test_first_sample_has_no_seconds(self):
        # Started at 7 s, first fall at 8 s: 9,000 - 85 = 8,915 = the front, state 2.
        self.states([(7, 8600, "", 1), (8, 8915 - 216, "", 1)])
        self.states([(7, 8600, "", 1), (12, 8600, "", 2)])              # 425 > 400
        self.states([(7, 8600, "", 1), (11, 8600, "", 1)])              # 340 < 400

    def test_emergency_by_rate(self):
        self.states([(0, 9000, "", 0), (1, 7501, "", 1)])               # -1,499
        self.states([(0, 9000, "", 0), (1, 7500, "", 3)])               # -1,500
        self.states([(0, 9000, "", 0), (2, 6001, "", 3)])               # Decision 15: -2,999 / 2
        self.states([(0, 9000, "", 0), (2, 6002, "", 1)])               # -1,499
        self.states([(0, 9000, "", 0), (5, 1500, "", 3)])

    def test_charged_ignores_release(self):
        self.states([(0, 9000, "", 0), (1, 9500, "", 0), (2, 12000, "", 0)])

    def test_charging(self):
        # 50 a second from 8,500: 9,000 after ten seconds, still 5 (decision 19), then 0.
        self.states(self.CHARGING + [(13, 9000, "", 5), (18, 9000, "", 5), (19, 9000, "", 0)])
        # Not past nominal, and no recharge in the release's own sample (decision 16): with
        # recharge 99 the five seconds of the release would already give 495.
        pipe = self.HELD + [(12, 9100, "", 5), (17, 9000, "", 5), (18, 9000, "", 5),
                            (19, 9000, "", 0)]
        self.states(pipe, recharge=99)                                  # 8,995, 9,000, 0

    def test_charging_ignores_release(self):
        self.states(self.CHARGING + [(9, 9500, "", 5), (10, 10000, "", 5)])

    def test_charging_to_a_low_nominal(self):
        # Decision 19: front 9,000 and rear 8,000 make nominal 8,500: A is at least that.
        self.states(self.CHARGING + [(9, 9000, 8000, 0)])
        # Nominal 8,501 (front less rear 999, half 499): one recharge to 8,501, then 0.
        self.states(self.CHARGING + [(9, 9000, 8001, 5), (10, 9000, 8001, 0)])
        # Rear higher than front counts as no difference.
        self.states(self.CHARGING + [(9, 9000, 11000, 5), (13, 9000, 11000, 5),
                                     (18, 9000, "", 5), (19, 9000, "", 0)])

    def test_charged_above_nominal_keeps_a(self):
        # Nominal 8,000 leaves A at 8,500.  A service down to the front of 8,000 then
        # falls 500 in six seconds: 85 x 5 = 425, and the rest.
        low = self.CHARGING + [(9, 9000, 7000, 0), (10, 8000, "", 1)]
        self.states(low + [(15, 8000, "", 1), (16, 8000, "", 2)])
        # State 0 does not recharge: the same after five seconds more.
        self.states(self.CHARGING + [(9, 9000, 7000, 0), (14, 9000, "", 0), (15, 8000, "", 1),
                                     (20, 8000, "", 1), (21, 8000, "", 2)])

    def test_application_while_charging(self):
        # Hold is the front at the release, 9,000.
        self.states(self.CHARGING + [(13, 8700, "", 5), (14, 8699, "", 1)])
        # Hold rises with the front, 9,300.
        self.states(self.CHARGING + [(9, 9300, "", 5), (12, 9000, "", 5), (13, 8999, "", 1)])
        # No recharge in the sample that starts applying: A stays 8,500 at 13 s, and is
        # at the front of 8,415 one second later.
        self.states(self.CHARGING + [(13, 8415, "", 1), (14, 8415, "", 2)])
        self.states(self.CHARGING + [(13, 8414, "", 1), (14, 8414, "", 1), (15, 8414, "", 2)])

    # --- 1

    def test_service_falls_to_the_front(self):
        # 500 in six seconds; the starting sample itself makes no fall (decision 16), though
        # five seconds have passed.
        self.states(self.HELD)
        self.states([(0, 9000, "", 0), (5, 8500, "", 1), (10, 8500, "", 1), (11, 8500, "", 2)])

    def test_service_falls_to_equalization(self):
        # 9,000 - 6,428 = 2,572 = 30 x 85 + 22: state 2 after 31 seconds.
        pipe = [(0, 9000, "", 0), (5, 4000, "", 1)]
        pipe += [(time, 4000, "", 1) for time in (10, 15, 20, 25, 30, 35)]
        self.states(pipe + [(36, 4000, "", 2)])

    def test_service_follows_a_falling_front(self):
        # Decision 20: a further application is no new start: the fall goes on.  1,000 in
        # twelve seconds (11 x 85 = 935).
        pipe = [(0, 9000, "", 0), (1, 8500, "", 1), (2, 8000, "", 1)]
        self.states(pipe + [(7, 8000, "", 1), (12, 8000, "", 1), (13, 8000, "", 2)])

    def test_service_with_a_rising_front(self):
        # +100 is no release; the level rises with the front.  8,915 at 2 s.
        self.states([(0, 9000, "", 0), (1, 8500, "", 1), (2, 8600, "", 1), (5, 8900, "", 2)])
        self.states([(0, 9000, "", 0), (1, 8500, "", 1), (2, 8601, "", 5)])
        # A level above A: no drop, state 2 at once (decision 20).  8,660 at 5 s.
        self.states([(0, 9000, "", 0), (1, 8500, "", 1), (5, 8600, "", 1), (10, 9100, "", 2)])

    def test_level_above_a_leaves_a(self):
        # A is 8,500 and state 0 (as above).  The front 8,699 is 301 below the hold and
        # above A: state 2 in the next sample with A still 8,500.  Then a service down
        # to 8,300: the hold is 8,699, A falls 200 in three seconds.
        pipe = self.CHARGING + [(9, 9000, 7000, 0), (13, 8699, "", 1), (14, 8699, "", 2),
                                (18, 8300, "", 1), (20, 8300, "", 1), (21, 8300, "", 2)]
        self.states(pipe)

    def test_service_to_emergency(self):
        # In state 1: -1,499 is none, -1,500 is; the emergency comes before the fall.
        start = [(0, 9000, "", 0), (1, 8500, "", 1)]
        self.states(start + [(2, 7001, "", 1)])
        self.states(start + [(2, 7000, "", 3)])
        self.states(start + [(4, 4001, "", 3)])                         # -4,499 / 3

    def test_service_release_keeps_a(self):
        # Released at 2 s with A still 9,000 (no fall in that sample): at 3 s A is at
        # least nominal.
        self.states([(0, 9000, "", 0), (1, 8500, "", 1), (2, 9000, "", 5), (3, 9000, "", 0)])

    # --- 2

    def test_holding_service(self):
        self.states(self.HELD + [(8, 8600, "", 2)])                     # +100
        self.states(self.HELD + [(8, 8601, "", 5)])                     # +101
        self.states(self.HELD + [(8, 8400, "", 2)])                     # -100
        self.states(self.HELD + [(8, 8399, "", 1)])                     # -101
        self.states(self.HELD + [(12, 8200, "", 2), (13, 8199, "", 1)])  # 300, 301 below 8,500
        self.states(self.HELD + [(8, 7000, "", 3)])                     # -1,500
        self.states(self.HELD + [(8, 7001, "", 1)])

    def test_holding_service_rounds_the_rate_down(self):
        # Decision 15.  The hold stays 8,500 while the front rises slowly to 8,900: there the
        # depth cannot tell.  -400 / 4 is -100, -401 / 4 is -101.
        up = self.HELD + [(11, 8900, "", 2)]
        self.states(up + [(15, 8500, "", 2)])
        self.states(up + [(15, 8499, "", 1)])

    def test_second_application_equalizes_anew(self):
        # A 8,500, B 1,247: equalization (42,500 + 2,494) / 7 = 6,427.  From 8,500 that
        # is 2,073 = 24 x 85 + 33: 25 seconds.
        pipe = self.HELD + [(12, 5000, "", 1)]
        pipe += [(time, 5000, "", 1) for time in (17, 22, 27, 32, 36)]
        self.states(pipe + [(37, 5000, "", 2)])

    # --- 3 and 4

    def test_emergency(self):
        # A 9,000, B 0, nominal 9,000: equalization 108,000 / 14 = 7,714; A 9,000; fall
        # 128.6 up to 129: 7,839 after nine seconds, 7,714 after ten.
        start = [(0, 9000, "", 0), (1, 7500, "", 3)]
        self.states(start + [(5, 7500, "", 3), (10, 7500, "", 3), (11, 7500, "", 4)])
        # No other test: rising and falling pipes make no difference.
        self.states(start + [(2, 8500, "", 3), (7, 15000, "", 3), (10, 500, "", 3),
                             (11, 9500, "", 4)])

    def test_emergency_with_a_low_nominal(self):
        # Decision 22: front 7,500, rear 3,500: nominal 7,000.  Equalization (45,000 + 49,000)
        # / 14 = 6,714; A 94,000 / 12 = 7,833; fall 111.9 up to 112: 6,825 after nine
        # seconds, 6,714 after ten.  Released and charged again from there by 50 a
        # second: 2,286 = 45 x 50 + 36, so 46 seconds and then state 0.
        pipe = [(0, 9000, "", 0), (1, 7500, 3500, 3), (5, 7500, "", 3), (10, 7500, "", 3),
                (11, 7500, "", 4), (12, 7601, "", 5)]
        pipe += [(time, 9000, "", 5) for time in range(17, 58, 5)] + [(58, 9000, "", 5)]
        self.states(pipe + [(59, 9000, "", 0)])

    def test_nominal_takes_this_sample(self):
        # The rear of the sample before, 3,500, is not the one that counts: nominal
        # 9,000, ten seconds at 129; charged from 7,714: 1,286 in 26 seconds.
        pipe = [(0, 9000, 3500, 0), (1, 7500, "", 3), (6, 7500, "", 3), (11, 7500, "", 4),
                (12, 7601, "", 5)]
        pipe += [(time, 9000, "", 5) for time in range(17, 38, 5)] + [(38, 9000, "", 5)]
        self.states(pipe + [(39, 9000, "", 0)])

    def test_emergency_after_service(self):
        # From A 8,500, B 1,247, nominal 9,000: equalization (42,500 + 2,494 + 63,000) /
        # 14 = 7,713; A 105,500 / 12 = 8,791; fall 107.8 up to 108: 7,819 after nine
        # seconds, 7,713 after ten.
        start = self.HELD + [(8, 7000, "", 3)]
        self.states(start + [(13, 7000, "", 3), (17, 7000, "", 3), (18, 7000, "", 4)])

    # A full application with 1,000 ms: fall 18,000,000 / 7,000 = 2,571 a second.  A 6,429
    # and B 6,427 at 6 s, 6,428 and 6,429 at 7 s.  The pipe then rises by 100 a second.
    FULL = [(0, 9000, "", 0), (5, 5000, "", 1), (6, 5000, "", 1), (7, 5000, "", 2)] \
        + [(7 + 5 * i, 5000 + 500 * i, "", 2) for i in range(1, 7)]

    def test_emergency_without_a_fall(self):
        # Decision 23: front 6,500, rear 0: nominal 5,750.  Equalization (32,140 + 12,858 +
        # 40,250) / 14 = 6,089; A 72,390 / 12 = 6,032, not above it: fall 0, state 4.
        self.states(self.FULL + [(38, 6500, 0, 3), (39, 6500, "", 4)], application=1000)
        # Nominal 9,000 instead: 7,714 and 7,928, fall 22, ten seconds.
        self.states(self.FULL + [(38, 6500, "", 3), (43, 6500, "", 3), (47, 6500, "", 3),
                                 (48, 6500, "", 4)], application=1000)

    def test_holding_emergency(self):
        held = [(0, 9000, "", 0), (1, 7500, "", 3), (6, 7500, "", 3), (11, 7500, "", 4)]
        self.states(held + [(12, 7600, "", 4)])                         # +100
        self.states(held + [(12, 7601, "", 5)])                         # +101
        self.states(held + [(12, 5000, "", 4), (13, 0, "", 4)])         # no application
        # The hold is the front at the release.
        self.states(held + [(12, 8000, "", 5), (15, 7700, "", 5), (16, 7699, "", 1)])

    # --- the rear reading

    def test_lost_rear_counts_as_the_last(self):
        # Rear 8,000 at 8 s; lost at 9 s: nominal 8,500, charged.
        pipe = self.HELD + [(8, 9000, 8000, 5)]
        self.states(pipe + [(9, 9000, None, 0)])
        # It stays the last through more lost samples.
        pipe = self.HELD[:-1] + [(7, 8500, 8000, 2), (8, 9000, None, 5)]
        self.states(pipe + [(9, 9000, None, 0)])
        self.states(pipe + [(9, 9000, 9000, 5), (10, 9000, None, 5)])

    def test_lost_rear_in_the_first_sample(self):
        # Counts as the front, 8,800, and is held as that: at 9 s nominal is 9,000 less
        # half of 200, 8,900: 8,500 needs eight seconds, then state 0.
        pipe = [(0, 8800, None, 0), (1, 8500, None, 1)]
        pipe += [(time, 8500, None, 1) for time in range(2, 7)]
        pipe += [(7, 8500, None, 2), (8, 9000, None, 5), (13, 9000, None, 5), (16, 9000, None, 5)]
        self.states(pipe + [(17, 9000, None, 0)], words=EVERLASTING)
        # By default each counts as its own front: nominal is 9,000, which needs ten.
        self.states(pipe + [(17, 9000, None, 5), (18, 9000, None, 5), (19, 9000, None, 0)])


if __name__ == "__main__":
    unittest.main()
