"""Tests of the second program: the functions of the air brakes."""

import ctypes
import unittest

from built import core
from second_program import CONSIST, Brakes, Sample, whole


class AirBrakes(unittest.TestCase):
    """The figures of 01, and what no feed can show."""

    def test_equalization(self):
        self.assertEqual(core().second_service_equalization(*whole(9000, 0)), 6428)

    def applied(self, rate, nominal, **brakes):
        held = Brakes(**brakes)
        core().second_start_applying(ctypes.byref(held), ctypes.byref(CONSIST),
                                     *whole(rate, nominal))
        return held

    def test_emergency(self):
        held = self.applied(-1500, 9000, state=1, a=7000, b=5000, hold=123)
        self.assertEqual((held.equalization, held.a, held.b, held.state, held.fall, held.hold),
                         (7714, 8166, 5000, 3, 46, 123))
        held = self.applied(-1500, 5750, state=2, a=6428, b=6429)
        self.assertEqual((held.equalization, held.a, held.fall), (6089, 6032, 0))
        held = self.applied(-1500, 0, state=2, a=6428, b=6429)
        self.assertEqual((held.equalization, held.a, held.fall), (3214, 2678, 0))

    def test_service(self):
        held = self.applied(-1499, 9000, state=0, a=9000, b=0, hold=9000)
        self.assertEqual((held.equalization, held.a, held.b, held.state, held.fall, held.hold),
                         (6428, 9000, 0, 1, 85, 9000))

    def test_nominal(self):
        for front, rear, want in ((9000, 8999, 9000), (9000, 8998, 8999), (9000, 8997, 8999),
                                  (9000, 9500, 9000), (16000, 0, 1000)):
            self.assertEqual(core().second_nominal(*whole(9000, front, rear)), want)
        self.assertEqual(core().second_nominal(*whole(7000, 16000, 0)), 0)

    def test_application_wins_over_rising_pressure(self):
        # Decision 21; no feed leads there: the sample before would have started applying.
        for state in (0, 5):
            held = Brakes(state=state, hold=9000, a=9000, last_front=8000, last_rear=8000)
            sample = Sample(time=1, front=8500, rear=8500, rear_present=1)
            core().second_update_brakes(ctypes.byref(held), ctypes.byref(CONSIST),
                                        ctypes.byref(sample), 0)
            self.assertEqual((held.state, held.hold, held.last_front), (1, 9000, 8500))

    def test_start_charging(self):
        held = Brakes(state=4, hold=1, a=7714, b=7716, equalization=7714, fall=129,
                      last_front=5000)
        sample = Sample(time=5, front=5600, rear=0, rear_present=0)
        core().second_update_brakes(ctypes.byref(held), ctypes.byref(CONSIST),
                                    ctypes.byref(sample), 0)
        self.assertEqual(
            (held.state, held.hold, held.a, held.b, held.equalization, held.fall),
            (5, 5600, 7714, 0, 7714, 129))


if __name__ == "__main__":
    unittest.main()
