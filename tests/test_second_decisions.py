"""Tests of the second program: what R-5 of 02 prints and writes, sample by sample.

The train is that of 01's case on the level, and most walks start at head 5,000 with 10.00 mph (test_second_emergency).
"""

import ctypes
import unittest

from built import core
from here import feeds
from second_program import Session, both, made, mph, psi, started


class Lines(unittest.TestCase):
    """What is printed, the penalty's line and emergency's.  Service from 5,000 stops a charged train at 5,176."""

    def one(self, *targets, speed=1000, head=5000, front="90.0", rear="90.0", **more):
        return both([(0, head, mph(speed), front, rear)],
                    targets="".join("target %d speed %d\n" % target for target in targets), **more)[0]

    def test_calling_sample_is_included(self):
        # The penalty by 5,176 + 500.
        self.assertEqual(self.one((5676, 0)), ("0 0 0 0 5176", "0 0 0 0 0"))
        self.assertEqual(self.one((5675, 0)), ("0 0 1 1 5176", "0 0 0 0 5096"))
        self.assertEqual(self.one((5097, 0)), ("0 0 1 1 5176", "0 0 0 0 5096"))
        self.assertEqual(self.one((5096, 0)), ("0 0 1 1 5176", "0 0 1 1 5096"))

    def test_no_penalty_no_emergency(self):
        # At rest on its board: emergency's own call would be one, but 5,000 is not greater than 5,000
        # and no penalty stands.
        self.assertEqual(self.one((5000, 0), speed=0), ("0 0 0 0 5000", "0 0 0 0 0"))

    def test_no_stop(self):
        steep = {"rated": 0, "profile": "profile 0 grade -500\nprofile 40000"}
        self.assertEqual(self.one((37768, 0), **steep), ("0 0 1 1 16777215", "0 0 1 1 16777215"))
        # A target with a speed calls the penalty alone, also one that allows more than the train has.
        self.assertEqual(self.one((5000, 10000), **steep), ("0 0 1 1 16777215", "0 0 0 0 16777215"))
        self.assertEqual(self.one((4999, 0), (37769, 0), **steep), ("0 0 0 0 16777215", "0 0 0 0 0"))

    def test_rear_below_front(self):
        # Nominal 7,000 (Stop): 5,112.  The service curve takes no nominal.
        self.assertEqual(self.one((5112, 0), rear="50.0"), ("0 0 1 1 5176", "0 0 1 1 5112"))
        self.assertEqual(self.one((5113, 0), rear="50.0"), ("0 0 1 1 5176", "0 0 0 0 5112"))
        # Rear above front, and the front within 300 of the hold: nominal 9,000.
        self.assertEqual(self.one((5113, 0), front="87.0", rear="160.0"), ("0 0 1 1 5176", "0 0 0 0 5096"))

    def test_lost_rear(self):
        # It counts as the front in the first sample, and as the last rear later.
        self.assertEqual(self.one((5400, 0), rear="lost"), ("0 0 1 1 5176", "0 0 0 0 5096"))
        got = both([(0, 5000, "0.0", "90.0", "50.0"), (1, 5000, "10.0", "90.0", "lost"), (2, 5000, "10.0", "90.0", "90.0"),
                    (3, 5000, "10.0", "90.0", "lost")], targets="target 5400 speed 0")
        self.assertEqual([second for _, second in got], ["0 0 0 0 0", "1 0 0 0 5112", "2 0 0 0 5096", "3 0 0 0 5096"])

    # Held in service at 7 s with A 8,500, B 1,247 (test_second_states); held in emergency at 11 s with A 7,714, B 7,716.
    SERVICE = [(0, 9000), (1, 8500)] + [(time, 8500) for time in range(2, 8)]
    EMERGENCY = [(0, 9000), (1, 7500), (6, 7500), (11, 7500)]

    def last(self, pipe, rear=None, targets="target 5500 speed 0"):
        """The last pair for a pipe's time and front: the train stands but in the last sample, where it has 10.00 mph.
        A target at 5,500 calls the penalty there, as a stop and 500 ft are beyond it, and never emergency."""
        samples = [(time, 5000, "0.0", psi(front), psi(front)) for time, front in pipe]
        time, front = pipe[-1]
        samples[-1] = (time, 5000, mph(1000), psi(front), psi(front if rear is None else rear))
        got = both(samples, targets=targets)
        for first, second in got[:-1]:
            self.assertEqual((first.split()[2:], second.split()[2:]), (["0", "0", "5000"], ["0", "0", "0"]))
        return got[-1]

    def test_in_each_state(self):
        # The stops are Stop's.  The penalty's in state 2: test_second_walk.
        self.assertEqual(self.last(self.SERVICE[:1]), ("0 0 1 1 5176", "0 0 0 0 5096"))
        self.assertEqual(self.last(self.SERVICE[:2]), ("1 1 1 1 5176", "1 1 0 0 5096"))
        self.assertEqual(self.last(self.SERVICE), ("7 2 1 1 5112", "7 2 0 0 5080"))
        # Service from A 8,871 and B 774 stops in 8 steps: 61,689, 79,035, 96,974, 115,880, 135,829,
        # 157,713 and 182,133 leave 170,747, and the eighth takes 211,473.
        self.assertEqual(self.last(self.EMERGENCY[:2] + [(2, 9000)], 0), ("2 3 1 1 5128", "2 3 0 0 5096"))
        # In state 4 neither curve has a drop: the cap of the service's is 7,714 less 54,002 / 7.
        self.assertEqual(self.last(self.EMERGENCY), ("11 4 1 1 5032", "11 4 0 0 5032"))
        self.assertEqual(self.last(self.SERVICE + [(8, 9000)]), ("8 5 1 1 5176", "8 5 0 0 5112"))

    def test_before_the_penalty(self):
        # Bit, cause and location are zero in every state, though the train moves.
        for pipe, first in ((self.SERVICE[:1], "0 0 0 0 5176"), (self.SERVICE[:2], "1 1 0 0 5176"), (self.SERVICE, "7 2 0 0 5112"),
                            (self.EMERGENCY[:2], "1 3 0 0 5176"), (self.EMERGENCY, "11 4 0 0 5032"),
                            (self.SERVICE + [(8, 9000)], "8 5 0 0 5176")):
            time, state = first.split()[:2]
            for targets in ("", "target 5676 speed 0"):         # 5,176 + 500 is not beyond it
                self.assertEqual(self.last(pipe, targets=targets), (first, "%s %s 0 0 0" % (time, state)))

    def test_after_the_penalty(self):
        # The penalty at 5,000: 5,676 is beyond 5,400.  At 5,303 the stop is a foot short, at 5,304 it is there.  Then
        # emergency stands, and the location is each sample's own: in front of the target, and at rest.  A refused
        # sample has one line.
        speed = mph(1000)
        samples = [(0, 5000, "0.0"), (1, 5000, speed), (2, 5303, speed), (3, 5304, speed), (4, 5200, speed), (4, 5200, speed),
                   (5, 5201, "0.0"), (6, 5401, speed)]
        self.assertEqual(both([(*one, "90.0", "90.0") for one in samples], targets="target 5400 speed 0"), [
            ("0 0 0 0 5000", "0 0 0 0 0"),
            ("1 0 1 1 5176", "1 0 0 0 5096"),
            ("2 0 1 1 5479", "2 0 0 0 5399"),
            ("3 0 1 1 5480", "3 0 1 1 5400"),
            ("4 0 1 1 5376", "4 0 1 1 5296"),
            ("x 9", None),
            ("5 0 1 1 5201", "5 0 1 1 5201"),
            ("6 0 1 1 5577", "6 0 1 1 5497")])

    def test_at_rest_with_a_penalty(self):
        # A foot short of the board, on it, and (in another run) a foot past it, where it is no longer judged.
        def got(*heads):
            samples = [(0, 5000, mph(1000))] + [(1 + i, head, "0.0") for i, head in enumerate(heads)]
            return both([(*one, "90.0", "90.0") for one in samples], targets="target 5400 speed 0")[1:]
        self.assertEqual(got(5399, 5400), [("1 0 1 1 5399", "1 0 0 0 5399"), ("2 0 1 1 5400", "2 0 1 1 5400")])
        self.assertEqual(got(5401), [("1 0 1 1 5401", "1 0 0 0 5401")])

    def test_cause_of_its_own(self):
        # 5.00 mph, 250,000, the service reaches at its tenth step, 5,160; the offset is 375: the penalty
        # is the first target's, emergency the second's.
        self.assertEqual(self.one((5050, 500), (5090, 0)), ("0 0 1 1 5176", "0 0 1 2 5096"))
        # A target behind the head is neither's, and has its place in the list all the same.
        self.assertEqual(self.one((4000, 0), (5050, 500), (5097, 0)), ("0 0 1 2 5176", "0 0 0 0 5096"))
        self.assertEqual(self.one((4000, 0), (5080, 0), (5090, 0)), ("0 0 1 2 5176", "0 0 1 2 5096"))


class Calls(unittest.TestCase):
    """second_judge, call by call."""

    FEED = made([(0, 5000, mph(1000), "90.0", "90.0"), (1, 5000, mph(1000), "90.0", "50.0"), (2, 5000, mph(1000), "90.0", "90.0"),
                 (3, 5000, mph(1000), "75.0", "35.0"), (4, 5000, "0.0", "75.0", "35.0")])
    CONSIST, PROFILE, _, SAMPLES = feeds.split(FEED)

    def setUp(self):
        self.session = Session()
        self.open()

    def open(self):
        self.assertEqual(core().second_open(ctypes.byref(self.session), self.CONSIST, ctypes.c_size_t(16)), 0)

    def judge(self, sample, *targets, room=16):
        """The refusal, and 20 bytes of output."""
        lent = b"".join(feeds.pack_target(*target) for target in targets)
        profile = self.PROFILE[2:]
        output = ctypes.create_string_buffer(b"\xaa" * 20, 20)
        refusal = core().second_judge(
            ctypes.byref(self.session), self.SAMPLES[sample], ctypes.c_size_t(20), profile, ctypes.c_size_t(len(profile)),
            lent, ctypes.c_size_t(len(lent)), output, ctypes.c_size_t(room))
        return refusal, output.raw.hex()

    def test_both_records(self):
        # Mark 44, time 0, state 000 and bit 1 and cause 0010, 5,176; mark 45, the same time and state,
        # bit 1 and cause 0011, 5,096.  No byte more.
        self.assertEqual(self.judge(0, (10, 0), (5050, 500), (5096, 0), room=20),
                         (0, "44000000" "12" "001438" "45000000" "13" "0013e8" "aaaaaaaa"))
        self.assertEqual((self.session.cause, self.session.emergency), (2, 3))

    def test_state_in_both(self):
        # At 3 s the front is 15 psi lower: state 011, bit 1, cause 0001.  A is combined once, by the update:
        # nominal 9,000 - 2,000 = 7,000, and the stop that of a charged train with this nominal, 5,112.
        for i in range(3):
            self.judge(i)
        self.assertEqual(self.judge(3, (5112, 0)), (0, "44000003" "71" "001438" "45000003" "71" "0013f8" "aaaaaaaa"))
        self.assertEqual(started(self.session), (7833, 0, 6714))
        self.assertEqual((self.session.brakes.a, self.session.brakes.equalization), (7833, 6714))

    def test_under_sixteen_bytes(self):
        before = bytes(self.session)
        for room in (0, 7, 8, 9, 15):
            self.assertEqual(self.judge(0, (5096, 0), room=room), (12, "aa" * 20))
            self.assertEqual(bytes(self.session), before)
        self.assertEqual(self.judge(0, (5096, 0), room=16)[0], 0)
        self.assertEqual((self.session.cause, self.session.emergency), (1, 1))

    def test_stands_over_later_lists(self):
        self.assertEqual(self.judge(0, (5050, 500)), (0, "44000000" "11" "001438" "45000000" "00" "0013e8" "aaaaaaaa"))
        # Nominal 7,000: 5,112 (13F8).
        self.assertEqual(self.judge(1, (10, 0), (20, 0), (5112, 0), (5113, 0)),
                         (0, "44000001" "11" "001438" "45000001" "13" "0013f8" "aaaaaaaa"))
        # Another list's first target would call, and an empty one none.
        self.assertEqual(self.judge(2, (5000, 0)), (0, "44000002" "11" "001438" "45000002" "13" "0013e8" "aaaaaaaa"))
        self.judge(3)
        self.assertEqual(self.judge(4), (0, "44000004" "71" "001388" "45000004" "73" "001388" "aaaaaaaa"))
        # Opening clears both.
        self.open()
        self.assertEqual((self.session.cause, self.session.emergency), (0, 0))
        self.assertEqual(self.judge(4), (0, "44000004" "20" "001388" "45000004" "20" "000000" "aaaaaaaa"))

    def test_held_air_is_untouched(self):
        # Nominal 7,000 in the second sample, so that the prediction's A is 7,833.
        held_brakes = [getattr(self.session.brakes, name) for name in ("state", "hold", "a", "b", "equalization", "fall")]
        self.assertEqual(held_brakes, [0, 9000, 9000, 0, 0, 0])
        for i in range(2):
            self.judge(i, (5096, 0))
            self.assertEqual([getattr(self.session.brakes, name) for name in ("state", "hold", "a", "b", "equalization", "fall")],
                             held_brakes)
        # So the third starts from 9,000 again: from 7,833 it would be A 8,513 and 7,297, and the stop 5,112.
        self.assertEqual(self.judge(2, (5096, 0)), (0, "44000002" "11" "001438" "45000002" "11" "0013e8" "aaaaaaaa"))

    def test_refused_sample_calls_nothing(self):
        self.judge(1, (5400, 0))
        before = bytes(self.session)
        self.assertEqual((self.session.cause, self.session.emergency), (1, 0))
        self.assertEqual(self.judge(1, (5000, 0)), (9, "aa" * 20))
        self.assertEqual(self.judge(2, (5000, 0), room=15), (12, "aa" * 20))
        self.assertEqual(bytes(self.session), before)


if __name__ == "__main__":
    unittest.main()
