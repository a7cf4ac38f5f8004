"""Tests of the second program: a session's refusals, and the core's two calls."""

import ctypes
import unittest

from built import core
from here import feeds
from second_program import CASE, Session, made, one_line, printed


class Refusals(unittest.TestCase):

    def test_five_and_six_seconds(self):
        def second(time):
            return printed([(100, 5000, "0.0", "90.0", "90.0"),
                            (time, 5000, "0.0", "90.0", "90.0")])[1]
        self.assertEqual(second(101), "101 0 0 0 5000")
        self.assertEqual(second(105), "105 0 0 0 5000")
        for time in (106, 100, 99, 0, 16777215):
            self.assertEqual(second(time), "x 9")

    def test_time_does_not_wrap(self):
        got = printed([(16777215, 5000, "0.0", "90.0", "90.0"), (0, 5000, "0.0", "90.0", "90.0")])
        self.assertEqual(got, ["16777215 0 0 0 5000", "x 9"])

    def test_profile_end(self):
        # 5,000 + 32,768 = 37,768; 5,000 - 600 = 4,400.
        self.assertEqual(one_line(profile="profile 0\nprofile 37768"), "0 0 0 0 5000")
        self.assertEqual(one_line(profile="profile 0\nprofile 37767"), "x 10")
        self.assertEqual(one_line(profile="profile 4400\nprofile 40000"), "0 0 0 0 5000")
        self.assertEqual(one_line(profile="profile 4401\nprofile 40000"), "x 10")
        self.assertEqual(one_line(head="600"), "0 0 0 0 600")
        self.assertEqual(one_line(head="599"), "x 10")

    def test_lowest_number(self):
        bad = "bits 0x7fc00000"
        self.assertEqual(one_line(speed=bad, rear="90.0 mark 1", head="0"), "x 3")
        self.assertEqual(one_line(speed=bad, head="0"), "x 8")
        got = printed([(10, 5000, "0.0", "90.0", "90.0"), (10, 0, "0.0", "90.0", "90.0"),
                       (10, 0, bad, "90.0", "90.0"), (11, 0, "0.0", "90.0", "90.0")])
        self.assertEqual(got, ["10 0 0 0 5000", "x 9", "x 8", "x 10"])
        self.assertEqual(one_line(cars=0, weight=5), "x 4")
        self.assertEqual(one_line(set=6999, weight=99), "x 4")

    def test_refused_sample_changes_nothing(self):
        # The refused front of 0 psi is no application, the refused time no last time,
        # and the refused first sample no first sample.
        got = printed([(50, 0, "0.0", "0.0", "0.0"), (0, 5000, "0.0", "90.0", "90.0"),
                       (5, 0, "0.0", "0.0", "0.0"), (5, 5000, "0.0", "90.0", "90.0")])
        self.assertEqual(got, ["x 10", "0 0 0 0 5000", "x 10", "5 0 0 0 5000"])


class Calls(unittest.TestCase):
    """second_open and second_judge."""

    PARTS = feeds.split(made(CASE, targets="target 5531 speed 0"))
    CONSIST = PARTS[0][:16]

    def judge(self, session, sample, output, size=None, profile=None, targets=None):
        profile = self.PARTS[1][2:] if profile is None else profile
        targets = self.PARTS[2][1:] if targets is None else targets
        return core().second_judge(
            ctypes.byref(session), sample, ctypes.c_size_t(len(sample)),
            profile, ctypes.c_size_t(len(profile)), targets, ctypes.c_size_t(len(targets)),
            output, ctypes.c_size_t(len(output) if size is None else size))

    def opened(self):
        session = Session()
        self.assertEqual(core().second_open(ctypes.byref(session), self.CONSIST,
                                            ctypes.c_size_t(16)), 0)
        return session

    def test_opening(self):
        session = self.opened()
        held = session.brakes
        self.assertEqual((held.state, held.hold, held.a, held.b, held.equalization, held.fall,
                          session.cause, session.emergency), (0, 9000, 9000, 0, 0, 0, 0, 0))
        before = bytes(session)
        for data, number in ((b"", 2), (self.CONSIST[:15], 2), (bytes(16), 4), (bytes(17), 4),
                             (self.CONSIST + b"\0", 13)):
            self.assertEqual(core().second_open(ctypes.byref(session), data,
                                                ctypes.c_size_t(len(data))), number)
            self.assertEqual(bytes(session), before)

    def test_no_session(self):
        session = Session()
        output = ctypes.create_string_buffer(16)
        for sample in (self.PARTS[3][0], b"abc"):
            self.assertEqual(self.judge(session, sample, output), 1)
        self.assertEqual(bytes(session), bytes(Session()))

    def test_order_of_refusals(self):
        # Each step takes one wrong thing away (decision 34).
        session = self.opened()
        output = ctypes.create_string_buffer(b"untouched", 20)
        good = self.PARTS[3][0]
        self.assertEqual(self.judge(session, good, ctypes.create_string_buffer(16)), 0)
        before = bytes(session)
        nan = bytes.fromhex("7fc00000")
        head = bytes.fromhex("000000")
        wrong = b"\0" + good[1:5] + head + nan + good[12:]
        self.assertEqual(self.judge(session, wrong + b"\0", output, 15, b"", b"x"), 2)
        self.assertEqual(self.judge(session, wrong, output, 15, b"", b"x"), 3)
        wrong = b"\x53" + wrong[1:]
        self.assertEqual(self.judge(session, wrong, output, 15, b"", b"x"), 6)
        self.assertEqual(self.judge(session, wrong, output, 15, None, b"x"), 7)
        self.assertEqual(self.judge(session, wrong, output, 15), 8)
        wrong = wrong[:8] + bytes(4) + wrong[12:]
        self.assertEqual(self.judge(session, wrong, output, 15), 9)
        wrong = wrong[:3] + b"\1" + wrong[4:]
        self.assertEqual(self.judge(session, wrong, output, 15), 10)
        wrong = wrong[:5] + good[5:8] + wrong[8:]
        self.assertEqual(self.judge(session, wrong, output, 15), 12)
        for room in (0, 7, 8, 14):
            self.assertEqual(self.judge(session, wrong, output, room), 12)
        self.assertEqual(bytes(session), before)
        self.assertEqual(output.raw[:9], b"untouched")
        self.assertEqual(self.judge(session, wrong, output, 16), 0)

    def test_output_is_sixteen_bytes(self):
        session = self.opened()
        output = ctypes.create_string_buffer(bytes(range(20)), 20)
        self.assertEqual(self.judge(session, self.PARTS[3][0], output), 0)
        self.assertEqual(output.raw.hex(), "4400000000001388" "4500000000000000" "10111213")
        self.assertEqual(self.judge(session, self.PARTS[3][1], output), 0)
        # Mark 44, time 1, state 000, penalty 1, cause 0001, location 5,032; mark 45, the
        # same time and state, no emergency, the same location.
        self.assertEqual(output.raw.hex(), "44000001" "11" "0013a8" "45000001" "00" "0013a8" "10111213")

    def test_targets_may_change(self):
        # The cause is the place in the list lent at the calling sample (decision 31).
        session = self.opened()
        output = ctypes.create_string_buffer(16)
        self.assertEqual(self.judge(session, self.PARTS[3][0], output), 0)
        lent = feeds.pack_target(10, 0) + feeds.pack_target(5531, 0)
        self.assertEqual(self.judge(session, self.PARTS[3][1], output, None, None, lent), 0)
        self.assertEqual(output.raw[:8].hex(), "44000001" "12" "0013a8")
        self.assertEqual(self.judge(session, self.PARTS[3][2], output, None, None, b""), 0)
        self.assertEqual(output.raw[:8].hex(), "44000002" "12" "001389")

    def test_rejected_lengths_of_profile_and_targets(self):
        session = self.opened()
        output = ctypes.create_string_buffer(16)
        good, profile, targets = self.PARTS[3][0], self.PARTS[1][2:], self.PARTS[2][1:]
        for lent in (b"", profile[:6], profile[:11], profile + b"\0"):
            self.assertEqual(self.judge(session, good, output, None, lent), 6)
        for lent in (b"\0", targets[:4], targets + b"\0"):
            self.assertEqual(self.judge(session, good, output, None, None, lent), 7)


if __name__ == "__main__":
    unittest.main()
