"""Tests of the second program: R-7 of 02, a rear device that goes quiet, and the choice of the everlasting value.

A pipe is (time, front, rear) in psi, rear None where it is lost.  The train is that of 01's case on the level.
"""

import ctypes
import os
import random
import subprocess
import tempfile
import unittest

import built
from built import core
from here import feeds
from second_program import CASE, EVERLASTING, Session, both, made, run

LEVEL = "profile 0\nprofile 60000"
NAN = "bits 0x7fc00000"
DEFAULT = ()


def at(time, front, rear, head=5000, speed="10.0"):
    """A sample's words."""
    return time, head, speed, "%d.0" % front, "lost" if rear is None else "%d.0" % rear


class Vectors(unittest.TestCase):
    """Worked apart from this program."""

    RECHARGE = ((0, 90, 90), (1, 85, 85), (6, 85, 85), (7, 85, 80), (8, 90, None), (12, 90, None), (13, 85, 85), (14, 85, 80),
                (15, 90, None), (20, 90, None), (21, 90, None), (22, 90, 80))
    # with the head and mph
    STOPS = ((0, 90, 90, 5000, "40.0"), (1, 86, 90, 6300, "40.0"), (2, 80, 30, 6358, "40.0"), (6, 80, 30, 6592, NAN),
             (7, 80, None, 6650, "40.0"), (8, 80, None, 6708, "40.0"), (9, 80, 30, 6766, "40.0"), (10, 80, None, 6824, "40.0"))

    def test_recharge(self):
        for words, states in ((DEFAULT, "0 1 1 2 5 0 1 2 5 5 5 0"), (EVERLASTING, "0 1 1 2 5 0 1 2 5 0 0 0")):
            want = ["%d %s 0 0 5000" % (time, state) for (time, _, _), state in zip(self.RECHARGE, states.split())]
            got = both([at(*one, speed="0.0") for one in self.RECHARGE], profile=LEVEL, words=words)
            self.assertEqual([first for first, _ in got], want)

    def test_emergency_stops(self):
        for words, stop in ((DEFAULT, "7380"), (EVERLASTING, "7460")):
            got = both([at(*one) for one in self.STOPS], profile=LEVEL, targets="target 7600 speed 0", words=words)
            self.assertEqual([second and second.split()[4] for _, second in got],
                             ["0", "7036", "7158", None, "7402", stop, "7502", "7544"])
            self.assertEqual(got[3], ("x 8", None))


class Stops(unittest.TestCase):
    """What a rear counts as, seen in the stop by emergency air of a charged train with 10.00 mph at 5,000: 5,096 where rear
    is front, and 5,112 where it is 40 psi lower, nominal 7,000 (test_second_emergency)."""

    EQUAL, LOWER = 5096, 5112

    def stops(self, pipe, words):
        """A target at 5,400 calls the penalty and no emergency; samples in words stand as they are, and are refused."""
        got = both([one if isinstance(one, str) or len(one) > 3 else at(*one) for one in pipe], profile=LEVEL,
                   targets="target 5400 speed 0", words=words)
        return [int(second.split()[4]) if second else first for first, second in got]

    def check(self, pipe, default, everlasting):
        """E and L for such stops; what is refused is the same under both choices."""
        for words, letters in ((DEFAULT, default), (EVERLASTING, everlasting)):
            want = [{"E": self.EQUAL, "L": self.LOWER}.get(one, one) for one in letters]
            self.assertEqual(self.stops(pipe, words), want)

    def test_five_seconds_and_six(self):
        self.check([(0, 90, 50), (5, 90, None)], "LL", "LL")
        self.check([(0, 90, 50), (1, 90, None), (6, 90, None)], "LLE", "LLL")
        # The last times that a sample can have.
        last = 16777215
        self.check([(last - 6, 90, 50), (last - 1, 90, None), (last, 90, None)], "LLE", "LLL")

    def test_lost_is_not_heard(self):
        self.check([(0, 90, 50)] + [(time, 90, None) for time in range(1, 9)], "LLLLLLEEE", "LLLLLLLLL")

    def test_heard_again(self):
        # The five seconds count from the last present value, before they have passed and after.
        self.check([(0, 90, 90), (3, 90, 50), (8, 90, None), (9, 90, None)], "ELLE", "ELLL")
        self.check([(0, 90, 50), (5, 90, None), (6, 90, None), (7, 90, 50), (12, 90, None), (13, 90, None)], "LLELLE", "LLLLLL")
        # And the value is that of the last: 90 under a front of 130.
        self.check([(0, 90, 50), (3, 90, 90), (8, 130, None), (9, 130, None)], "LELE", "LELL")

    def test_none_yet(self):
        # Each front anew; by the old choice the first one, 90, is held.
        self.check([(0, 90, None), (1, 130, None), (6, 130, None), (8, 130, 90), (13, 130, None), (14, 130, None)],
                   "EEELLE", "ELLLLL")

    def test_given_up_counts_as_each_front_anew(self):
        # 90 at 6 s is held as last rear, and is not what a rear lost at 7 s counts as.
        self.check([(0, 90, 90), (5, 90, None), (6, 90, None), (7, 130, None), (12, 130, None)], "EEEEE", "EEELL")

    def test_refused_sample_brings_nothing(self):
        for refused, number in ((at(5, 90, 50, speed=NAN), "x 8"), (at(3, 90, 50), "x 9"), (at(5, 90, 50, head=0), "x 10"),
                                ("sample 5 head 5000 speed 10.0 front 90.0 rear 50.0 mark 1", "x 3")):
            # Neither that it was heard nor its value, be it the first one.
            self.check([(0, 90, 50), (3, 90, None), refused, (6, 90, None)], ["L", "L", number, "E"], ["L", "L", number, "L"])
            self.check([(0, 90, 90), (3, 90, None), refused, (5, 90, None)], ["E", "E", number, "E"], ["E", "E", number, "E"])
        refused = at(0, 90, 50, head=0)
        self.check([refused, (1, 90, None), (2, 90, None)], ["x 10", "E", "E"], ["x 10", "E", "E"])


class Held(unittest.TestCase):
    """What is held of the rear, call by call."""

    CONSIST, PROFILE = feeds.split(made([], profile=LEVEL))[:2]
    FIVE_SECONDS, CHOICE_EVERLASTING = 0, 1

    def open_with(self, session, choice, consist=CONSIST[:16]):
        return core().second_open_with(ctypes.byref(session), consist, ctypes.c_size_t(len(consist)), choice)

    def opened(self, choice):
        session = Session()
        self.assertEqual(self.open_with(session, choice), 0)
        return session

    def judge(self, session, time, front, rear, head=5000, room=16):
        bits = [None if reading is None else feeds.nearest_bits(reading) for reading in (front, rear)]
        sample = feeds.pack_sample(time, head, 0, *bits)
        return core().second_judge(
            ctypes.byref(session), sample, ctypes.c_size_t(len(sample)), self.PROFILE[2:], ctypes.c_size_t(12), b"",
            ctypes.c_size_t(0), ctypes.create_string_buffer(16), ctypes.c_size_t(room))

    def rear(self, session):
        return session.brakes.last_rear, session.brakes.heard, session.brakes.heard_at

    def test_opening(self):
        default = Session()
        self.assertEqual(core().second_open(ctypes.byref(default), self.CONSIST[:16], ctypes.c_size_t(16)), 0)
        self.assertEqual(bytes(default), bytes(self.opened(self.FIVE_SECONDS)))
        other = self.opened(self.CHOICE_EVERLASTING)
        self.assertEqual((default.brakes.choice, other.brakes.choice), (0, 1))
        # In nothing else are the two openings different.
        other.brakes.choice = 0
        self.assertEqual(bytes(default), bytes(other))

    def test_choice_stands_until_opened_anew(self):
        session = self.opened(self.CHOICE_EVERLASTING)
        self.assertEqual([self.judge(session, time, 90, rear) for time, rear in ((7, 50), (12, None), (13, None))], [0, 0, 0])
        self.assertEqual((self.rear(session), session.brakes.choice), ((5000, 1, 7), 1))
        # A refused opening leaves it.
        before = bytes(session)
        self.assertEqual(self.open_with(session, self.FIVE_SECONDS, bytes(16)), 4)
        self.assertEqual(bytes(session), before)
        self.assertEqual(self.open_with(session, self.FIVE_SECONDS), 0)
        self.assertEqual((self.rear(session), session.brakes.choice), ((0, 0, 0), 0))
        # Nothing of the session before is kept, though its times would fit.
        self.assertEqual((self.judge(session, 8, 90, None), self.rear(session)), (0, (9000, 0, 0)))

    def test_heard_at_zero(self):
        # The time 0 is not never, and a value of 0 is one.
        for choice in (self.FIVE_SECONDS, self.CHOICE_EVERLASTING):
            session = self.opened(choice)
            self.assertEqual((self.judge(session, 0, 90, 0), self.rear(session)), (0, (0, 1, 0)))
            self.assertEqual((self.judge(session, 5, 90, None), self.rear(session)), (0, (0, 1, 0)))

    def test_no_room_is_not_heard(self):
        session = self.opened(self.FIVE_SECONDS)
        self.assertEqual((self.judge(session, 3, 90, 50, room=15), self.rear(session)), (12, (0, 0, 0)))

    def counts_as(self, everlasting, accepted):
        """What the last accepted sample's rear counts as, by the letter; and why."""
        time, front, rear = accepted[-1]
        present = [(then, value) for then, _, value in accepted[:-1] if value is not None]
        if rear is not None:
            return rear, "present"
        if everlasting:
            return (present[-1][1] if present else accepted[0][1]), "last"
        if not present:
            return front, "none yet" if len(accepted) > 1 else "first"
        passed = time - present[-1][0]
        return (front if passed > 5 else present[-1][1]), passed

    def test_many(self):
        draw = random.Random(7)
        seen, parted, unheard = {}, 0, 0
        for _ in range(150):
            sessions = [self.opened(self.FIVE_SECONDS), self.opened(self.CHOICE_EVERLASTING)]
            accepted, refused, last = [], None, draw.choice((0, 100, 16777000))
            for _ in range(25):
                time, front = last + draw.randint(1, 5), draw.choice((90, draw.randint(0, 160)))
                rear = draw.randint(0, 160) if draw.random() < 0.25 else None
                if draw.random() < 0.2:
                    before = [bytes(session) for session in sessions]
                    self.assertEqual([self.judge(one, time, front, rear, head=0) for one in sessions], [10, 10])
                    self.assertEqual([bytes(session) for session in sessions], before)
                    refused = refused if rear is None else time
                    continue
                accepted.append((time, 100 * front, None if rear is None else 100 * rear))
                last, want = time, []
                heard = [one[0] for one in accepted if one[2] is not None]
                for everlasting, session in enumerate(sessions):
                    self.assertEqual(self.judge(session, time, front, rear), 0)
                    value, why = self.counts_as(everlasting, accepted)
                    seen[why] = seen.get(why, 0) + 1
                    want.append(value)
                    self.assertEqual(self.rear(session), (value, int(bool(heard)), heard[-1] if heard else 0))
                    # a refused present value that would have been kept
                    unheard += why not in ("present", "last", "first") and refused is not None and time - refused <= 5
                parted += want[0] != want[1]
        for why in ("first", "none yet", 1, 4, 5, 6, 7, 10):
            self.assertGreater(seen[why], 10)
        self.assertGreater(min(parted, unheard), 100)


class Words(unittest.TestCase):
    """The words on the command line."""

    QUIET = made([at(0, 90, 50), at(5, 90, None), at(6, 90, None)], profile=LEVEL, targets="target 5400 speed 0")

    def test_choices(self):
        lines = "0 0 1 1 5176\n0 0 0 0 5112\n5 0 1 1 5176\n5 0 0 0 5112\n6 0 1 1 5176\n6 0 0 0 %d\n"
        self.assertEqual(run(self.QUIET), lines % 5096)
        self.assertEqual(run(self.QUIET, words=["everlasting"]), lines % 5112)

    def test_refusals_are_the_same(self):
        # 01's case, whole, cut in each of its parts, and with a consist that is refused.
        case = made(CASE, targets="target 5531 speed 0")
        for data in [case] + [case[:end] for end in range(0, len(case), 7)] + [bytes(16) + case[16:]]:
            self.assertEqual(run(data, words=EVERLASTING), run(data))
        self.assertEqual(run(bytes(16), words=EVERLASTING), "x 4\n")

    def test_wrong_words(self):
        for words in (["five"], [""], ["Everlasting"], ["everlastin"], ["everlasting "], ["everlastings"], ["--everlasting"], ["1"],
                      ["everlasting", "everlasting"], ["everlasting", ""], ["", "everlasting"], ["everlasting", "x", "y"]):
            with self.subTest(words=words), tempfile.TemporaryFile() as file:
                file.write(self.QUIET)
                file.flush()
                os.lseek(file.fileno(), 0, os.SEEK_SET)
                done = subprocess.run([built.second(), *words], stdin=file, stdout=subprocess.PIPE, stderr=subprocess.PIPE,
                                      check=False)
                self.assertEqual((done.returncode, done.stdout), (2, b""))
                self.assertRegex(done.stderr, rb"\A[^\n]+\n\Z")
                # not a byte was read
                self.assertEqual(os.lseek(file.fileno(), 0, os.SEEK_CUR), 0)


if __name__ == "__main__":
    unittest.main()
