"""Tests of the second program: R-2 of 02, the location for a target speed, and walks that speed up again."""

import ctypes
import math
import random
import unittest

import built
from built import core
from second_program import whole
from second_walks import NONE, crosses, model, rolling, stays, walk


class Walked(ctypes.Structure):
    """A walk as walk.c keeps it."""

    _fields_ = [("steps", ctypes.c_int64)] + [(name, ctypes.c_int64 * 2049) for name in ("head", "q")]

    @classmethod
    def by(cls, *squares):
        """The one with these q's, from head 5,000."""
        walked = cls(steps=len(squares) - 1)
        for i, q in enumerate(squares):
            walked.head[i], walked.q[i] = 5000 + 16 * i, q
        return walked


class Location(unittest.TestCase):
    """R-2's: "the first head from which, to the end of the walk, the speed stays at or below the target's" (02)."""

    def location(self, squares, limit):
        return core().second_location(ctypes.byref(Walked.by(*squares)), *whole(limit))

    def test_first_head_from_which_it_stays(self):
        # The limit is 10, squared 100.
        for squares, place in (
                ((400, 250, 90, 60, -5), 2),                # falls all the way
                ((400, 90, 110, 95, -5), 3),                # below, above, below for good
                ((400, 90, 101, 95, -5), 3),
                ((400, 90, 100, 95, -5), 1),                # equality at the rise stays
                ((400, 90, 110, 100, 95, -5), 3),           # and so it does at the fall
                ((400, 90, 110, 90, 100, 120, 90, -5), 6),  # the last rise counts
                ((400, 250, 110, -5), 3),                   # only with the stop
                ((81, 64, -5), 0),                          # below already, and it stays
                ((81, 90, 100, 90, -5), 0),
                ((100, 99, 0), 0),
                ((81, 110, 64, -5), 2),                     # below already, and it does not
                ((100, 101, 0), 2),
                ((81, 64, 121, -5), 3),
                ((0,), 0)):                                 # at rest: no step
            with self.subTest(squares=squares):
                self.assertEqual(self.location(squares, 10), 5000 + 16 * place)

    def test_for_a_stop_nothing_changes(self):
        for squares in ((400, 90, 110, 95, -5), (1, 2, 0), (0,), (1,) * 2048 + (0,), (1,) * 2048 + (-1,), (1,) * 2049):
            walked = Walked.by(*squares)
            stop = core().second_stop(ctypes.byref(walked))
            self.assertEqual(stop, NONE if squares[-1] > 0 else 5000 + 16 * (len(squares) - 1))
            self.assertEqual(core().second_location(ctypes.byref(walked), *whole(0)), stop)

    def test_cut(self):
        # At the step limit with q above 0 there is none for any speed, though q is at 1 for long.
        for limit in (0, 1, 10, 10000):
            self.assertEqual(self.location((400,) + (1,) * 2048, limit), NONE)
            self.assertEqual(self.location((1,) * 2049, limit), NONE)
        # A q of 0 or less there is a stop, and every speed has its location.
        for last in (0, -1):
            walk = (400, 90, 110) + (50,) * 2045 + (last,)
            self.assertEqual(self.location(walk, 0), 37768)
            self.assertEqual(self.location(walk, 7), 37768)
            self.assertEqual(self.location(walk, 8), 5048)
            self.assertEqual(self.location(walk, 11), 5016)
            self.assertEqual(self.location(walk, 20), 5000)


class Hills(unittest.TestCase):
    """Whole walks that speed up again."""

    # 01's train, but 64 ft long and without brakes, from 8.00 mph.  It comes up 1.2 % with its head at the
    # summit, goes 80 ft down 1.2 % and up 5 % from there.  The loss a step is
    # (1,400,000,000 + 100,000 s + 70 q + 2,000,000 G) x 1,449 / 605,000,000, and G is a quarter
    # of a hundred times four grades of 16 ft.
    #   head    q        s       G     loss
    #   5,000  640,000  800   12,000   61,132
    #   5,016  578,868  760    6,000   32,372
    #   5,032  546,496  739        0    3,621
    #   5,048  542,875  736   -6,000  -25,121
    #   5,064  567,996  753  -12,000  -53,853
    #   5,080  621,849  788  -12,000  -53,835
    #   5,096  675,684  822    3,500   20,428    822 squared exactly
    #   5,112  655,256  809   19,000   94,668
    #   5,128  560,588  748   34,500  168,884
    #   5,144  391,704  625   50,000  243,072
    #   5,160  148,632  385   50,000  242,974
    #   5,176  -94,342
    SUMMIT = ((0, 120), (5000, -120), (5080, 500), (60000, 0))
    SHORT = {"length": 64, "rated": 0}

    def test_over_a_summit(self):
        for limit, location, first in (
                (0, 5176, 5176),        # the stop, as ever
                (386, 5160, 5160),      # 148,996: below what it dips to, so that the first crossing is the last
                (385, 5176, 5176),      # 148,225
                (736, 5144, 5144),      # 541,696: less than it dips to
                (737, 5144, 5048),      # 543,169: down to it at 5,048, up again, and for good at 5,144
                (749, 5128, 5032),      # 561,001
                (760, 5128, 5032),      # 577,600: above at 5,016 too
                (761, 5128, 5016),      # 579,121
                (799, 5128, 5016),
                (800, 5128, 5000),      # the train's own speed
                (809, 5128, 5000),      # 654,481: below already; above at 5,096 and 5,112
                (810, 5112, 5000),      # 656,100
                (821, 5112, 5000),      # 674,041
                (822, 5000, 5000),      # equality at the rise stays
                (823, 5000, 5000),
                (10000, 5000, 5000)):
            with self.subTest(limit=limit):
                self.assertEqual(walk(limit, 800, self.SUMMIT, **self.SHORT), location)
                # document 01's, by the switch
                self.assertEqual(walk(limit, 800, self.SUMMIT, built.FIRST_CROSSING, **self.SHORT), first)

    def test_at_rest(self):
        # No step, downhill too: every location is the head.
        for limit in (0, 1, 10000):
            for build in ((), (built.FIRST_CROSSING,)):
                self.assertEqual(walk(limit, 0, ((0, -500), (60000, 0)), *build, rated=0), 5000)

    def test_model_is_the_table(self):
        heads = model(800, self.SUMMIT, **self.SHORT)
        self.assertEqual([q for _, q in heads], [640000, 578868, 546496, 542875, 567996, 621849, 675684, 655256, 560588,
                                                 391704, 148632, -94342])
        self.assertEqual((heads[0][0], heads[-1][0]), (5000, 5176))

    def test_cut_below_the_limit(self):
        # Level and without brakes from 50 mph: 32,768 ft further it is well below 45 mph, and nobody knows what comes then.
        level = ((0, 0), (60000, 0))
        heads = model(5000, level, rated=0)
        self.assertEqual((len(heads), heads[-1][0]), (2049, 37768))
        self.assertTrue(0 < heads[-1][1] < 4500 ** 2)
        for limit in (0, math.isqrt(heads[-1][1]), 4500, 5000, 9000, 10000):
            with self.subTest(limit=limit):
                self.assertEqual(walk(limit, 5000, level, rated=0), NONE)
                self.assertEqual(walk(limit, 5000, level, built.FIRST_CROSSING, rated=0), crosses(heads, limit))
        self.assertEqual(crosses(heads, 5000), 5000)
        self.assertLess(crosses(heads, 4500), 37768)

    def test_rolling_country(self):
        draw = random.Random(1)
        rises = cuts = 0
        for _ in range(30):
            speed, ground, more = rolling(draw)
            heads = model(speed, ground, **more)
            # speeds at which something turns, and others
            limits = {0, speed, 10000, draw.randint(0, 2 * speed)}
            for i in draw.sample(range(len(heads)), min(3, len(heads))) + [max(range(len(heads)), key=lambda i: heads[i][1])]:
                root = math.isqrt(max(heads[i][1], 0))
                limits |= {max(root - 1, 0), root, root + 1}
            for limit in limits:
                want, first = stays(heads, limit), crosses(heads, limit)
                self.assertEqual(walk(limit, speed, ground, **more), want)
                self.assertEqual(walk(limit, speed, ground, built.FIRST_CROSSING, **more), first)
                # never short of the first crossing (decision 119)
                self.assertGreaterEqual(want, first)
                rises += first < want < NONE
                cuts += first < want == NONE
        self.assertGreater(rises, 50)
        self.assertGreater(cuts, 50)


if __name__ == "__main__":
    unittest.main()
