"""Tests of the second program: R-3 of 02, the application time learnt from the rear pressure.

What is learnt, and how long it serves; test_second_learn_steps has the way there.  Pipes are those of second_learning.
"""

import ctypes
import math
import os
import unittest
import unittest.mock

import built
from built import TYPED
from second_learning import DONE, LEVEL, NOTHING, REAR_FALLS, SHORT, Trip, WAITING, fall, sums_of, until
from second_program import EVERLASTING, PointSums, made, printed, psi, run, whole

NAN = 0x7fc00000


class Vectors(unittest.TestCase):
    """Worked apart from this program: (time, head, mph, front, rear)."""

    FIRST = ((0, 5000, "40.0", 9000, 9000), (1, 5058, "40.0", 8700, 9000), (6, 5350, "40.0", 8000, 9000),
             (11, 5640, "39.0", 8000, 8700), (12, 5697, "39.0", 8000, 8625), (13, 5754, "39.0", 8000, 8550),
             (14, 5811, "38.0", 8000, 8475), (15, 5867, "38.0", 8000, 8400), (16, 5923, "38.0", 8000, 8375),
             (17, 5983, "30.105", 8000, 8375), (18, 6027, "30.0", 8000, 8375))
    # The ratio is exactly one half at 9: 25 h, where the line over all four falls by 50 a second.
    HALF = tuple((time, head, "40.0", front, rear) for time, head, front, rear in (
        (0, 5000, 9000, 9000), (1, 5058, 8600, 9000), (5, 5292, 8000, 9000), (6, 5351, 8000, 8700), (7, 5409, 8000, 8625),
        (8, 5467, 8000, 8575), (9, 5526, 8000, 8550), (10, 5584, 8000, 8525), (11, 5643, 8000, 8512), (12, 5701, 8000, 8512)))

    def stops(self, vector, *build):
        lines = printed([(*one[:3], *map(psi, one[3:])) for one in vector], profile=LEVEL, build=build)
        return [int(line.split()[4]) for line in lines]

    def times(self, vector, *build):
        trip, heard = Trip(build=build), []
        for time, _, _, front, rear in vector:
            heard.append(trip.hear((time, front, rear)).time)
        return heard

    def test_first(self):
        # A result rounded down would be 35,741, and the stop at 17 then 6,495.
        self.assertEqual(self.times(self.FIRST), [30000] * 8 + [35742] * 3)
        self.assertEqual(self.stops(self.FIRST), [6296, 6354, 6390, 6456, 6497, 6522, 6547, 6603, 6659, 6511, 6539])

    def test_one_half_waits(self):
        self.assertEqual(self.times(self.HALF), [30000] * 8 + [46157] * 2)
        self.assertEqual(self.stops(self.HALF), [6296, 6354, 6380, 6391, 6417, 6427, 6454, 6480, 6507, 6629])

    def test_typed(self):
        # As typed they are the same up to the sample that learns, and nearer from the next one on.
        for vector in (self.FIRST, self.HALF):
            learnt = next(i for i, time in enumerate(self.times(vector)) if time != 30000)
            self.assertEqual(self.times(vector, TYPED), [30000] * len(vector))
            pairs = list(zip(self.stops(vector, TYPED), self.stops(vector)))
            self.assertTrue(all(typed == stop for typed, stop in pairs[:learnt + 1]))
            self.assertTrue(all(typed < stop for typed, stop in pairs[learnt + 1:]))

    def test_sanitized(self):
        long = fall([(t, 8700 - 2 * t) for t in range(256)] + [(260, 8100)])
        data = [made([(time, 5000, "0.0", *map(psi, one)) for time, *one in pipe], profile=LEVEL)
                for pipe in ([(time, *one) for time, _, _, *one in self.FIRST], long)]
        # the search for leaks takes seconds, and nothing is allocated
        with unittest.mock.patch.dict(os.environ, ASAN_OPTIONS="detect_leaks=0"):
            for one in data:
                self.assertEqual(run(one, *built.CHECKED), run(one))


class Figures(unittest.TestCase):

    def learns(self, pipe, want):
        """At the last sample and not before."""
        self.assertEqual(Trip(*pipe[:-1]).time, 30000)
        self.assertEqual(Trip(*pipe).time, want)

    def test_part_of_full_service(self):
        self.learns(fall(list(enumerate((8700, 8620, 8540, 8460, 8380, 8360)))), 34344)
        self.learns(fall(SHORT), 30040)

    def test_full_service(self):
        # 6,400 is below E already: -28 / 100 s, and 4 s.
        self.learns(fall(list(enumerate((6400, 6300, 6200, 6100, 6095))), t_init=3), 3720)

    def test_last_pressure_decides(self):
        # 272 / 100 s where the last one is below E, though those of the line are not; 272 / 119.33 where it is at E.
        line = [(0, 6700), (1, 6600), (2, 6500)]
        self.learns(fall(line + [(6, 6427)], t_init=3), 4000 + 2720)
        self.learns(fall(line + [(6, 6428)], t_init=3), 4000 + 2280)

    def test_fourth_point(self):
        # The third falls by less than half already, and is no end.
        pipe = fall([(0, 8700), (1, 8500), (2, 8490), (3, 8480)])
        self.assertEqual((Trip(*pipe[:-1]).stage, Trip(*pipe).stage), (REAR_FALLS, DONE))

    def test_slope_is_between_points(self):
        # A rear that stays, or rises, is no point, and its seconds count for the next one: 60 h, in 1 s or in 3 s.
        for waits in ((), (8500, 8510)):
            pipe = fall(SHORT[:3])
            for rear in (*waits, 8440):
                pipe.append((pipe[-1][0] + 1, 8700, rear))
            self.assertEqual(Trip(*pipe).stage, DONE if waits else REAR_FALLS)

    def test_equalization_is_this_samples(self):
        # Six odd drops leave 5 A + 2 B at 44,994, so that a second reduction at 14 finds 6,427: 2,273 / 119.33 s.
        pipe = [(0, 9000, 9000)] + [(time, 8500, 9000) for time in range(1, 11)]
        pipe += [(11, 8500, 8700), (12, 8500, 8600), (13, 8500, 8500), (14, 8300, 8490)]
        self.assertEqual(Trip(*pipe[:-1]).session.brakes.equalization, 6428)
        self.learns(pipe, 30049)
        self.assertEqual(Trip(*pipe).session.brakes.equalization, 6427)

    def learnt_by(self, sums, *more):
        call = built.core().second_learnt_time
        call.restype = ctypes.c_int64
        return call(ctypes.byref(PointSums(*sums)), *whole(*more))

    def learnt(self, points, t_init, last_p):
        return self.learnt_by(sums_of(points), t_init, last_p, 6428)

    def test_rounded_up(self):
        # -10 / 3 s is -3,333.3 ms, 10 / 3 s is 3,333.3.
        self.assertEqual(self.learnt([(0, 6418), (1, 6415), (2, 6412)], 9, 6400), 10000 - 3333)
        self.assertEqual(self.learnt([(0, 6438), (1, 6435), (2, 6432)], 9, 6400), 10000 + 3334)

    def test_held_inside_the_range(self):
        for above, want in ((-98, 1020), (-100, 1000), (-101, 1000), (-6000, 1000)):
            self.assertEqual(self.learnt([(t, 6428 + above - 100 * t) for t in range(3)], 1, 300), want)
        for above, want in ((199, 239000), (200, 240000), (201, 240000), (9000, 240000)):
            self.assertEqual(self.learnt([(t, 6428 + above - t) for t in range(3)], 39, 6427), want)
        self.learns(fall([(0, 100), (1, 90), (2, 80), (3, 79)]), 1000)
        self.learns(fall([(0, 8700), (1, 8698), (2, 8696), (7, 8695)], t_init=50), 240000)

    def test_without_a_fall_there_is_no_result(self):
        # Of points that a run never has: a line that does not fall.
        for points in ([], [(0, 6000)], [(0, 6000), (1, 6000)], [(0, 6000), (1, 6001)]):
            self.assertEqual(self.learnt(points, 9, 6000), 0)
        # Less than a full service falls by 9.33 h a second even so.
        self.assertEqual(self.learnt([(0, 6500), (1, 6500)], 9, 6500), 10000 + math.ceil(7200000 / 933))

    def test_greatest_sums(self):
        # Sums that no points have, of the sizes that 256 points can: M is -1, and 100,000 X is 1.5 x 10^19, past 64 bits.
        self.assertEqual(self.learnt_by((256, 1, 599 * 599 * 256, 15999 * 256 + 1, 15999), 0, 0, 9600), 240000)


class InForce(unittest.TestCase):
    """How long a learnt time serves."""

    def test_the_held_fall_stays(self):
        # 18,000,000 / 210,000 is 85; 18,000,000 / (7 x 30,040) is 85.6, / (7 x 46,157) 55.7.
        trip = Trip(*((time, front, rear) for time, _, _, front, rear in Vectors.HALF[:-1]))
        self.assertEqual((trip.time, trip.session.brakes.state, trip.session.brakes.fall), (46157, 1, 85))
        a = trip.session.brakes.a
        trip.hear((12, 8000, 8512))
        self.assertEqual((trip.session.brakes.fall, trip.session.brakes.a), (85, a - 85))
        trip.hear((13, 9000, 8512), (14, 8000, 8512))
        self.assertEqual((trip.session.brakes.state, trip.session.brakes.fall), (1, 55))

    def test_an_application_with_the_sample_that_learns(self):
        # Its own update reads the old time: the deeper reduction starts with a fall of 85, where by 240,000 it would be 10.
        trip = Trip(*fall([(0, 8700), (1, 8698), (2, 8696)], t_init=50))
        self.assertEqual(trip.session.brakes.state, 2)
        trip.hear((58, 8000, 8695))
        self.assertEqual((trip.time, trip.session.brakes.state, trip.session.brakes.fall), (240000, 1, 85))

    def test_learnt_anew(self):
        trip = Trip(*fall(SHORT))
        again = fall(list(enumerate((8700, 8620, 8540, 8460, 8380, 8360))), start=100)
        trip.hear(*until(100, [(15, 9000, 9000)]), *again[:-1])
        self.assertEqual((trip.time, trip.session.brakes.a), (30040, 8700))
        trip.hear(again[-1])
        self.assertEqual((trip.time, trip.session.brakes.equalization), (34344, 6428))
        # A later one without a result leaves it.
        trip.hear((120, 9000, 9000), (121, 8000, 9000), (122, 8000, 8000), (123, 9000, 9000))
        self.assertEqual((trip.stage, trip.time), (WAITING, 34344))

    def test_refused_sample_changes_nothing(self):
        pipe = fall(SHORT)
        trip, last = Trip(*pipe[:-1]), pipe[-1]
        before = bytes(trip.session)
        for more, number in (({"mark": 1}, 3), ({"speed": NAN}, 8), ({"head": 0}, 10), ({"room": 15}, 12)):
            self.assertEqual((trip.judge(*last, **more), bytes(trip.session)), (number, before))
        for time in (last[0] - 1, last[0] + 5):
            self.assertEqual((trip.judge(time, *last[1:]), bytes(trip.session)), (9, before))
        self.assertEqual(trip.hear(last).time, 30040)

    def test_opening_forgets(self):
        for pipe in (fall(SHORT), fall(SHORT[:3])):
            trip = Trip(*pipe)
            before = bytes(trip.session)
            self.assertEqual((trip.open(bytes(16)), bytes(trip.session)), (4, before))
            self.assertEqual((trip.open(), bytes(trip.session)), (0, bytes(Trip().session)))
            self.assertEqual((trip.time, trip.learning), (30000, (WAITING, *NOTHING)))

    def test_everlasting_is_alike(self):
        samples = [(*one[:3], *map(psi, one[3:])) for one in Vectors.FIRST]
        self.assertEqual(printed(samples, profile=LEVEL, words=EVERLASTING), printed(samples, profile=LEVEL))


if __name__ == "__main__":
    unittest.main()
