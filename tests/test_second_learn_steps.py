"""Tests of the second program: R-3 of 02, the steps of learning (decision 157), one by one and over many pipes.

Pipes are those of second_learning.
"""

import fractions
import math
import random
import unittest

from second_learning import (DONE, FRONT_FELL, NOTHING, NO_SUMS, REAR_FALLS, REAR_KNOWN, SHORT, Trip, WAITING, fall, sums_of,
                             until)


class Steps(unittest.TestCase):
    """Decision 157, step by step."""

    def test_stages(self):
        trip = Trip()
        self.assertEqual(trip.learning, (WAITING, *NOTHING))
        for sample, want in (
                ((100, 9000, 9000), (WAITING, *NOTHING)),
                # an application, and not yet 3 psi
                ((101, 8701, 9000), (WAITING, *NOTHING)),
                ((103, 8700, None), (FRONT_FELL, 103, 0, 0, 0, NO_SUMS)),
                ((104, 8700, 8900), (REAR_KNOWN, 103, 0, 0, 8900, NO_SUMS)),
                # what falls before the 3 psi is no point and no new p0
                ((105, 8700, 8601), (REAR_KNOWN, 103, 0, 0, 8900, NO_SUMS)),
                ((107, 8700, 8600), (REAR_FALLS, 103, 4, 0, 8600, (1, 0, 0, 8600, 0))),
                ((108, 8700, 8600), (REAR_FALLS, 103, 4, 0, 8600, (1, 0, 0, 8600, 0))),
                ((110, 8700, 8599), (REAR_FALLS, 103, 4, 3, 8599, (2, 3, 9, 17199, 25797))),
                ((111, 8700, None), (REAR_FALLS, 103, 4, 3, 8599, (2, 3, 9, 17199, 25797))),
                ((112, 8700, 8500), (REAR_FALLS, 103, 4, 5, 8500, (3, 8, 34, 25699, 68297))),
                ((113, 8700, 8499), (DONE, *NOTHING))):
            self.assertEqual(trip.hear(sample).learning, want)

    def test_first_sample(self):
        # It can start service; exactly 3 psi off do not.
        self.assertEqual(Trip((7, 8699, 9000)).learning, (REAR_KNOWN, 7, 0, 0, 9000, NO_SUMS))
        self.assertEqual(Trip((7, 8700, 9000)).learning, (WAITING, *NOTHING))
        # The time 0 and a rear of 0 are some, and 2.99 psi have no 3 to fall (decision 158).
        self.assertEqual(Trip((0, 8000, 0)).learning, (REAR_KNOWN, 0, 0, 0, 0, NO_SUMS))
        self.assertEqual(Trip((0, 8000, 0), (1, 8000, 0)).stage, REAR_KNOWN)
        self.assertEqual(Trip((0, 8000, 299), (1, 8000, 0)).stage, REAR_KNOWN)
        self.assertEqual(Trip((0, 8000, 300), (1, 8000, 0)).stage, REAR_FALLS)

    def test_done_until_the_front_is_up(self):
        trip = Trip(*fall(SHORT))
        self.assertEqual((trip.session.brakes.state, trip.stage, trip.time), (2, DONE, 30040))
        # A deeper reduction, with a rear that would teach another time, is no new application.
        for time, rear in ((15, 8490), (20, 8190), (21, 8140), (22, 8090), (23, 8089)):
            self.assertEqual(trip.hear((time, 8400, rear)).learning, (DONE, *NOTHING))
            self.assertEqual(trip.session.brakes.state, 1 if time < 20 else 2)
        for time, front, stage in ((24, 8500, DONE), (25, 8600, DONE), (26, 8700, DONE), (27, 8701, WAITING), (28, 8702, WAITING),
                                   (29, 8700, REAR_KNOWN)):
            self.assertEqual((trip.hear((time, front, 8089)).stage, trip.session.brakes.state), (stage, 2))
        self.assertEqual((trip.learning[1], trip.learning[4], trip.time), (29, 8089, 30040))

    def test_timer_from_the_front_with_the_rear_lost(self):
        # With the timer from the first present rear on it would be 25,040.
        self.assertEqual(Trip(*fall(SHORT, lost=5)).time, 30040)

    def test_600_seconds(self):
        # The front falls at 1.
        for t, want in ((588, 30040), (589, 30040), (590, 30000), (591, 30000)):
            trip = Trip(*fall((*SHORT[:3], (t, 8490))))
            self.assertEqual((trip.stage, trip.time), (DONE, want))
        # In each stage, with the rear lost too.
        for stage, pipe in ((FRONT_FELL, [(0, 9000, 9000), (1, 8700, None)]), (REAR_KNOWN, fall(())),
                            (REAR_FALLS, fall(SHORT[:1]))):
            trip = Trip(*until(600, pipe), (600, *pipe[-1][1:]))
            self.assertEqual((trip.stage, trip.learning[1]), (stage, 1))
            self.assertEqual(trip.hear((601, 8700, None)).learning, (DONE, *NOTHING))
            # A front that is still down begins nothing anew.
            self.assertEqual(trip.hear((602, 8700, 5000)).learning, (DONE, *NOTHING))

    def test_256_points(self):
        steady = [(t, 8700 - 2 * t) for t in range(256)]
        # The 256th may end it: 2,272 / (2.2 + 9.33) s.
        self.assertEqual(Trip(*fall(steady[:255] + [(259, 8191)])).time, 11000 + 197052)
        trip = Trip(*fall(steady))
        self.assertEqual(trip.learning[5], sums_of(steady))
        # Neither a lost rear nor one that does not fall is a further point.
        self.assertEqual(trip.hear((267, 8700, 8190), (268, 8700, None)).stage, REAR_FALLS)
        # The 257th would end it.
        self.assertEqual(trip.hear((273, 8700, 8189)).learning, (DONE, *NOTHING))
        self.assertEqual(trip.time, 30000)

    def test_lost_rear_counts_for_nothing(self):
        # Though it counts as 9,000 up to 5, and as the front of 8,000 at 6 and at 15.
        pipe = ((0, 9000, 9000), (1, 8000, None), (5, 8000, None), (6, 8000, None), (7, 8000, 9000), (9, 8000, 8700),
                (10, 8000, None), (14, 8000, None), (15, 8000, None), (16, 8000, 8000), (17, 8000, 7900), (18, 8000, 7899))
        counted = [9000, 9000, 9000, 8000, 9000, 8700, 8700, 8700, 8000, 8000, 7900, 7899]
        stages = [WAITING] + [FRONT_FELL] * 3 + [REAR_KNOWN] + [REAR_FALLS] * 6 + [DONE]
        # From 8,700 at 9 to 7,900 at 17 it falls by exactly 100 a second: SHORT's line, its t_INIT 8.
        for choice in (0, 1):
            trip = Trip(choice=choice)
            for sample, rear, stage in zip(pipe, counted, stages):
                self.assertEqual((trip.hear(sample).stage, trip.time), (stage, 28040 if stage == DONE else 30000))
                if choice == 0:
                    self.assertEqual(trip.session.brakes.last_rear, rear)

    def test_a_left_state_waits(self):
        # A release, and an emergency, at each stage, where the learner would go on or end.
        for front, state in ((9000, 5), (7000, 3)):
            for pipe in (fall(())[:1] + [(1, 8700, None)], fall(()), fall(SHORT[:1]), fall(SHORT[:3]), fall(SHORT)):
                trip = Trip(*pipe)
                before, time = trip.stage, trip.session.brakes.last_time
                self.assertNotEqual(before, WAITING)
                trip.hear((time + 1, front, 8490))
                self.assertEqual((trip.session.brakes.state, trip.learning), (state, (WAITING, *NOTHING)))
                self.assertEqual(trip.time, 30040 if before == DONE else 30000)
        # What was recorded is gone: the next application begins with a p0 of its own.
        trip = Trip(*fall(SHORT[:3]), (14, 9000, 8490), (15, 8700, 8400))
        self.assertEqual(trip.learning, (REAR_KNOWN, 15, 0, 0, 8400, NO_SUMS))


class Letter:
    """Section 3.7 by its letter and decision 157, over points and with lines by their means."""

    def __init__(self):
        self.stage, self.time, self.points = WAITING, 30000, []

    def line(self, points):
        t, p = (fractions.Fraction(sum(values), len(points)) for values in zip(*points))
        slope = sum((x - t) * (y - p) for x, y in points) / sum((x - t) ** 2 for x, _ in points)
        return slope, p - slope * t

    def end(self, equalization):
        slope, intercept = self.line(self.points[:-1])
        if self.points[-1][1] >= equalization:
            slope = slope * 11 / 10 - fractions.Fraction("9.33")
        return min(max(math.ceil(1000 * ((equalization - intercept) / slope + self.t_init + 1)), 1000), 240000)

    def hear(self, time, front, rear, brakes):
        """What happened, in a word or two."""
        if brakes.state not in (1, 2):
            was, self.stage = self.stage, WAITING
            return "cut in %d by %d" % (was, brakes.state)
        if self.stage == DONE:
            self.stage = DONE if front <= 8700 else WAITING
            return "done" if self.stage == DONE else "waits again"
        if self.stage == WAITING:
            if front > 8700:
                return "waits"
            self.stage, self.fell_at, self.points = FRONT_FELL, time, []
            if rear is not None:
                self.stage, self.p0 = REAR_KNOWN, rear
            return "front falls"
        if time - self.fell_at >= 600:
            self.stage = DONE
            return "600"
        if rear is None:
            return "lost in %d" % self.stage
        if self.stage == FRONT_FELL:
            self.stage, self.p0 = REAR_KNOWN, rear
            return "p0"
        if self.stage == REAR_KNOWN:
            if rear > self.p0 - 300:
                return "no 3 psi"
            self.stage, self.t_init = REAR_FALLS, time - self.fell_at
            self.points.append((0, rear))
            return "first"
        if rear >= self.points[-1][1]:
            return "stays"
        if len(self.points) == 256:
            self.stage = DONE
            return "257th"
        self.points.append((time - self.fell_at - self.t_init, rear))
        if len(self.points) < 4:
            return "point"
        (t, p), (then, before) = self.points[-1], self.points[-2]
        ratio = fractions.Fraction(p - before, t - then) / self.line(self.points)[0]
        if ratio >= fractions.Fraction(1, 2):
            return "on"
        self.stage, self.time = DONE, self.end(brakes.equalization)
        return "learnt"

    def learning(self):
        """As a trip tells it."""
        if self.stage in (WAITING, DONE):
            return (self.stage, *NOTHING)
        if self.stage == REAR_FALLS:
            return (self.stage, self.fell_at, self.t_init, *self.points[-1], sums_of(self.points))
        return self.stage, self.fell_at, 0, 0, self.p0 if self.stage == REAR_KNOWN else 0, NO_SUMS


def applications(draw, count):
    """So many applications, one after the other: front and rear down, often held, deepened, released or ended by emergency."""
    time = draw.randint(0, 1000)
    for _ in range(count):
        front, rear, lost = 9000, 9000, draw.choice((0, 0, 0.3))
        yield time, front, rear
        front = draw.choice((8750, 8700, 8500, 8000, 7000, 6000))
        drop, flat = draw.choice((2, 20, 75, 200)), draw.choice((0.1, 0.3))
        pause = draw.choice((1, 1, 1, 2, 5))
        for i in range(draw.choice((4, 12, 30, 130))):
            time += pause
            if draw.random() < 0.05:
                front = max(front + draw.choice((-200, -40, 40, 60)), 0)
            if i > 2:
                rear = max(rear - (draw.choice((300, 350)) if rear > 8700 else draw.choice((0, 1, drop // 2, drop)) if
                                   draw.random() < flat else drop), 5000)
            yield time, front, None if draw.random() < lost else rear
        time += draw.randint(1, 2)
        yield time, max(front - draw.choice((-600, -600, 0, 4000)), 0), rear
        time += draw.randint(1, 5)


class Letters(unittest.TestCase):

    def test_many(self):
        draw = random.Random(3)
        seen = {}
        for _ in range(150):
            trip, letter, learnt = Trip(choice=draw.choice((0, 1))), Letter(), 0
            for sample in applications(draw, draw.randint(1, 4)):
                trip.hear(sample)
                what = letter.hear(*sample, trip.session.brakes)
                learnt += what == "learnt"
                what = "anew" if what == "learnt" and learnt > 1 else what
                seen[what] = seen.get(what, 0) + 1
                self.assertEqual((trip.time, trip.learning), (letter.time, letter.learning()), (sample, what))
        for what in ("learnt", "anew", "done", "waits", "waits again", "600", "lost in 1", "lost in 2", "lost in 3", "p0",
                     "no 3 psi", "stays", "on", "cut in 2 by 3", "cut in 3 by 3", "cut in 3 by 5", "cut in 4 by 3",
                     "cut in 4 by 5"):
            self.assertGreater(seen.get(what, 0), 3, what)


if __name__ == "__main__":
    unittest.main()
