"""Tests of the second program: R-11 of 02, finer grades under the train, beside document 01's hundredths by the switch."""

import ctypes
import itertools
import random
import unittest

from built import FIRST_CROSSING, HUNDREDTHS, core
from second_program import CONSIST, both, whole
from second_walks import NONE, averages, crosses, model, rolling, stays, walk


class Average(unittest.TestCase):
    """ "In ten-thousandths of a percent, still down"; C is document 01's."""

    def test_foot_by_foot(self):
        draw = random.Random(11)
        finer = 0
        for _ in range(300):
            starts = sorted(draw.sample(range(400), draw.randint(1, 12))) + [400]
            ground = [(start, draw.choice((0, draw.randint(-3, 3), draw.randint(-500, 500))), draw.randint(0, 2000))
                      for start in starts[:-1]] + [(400, 0, 0)]
            grades, curves = [0] * starts[0], [0] * starts[0]
            for (start, grade, curve), end in zip(ground, starts[1:]):
                grades += [grade] * (end - start)
                curves += [curve] * (end - start)
            rear = draw.randrange(starts[0], 400)
            head = draw.randint(rear + 1, 400)
            grade, curve, length = sum(grades[rear:head]), sum(curves[rear:head]), head - rear
            self.assertEqual(averages(ground, head, length), (100 * grade // length, curve // length))
            self.assertEqual(averages(ground, head, length, HUNDREDTHS), (grade // length, curve // length))
            finer += 100 * grade // length != 100 * (grade // length)
        self.assertGreater(finer, 100)

    def test_hundredths(self):
        # Document 01's figure, -47 / 100; and the others of test_second_walk.
        for ground, length, grade, curve in (
                ([(0, 50, 10), (51, -53, 0), (1000, 0, 0)], 100, -1, 5),
                ([(0, 50, 10), (51, -53, 0), (1000, 0, 0)], 51, 50, 10),
                ([(0, 1), (100, -1), (1000, 0)], 201, -1, 0),
                ([(0, -1), (100, 1), (1000, 0)], 201, 0, 0),
                ([(0, 1), (2, -3), (1000, 0)], 3, -1, 0)):
            self.assertEqual(averages(ground, length, length, HUNDREDTHS), (grade, curve))


class Force(unittest.TestCase):
    """ "2,000 W G in place of 200,000 W G"."""

    def loss(self, grade, *build, curve=0):
        """Force 0, s 1,000, q 1,000,000."""
        return core(*build).loss_of(ctypes.byref(CONSIST), *whole(0, 1000, 1000000, grade, curve))

    def test_hundredths(self):
        # Document 01's figures; one hundredth downhill is 200,000,000 less: 1,370,000,000 gives 3,281.
        for grade, loss in ((0, 3760), (-100, -44141), (-1, 3281)):
            self.assertEqual(self.loss(grade, HUNDREDTHS), loss)

    def test_whole_hundredths_are_alike(self):
        for grade, curve in itertools.product((-500, -53, -1, 0, 1, 50, 500), (0, 10, 2000)):
            self.assertEqual(self.loss(100 * grade, curve=curve), self.loss(grade, HUNDREDTHS, curve=curve))


class Stop(unittest.TestCase):
    """Whole walks by the one and by the other."""

    # The ground of examples/figures/finer-grade, and that of examples/crest.
    FINER = ((0, 50), (52, -53), (101, 500), (40000, 0))
    CREST = ((0, 1), (200, -1), (301, 500), (40000, 0))

    def test_crests(self):
        # Without brakes.  G is -47, and then 56; in hundredths it is -1, and then 0.
        for head, stop, hundredths in ((101, 117, 133), (100, 116, 116)):
            more = {"head": head, "length": 100, "rated": 0}
            self.assertEqual(walk(0, 56, self.FINER, **more), stop)
            self.assertEqual(walk(0, 56, self.FINER, HUNDREDTHS, **more), hundredths)
        # G is -1, and then 0, in either unit.
        for head, stop in ((301, 333), (300, 316)):
            for build in ((), (HUNDREDTHS,)):
                self.assertEqual(walk(0, 58, self.CREST, *build, head=head, length=201, rated=0), stop)

    def test_program(self):
        # The whole program, by each switch and by both.  Under the 600 ft lie 300 ft at 2.00 % and 300 ft at -2.01 %: the
        # sum is -300, and G -50; in hundredths it is -0.5, down -1.  0.55 mph, q 3,025, without brakes:
        # 1,400,000,000 + 5,500,000 + 211,750 - 100,000,000 gives 3,127 and stops it; with 200,000,000 less it is
        # 2,887, and only the rise beyond stops it.
        ground = "profile 0\nprofile 4400 grade 200\nprofile 4700 grade -201\nprofile 5000 grade 500\nprofile 60000"
        sample = [(0, 5000, "0.545", "90.0", "90.0")]
        for build, stop in (((), 5016), ((FIRST_CROSSING,), 5016), ((HUNDREDTHS,), 5032),
                            ((HUNDREDTHS, FIRST_CROSSING), 5032)):
            self.assertEqual(both(sample, build, profile=ground, rated=0)[0][0], "0 0 0 0 %d" % stop)

    def test_never_beyond_hundredths(self):
        # A finer G is never further down (decision 132): not the stop, and not the location for any speed.
        draw = random.Random(12)
        nearer = stops = 0
        for _ in range(60):
            speed, ground, more = rolling(draw)
            fine, coarse = model(speed, ground, **more), model(speed, ground, units=1, **more)
            for limit in (0, draw.randint(0, speed), speed, draw.randint(speed, 2 * speed)):
                location = walk(limit, speed, ground, **more)
                hundredths = walk(limit, speed, ground, HUNDREDTHS, **more)
                self.assertEqual((location, hundredths), (stays(fine, limit), stays(coarse, limit)))
                self.assertLessEqual(location, hundredths)
                nearer += location < hundredths
                stops += limit == 0 and location < hundredths
                # both switches at once are document 01's walk
                self.assertEqual(walk(limit, speed, ground, HUNDREDTHS, FIRST_CROSSING, **more), crosses(coarse, limit))
                self.assertEqual(walk(limit, speed, ground, FIRST_CROSSING, **more), crosses(fine, limit))
        self.assertGreater(stops, 5)
        self.assertGreater(nearer, stops)

    def test_no_stop_either_way(self):
        down = ((0, -500), (60000, 0))
        for build in ((), (HUNDREDTHS,)):
            self.assertEqual(walk(0, 1, down, *build, rated=0), NONE)


if __name__ == "__main__":
    unittest.main()
