"""Tests of the second program: R-1 of 02, averages by weight: by hand, against a model of the papers, and in whole walks."""

import itertools
import math
import random
import unittest

from built import HUNDREDTHS
from here import example, feeds
from second_program import TRAIN, both, made, mph, parts, run
from second_walks import NONE, averages

EVEN = ()


# ---------------------------------------------------------------------- the papers

class Feet:
    """A ground, foot by foot from 0, as sums from its start: records are start, grade and curvature."""

    def __init__(self, ground):
        feet = [list(itertools.chain.from_iterable([record[field]] * (end[0] - record[0])
                                                   for record, end in zip(ground, ground[1:]))) for field in (1, 2)]
        self.sums = [list(itertools.accumulate(one, initial=0)) for one in feet]

    def under(self, head, blocks, units=100):
        """G and C by the blocks: shares, each down, over the whole weight, down."""
        totals = [0, 0]
        for length, weight in blocks:
            for i, (sums, unit) in enumerate(zip(self.sums, (units, 1))):
                totals[i] += weight * unit * (sums[head] - sums[head - length]) // length
            head -= length
        tons = sum(weight for _, weight in blocks)
        return totals[0] // tons, totals[1] // tons

    def evenly(self, head, length, units=100):
        """By document 01 and R-11."""
        return tuple(unit * (sums[head] - sums[head - length]) // length for sums, unit in zip(self.sums, (units, 1)))


def service(train):
    """p at a time of the walk, the brakes charged as it begins."""
    full = train["set"]
    return lambda t: 5 * min(2 * full * t // (7 * train["application"]), full - 5 * full // 7) // 2


def emergency(train):
    """The same by emergency air, nominal being the set pressure."""
    above = train["set"] - 12 * train["set"] // 14
    return lambda t: 6 * min(above * t // 10000, above)


def stop(train, under, head, speed, cylinder):
    """Where a walk ends; `under` gives G and C at a head."""
    q, t, weight = speed * speed, 0, train["weight"]
    for _ in range(2048):
        if q <= 0:
            break
        s, (grade, curve) = math.isqrt(q), under(head)
        q -= 1449 * (1000000 * (train["rated"] * cylinder(t) // 6400) + 600000 * weight + 20000000 * train["axles"]
                     + 100 * weight * s + 7 * train["cars"] * q + 2000 * weight * grade
                     + 8000 * weight * curve) // (605000 * weight)
        t += 12000000 // (11 * s)
        head += 16
    return head if q <= 0 else NONE


# ---------------------------------------------------------------------- what is drawn

def blocks_of(draw, length, weight):
    """Blocks, of one kind or another; often light ones in front."""
    count = min(draw.choice((1, 2, 2, 3, 5, 20, 64)), length)
    weights = parts(draw, count, weight)
    return list(zip(parts(draw, count, length), sorted(weights) if draw.random() < 0.5 else weights))


def ground_of(draw, end, steep, most=12):
    """Records of drawn grades up to steep, some level, some curved; the last only ends it."""
    starts = [0, *sorted(draw.sample(range(1, end), draw.randint(0, most))), end]
    return [(start, draw.choice((0, 1, -1, draw.randint(-steep, steep))), draw.choice((0, draw.randint(0, 2000))))
            for start in starts[:-1]] + [(end, 0, 0)]


class Average(unittest.TestCase):
    """ "A block's share is its weight x its sum under the block / its length, down; the shares' total over the train's weight
    is again rounded down"."""

    # Two equal halves: 300 ft and 1,000 tons, 0.01 % on 750..751 and on 900..902.
    HALVES = ((150, 500), (150, 500))

    def bumps(self, grade, curve=0):
        return [(0, 0, 0), (750, grade, curve), (751, 0, 0), (900, grade, curve), (902, 0, 0), (40000, 0, 0)]

    def test_sag(self):
        # Empties in front of loads: 600 x 10,000 and 5,400 x -10,000 over 6,000.  At 13,029 the loads' sum is
        # 29 x 100 - 2,971 x 100 = -294,200, their share -52,956,000, and -46,956,000 / 6,000 = -7,826.
        sag, train = [(0, -100, 0), (10000, 100, 0), (60000, 0, 0)], ((3000, 600), (3000, 5400))
        for head, grade, even in ((13000, -8000, 0), (13029, -7826, 96), (10000, -10000, -10000), (16000, 10000, 10000)):
            self.assertEqual(averages(sag, head, 6000, blocks=train), (grade, 0))
            self.assertEqual(averages(sag, head, 6000), (even, 0))
            self.assertEqual(averages(sag, head, 6000, blocks=[(6000, 6000)]), (even, 0))
        # The loads in front it is the other way round: block 1 is at the head end.
        self.assertEqual(averages(sag, 13000, 6000, blocks=train[::-1]), (8000, 0))

    def test_halves(self):
        # 500 x 100 x 2 / 150 = 666.7 and 500 x 100 / 150 = 333.3: 999 / 1,000.  In one, 1,000 x 100 x 3 / 300 = 1,000.
        for blocks, grade in ((self.HALVES, 0), ([(300, 1000)], 1), (EVEN, 1)):
            self.assertEqual(averages(self.bumps(1), 1000, 300, blocks=blocks), (grade, 0))
        # Downhill -666.7 and -333.3 are -667 and -334: -1,001 / 1,000 = -1.001, down -2; in one, -1.
        for blocks, grade in ((self.HALVES, -2), ([(300, 1000)], -1), (EVEN, -1)):
            self.assertEqual(averages(self.bumps(-1), 1000, 300, blocks=blocks), (grade, 0))
        # The curvature has no 100: 500 x 200 / 150 = 666.7 and 333.3 again, and 3 x 100 / 300 = 1.
        for blocks, curve in ((self.HALVES, 0), ([(300, 1000)], 1), (EVEN, 1)):
            self.assertEqual(averages(self.bumps(0, 100), 1000, 300, blocks=blocks), (0, curve))

    def test_three_blocks(self):
        # Document 004's train, 1,815 ft and 3,075 tons, its head 1,000 ft past the foot of a climb of 1 % with 2 degrees.
        #   225 x 100 x 7,500 / 75 = 2,250,000.  2,520 x 100 x 92,500 / 1,080 = 21,583,333.3: 925 ft of the 1,080.  0.
        #   23,833,333 / 3,075 = 7,750.7.  Evenly 100 x 100,000 / 1,815 = 5,509.6.
        # Curvature: 225 x 200 = 45,000.  2,520 x 185,000 / 1,080 = 431,666.7.  476,666 / 3,075 = 155.01; 200,000 / 1,815 = 110.2.
        three = ((75, 225), (1080, 2520), (660, 330))
        climb = [(0, 0, 0), (9000, 100, 200), (60000, 0, 0)]
        self.assertEqual(averages(climb, 10000, 1815, blocks=three), (7750, 155))
        self.assertEqual(averages(climb, 10000, 1815), (5509, 110))
        # Turned round: 330 x 10,000 + 2,520 x 100 x 34,000 / 1,080 = 3,300,000 + 7,933,333.3 over 3,075 is 3,653.1.
        self.assertEqual(averages(climb, 10000, 1815, blocks=three[::-1])[0], 3653)

    def test_one_block_is_none(self):
        draw = random.Random(138)
        signs = {-1: 0, 0: 0, 1: 0}
        for _ in range(400):
            ground, length = ground_of(draw, 3000, draw.choice((1, 3, 500))), draw.randint(50, 3000)
            head, weight = draw.randint(length, 3000), draw.randint(10, 30000)
            for build, units in (((), 100), ((HUNDREDTHS,), 1)):
                one = averages(ground, head, length, *build, blocks=[(length, weight)])
                self.assertEqual(one, averages(ground, head, length, *build))
                self.assertEqual(one, Feet(ground).evenly(head, length, units))
            signs[(one[0] > 0) - (one[0] < 0)] += 1
        self.assertGreater(min(signs.values()), 30)

    def test_drawn(self):
        draw = random.Random(1)
        coarser = otherwise = 0
        for _ in range(400):
            ground, length = ground_of(draw, 3000, draw.choice((1, 3, 500))), draw.randint(50, 3000)
            head = draw.randint(length, 3000)
            # in a light train a share's own rounding tells
            blocks = blocks_of(draw, length, draw.randint(64, draw.choice((80, 1000, 30000))))
            feet = Feet(ground)
            fine, coarse = (averages(ground, head, length, *build, blocks=blocks) for build in ((), (HUNDREDTHS,)))
            self.assertEqual((fine, coarse), (feet.under(head, blocks), feet.under(head, blocks, 1)))
            # Not further down than in hundredths, and no steeper than the ground (decisions 132 and 138).
            self.assertGreaterEqual(fine[0], 100 * coarse[0])
            self.assertTrue(-50000 <= fine[0] <= 50000 and 0 <= fine[1] <= 2000)
            coarser += fine[0] > 100 * coarse[0]
            otherwise += abs(fine[0] - averages(ground, head, length)[0]) > 1
        self.assertGreater(coarser, 100)
        self.assertGreater(otherwise, 100)

    def test_steepest(self):
        for grade, length in itertools.product((-500, 500), (64, 20000)):
            for blocks in ([(1, 1)] * 63 + [(length - 63, 30000 - 63)], [(length - 63, 1)] + [(1, 2)] * 63):
                self.assertEqual(averages([(0, grade, 2000), (60000, 0, 0)], 20000, length, blocks=blocks), (100 * grade, 2000))


class Walk(unittest.TestCase):
    """The stops of whole feeds, by service and by emergency air."""

    def lines(self, train, ground, head, speed, blocks):
        """Of one sample with a board a foot ahead, so that the penalty and emergency are called."""
        return both([(0, head, mph(speed), "90.0", "90.0")], blocks=blocks, targets="target %d speed 0" % (head + 1),
                    profile="".join("profile %d grade %d curve %d\n" % record for record in ground), **train)[0]

    def test_drawn(self):
        draw = random.Random(2)
        otherwise = stops = 0
        for _ in range(60):
            cars = draw.randint(1, 60)
            train = dict(TRAIN, cars=cars, axles=4 * cars, weight=draw.randint(10 * cars + 64, 12000),
                         length=draw.randint(64, 6000), rated=draw.choice((0, 30000, 200000)))
            ground, head = ground_of(draw, 50000, 150, 100), draw.randint(train["length"], 15000)
            speed, blocks = draw.choice((50, 300, 1000, 3000)), blocks_of(draw, train["length"], train["weight"])
            feet = Feet(ground)
            ends = [stop(train, lambda at: feet.under(at, blocks), head, speed, air(train)) for air in (service, emergency)]
            self.assertEqual(self.lines(train, ground, head, speed, blocks), tuple("0 0 1 1 %d" % end for end in ends))
            even = stop(train, lambda at: feet.evenly(at, train["length"]), head, speed, service(train))
            for one in (EVEN, [(train["length"], train["weight"])]):
                self.assertEqual(self.lines(train, ground, head, speed, one)[0], "0 0 1 1 %d" % even)
            stops += ends[0] < NONE
            otherwise += ends[0] != even
        self.assertGreater(stops, 30)
        self.assertGreater(otherwise, 15)

    def test_unit_shows_in_a_stop(self):
        # The halves' ground, 6 cars and 24 axles at 0.51 mph, q 2,601: 1,080,000,000 + 5,100,000 + 42 x 2,601 gives 2,599 with
        # G 0; 2,000,000 more, with G 1, 2,603.
        for blocks, end in ((Average.HALVES, 1032), ([(300, 1000)], 1016), (EVEN, 1016)):
            self.assertEqual(both([(0, 1000, "0.505", "90.0", "90.0")], blocks=blocks, cars=6, axles=24, length=300, rated=0,
                                  profile="profile 0\nprofile 750 grade 1\nprofile 751\nprofile 900 grade 1\nprofile 902\n"
                                          "profile 40000"), [("0 0 0 0 %d" % end, "0 0 0 0 0")])


class Vectors(unittest.TestCase):
    """R-1's sag, worked apart from this program, and the texts that state it."""

    TRAIN = {"cars": 100, "axles": 400, "weight": 6000, "length": 6000, "rated": 300000, "application": 60000, "offset": 0,
             "profile": "profile 0 grade -100\nprofile 10000 grade 100\nprofile 60000\n", "targets": "target 14300 speed 0\n"}
    SAMPLES = ((0, 13000, "20.0", "90.0", "90.0"), (1, 13029, "20.0", "90.0", "90.0"))
    BLOCKS = ((3000, 600), (3000, 5400))

    def test_sag(self):
        self.assertEqual([first for first, _ in both(self.SAMPLES, blocks=self.BLOCKS, **self.TRAIN)],
                         ["0 0 1 1 14520", "1 0 1 1 14549"])
        for even in (EVEN, [(6000, 6000)]):
            self.assertEqual(both(self.SAMPLES, blocks=even, **self.TRAIN),
                             [("0 0 0 0 14120", "0 0 0 0 0"), ("1 0 0 0 14149", "1 0 0 0 0")])

    def test_stops_by_emergency_air(self):
        train = dict(TRAIN, **self.TRAIN)
        feet = Feet([(0, -100, 0), (10000, 100, 0), (60000, 0, 0)])
        for (_, head, *_), (_, second) in zip(self.SAMPLES, both(self.SAMPLES, blocks=self.BLOCKS, **self.TRAIN)):
            end = stop(train, lambda at: feet.under(at, self.BLOCKS), head, 2000, emergency(train))
            self.assertTrue(second.endswith(" 0 0 0 %d" % end), second)

    def test_stored_texts_are_these(self):
        feed = made(self.SAMPLES, blocks=self.BLOCKS, **self.TRAIN)
        for name in ("manifest", "figures/manifest-sag"):
            self.assertEqual(feeds.make(example(name)), feed)

    def test_one_block_text_answers_as_none(self):
        words = example("figures/manifest-one-block")
        self.assertEqual(words.count("\nblock 300 1000\n"), 1)
        self.assertEqual(run(feeds.make(words)), run(feeds.make(words.replace("\nblock 300 1000\n", "\n"))))
        halves = words.replace("\nblock 300 1000\n", "\nblock 150 500\nblock 150 500\n")
        self.assertEqual(feeds.make(halves), feeds.make(example("figures/manifest-halves")))


if __name__ == "__main__":
    unittest.main()
