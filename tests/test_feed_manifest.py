"""Tests of tools/feed: random feeds with blocks, where R-1's shares and a weight that is spread evenly part."""

import functools
import unittest
from itertools import accumulate

from built import EVENLY
from here import feeds
from feeds import edges, loads, manifests, records
from feeds.chance import Draw
from feeds.trains import draw_train
from feeds.walks import Sums, Walk, averages
from second_program import run as second, told

# Each load on each ground.
NUMBERS = range(len(manifests.LOADS) * len(manifests.GROUNDS))
# Of an edge train: as light and short as can be, and as heavy and long.
SMALL, GREAT = {"length": 50, "weight": 10}, {"length": 20000, "weight": 30000}


class Loads(unittest.TestCase):
    """Blocks by themselves."""

    TRAINS = [SMALL, GREAT, {"length": 64, "weight": 64}, {"length": 51, "weight": 30000},
              *(draw_train(Draw(seed)) for seed in range(9))]

    def drawn(self, load, count=60):
        for train in self.TRAINS:
            for seed in range(count):
                yield train, load(Draw(seed), train)

    def test_every_one_is_right(self):
        for load in (*loads.ANY, *manifests.LOADS):
            for train, blocks in self.drawn(load):
                with self.subTest(load=load.__name__, train=train):
                    self.assertIn(len(blocks), range(1, 65))
                    self.assertGreater(min(map(min, blocks)), 0)
                    self.assertEqual(tuple(map(sum, zip(*blocks))), (train["length"], train["weight"]))

    def test_how_many(self):
        for load, least, most in ((loads.one, 1, 1), (loads.halves, 2, 2), (loads.few, 2, 3), (loads.mixed, 2, 63),
                                  (loads.empties_first, 2, 63), (loads.feet, 2, 64), (loads.most, 64, 64), (loads.least, 64, 64)):
            counts = {len(load(Draw(seed), GREAT)) for seed in range(500)}
            with self.subTest(load=load.__name__):
                self.assertEqual((min(counts), max(counts)), (least, most))
        self.assertEqual(len(loads.most(Draw(0), SMALL)), 10)

    def test_empties_and_loads(self):
        for seed in range(60):
            blocks, reverse = (load(Draw(seed), GREAT) for load in (loads.empties_first, loads.loads_first))
            (front, front_tons), (rear, rear_tons) = blocks[0], blocks[-1]
            self.assertGreater(rear_tons / rear, 3 * front_tons / front)
            self.assertEqual(reverse, blocks[::-1])

    def test_equal_halves_and_single_feet(self):
        self.assertEqual(loads.halves(None, {"length": 300, "weight": 1000}), [(150, 500)] * 2)
        self.assertEqual(loads.halves(None, {"length": 51, "weight": 11}), [(25, 5), (26, 6)])
        for _, blocks in self.drawn(loads.feet):
            self.assertGreaterEqual(sum(length == 1 for length, _ in blocks), len(blocks) - 1)
        for _, blocks in self.drawn(loads.least):
            self.assertGreaterEqual(blocks.count((1, 1)), len(blocks) - 1)

    def test_now_and_then(self):
        drawn = [loads.now_and_then(Draw(seed), GREAT) for seed in range(1000)]
        self.assertIn(drawn.count([]), range(700, 900))


class Model(unittest.TestCase):

    HALVES = [(0, 0, 0, 0), (750, 1, 1, 0), (751, 0, 0, 0), (900, 1, 1, 0), (902, 0, 0, 0), (40000, 0, 0, 0)]
    TRAIN = {"cars": 100, "axles": 400, "weight": 6000, "length": 6000, "rated": 300000, "application": 60000, "set": 9000}
    SAG = [(0, -100, 0, 0), (10000, 100, 0, 0), (60000, 0, 0, 0)]
    BLOCKS = [(3000, 600), (3000, 5400)]

    def test_two_equal_halves(self):
        # 500 x 100 / 150 and 500 x 200 / 150 are 333 and 666, and 999 / 1,000 is 0; 100 x 3 / 300 is 1.
        sums = Sums(self.HALVES)
        self.assertEqual(averages(sums, 1000, [(150, 500), (150, 500)])[0], 0)
        self.assertEqual(averages(sums, 1000, [(300, 1000)])[0], 1)

    def test_curvature_has_no_hundred(self):
        # Of 2 degrees under 3 ft, 2 tons of 4: 2 x 600 / 3 + 0 = 400, over 4.
        sums = Sums([(0, 0, 0, 0), (97, 0, 200, 0), (100, 0, 0, 0)])
        self.assertEqual(averages(sums, 100, [(3, 2), (50, 2)]), (0, 100))
        # -1 x 100 x 1 / 3 is -34 when it is rounded down.
        self.assertEqual(averages(Sums([(0, 0, 0, 0), (99, -1, 0, 0), (100, 0, 0, 0)]), 100, [(3, 1), (50, 99)])[0], -1)

    def test_head_end_first(self):
        sums = Sums(self.SAG)
        self.assertEqual(averages(sums, 13000, self.BLOCKS)[0], -8000)
        self.assertEqual(averages(sums, 13000, self.BLOCKS[::-1])[0], 8000)
        self.assertEqual(averages(sums, 13000, [(6000, 6000)])[0], 0)

    def test_empties_in_front_across_a_sag(self):
        for head, stop, even in ((13000, 14520, 14120), (13029, 14549, 14149)):
            self.assertEqual(Walk(self.TRAIN, self.SAG, head, 2000, self.BLOCKS).location(0), stop)
            for blocks in ((), [(6000, 6000)]):
                self.assertEqual(Walk(self.TRAIN, self.SAG, head, 2000, blocks).location(0), even)

    def test_least_place_that_is_not_called_for(self):
        walk = Walk(dict(self.TRAIN, offset=300), self.SAG, 13000, 2000, self.BLOCKS)
        # half the speed: three quarters of the offset
        self.assertEqual((walk.uncalled(0), walk.offset(1000), walk.offset(2000), walk.offset(2001)), (14820, 225, 0, 0))
        self.assertEqual(walk.uncalled(1000), walk.location(1000) + 225)
        runaway = Walk(dict(self.TRAIN, offset=300, rated=0), [(0, -500, 0, 0), (60000, 0, 0, 0)], 13000, 2000, self.BLOCKS)
        self.assertEqual(runaway.uncalled(0), 13000 + 32768 + 1)


@functools.cache
def of_number(number):
    """A feed of the kind, and what the second program prints for it, and with the weight spread evenly.  The seeds that pick the
    kind are numbered on from each other."""
    picking = [seed for seed in range(30) if feeds.kind_of(seed) == "manifest"]
    rounds, place = divmod(number, len(picking))
    data = feeds.random_feed(30 * rounds + picking[place])
    return data, second(data), second(data, EVENLY)


class Kind(unittest.TestCase):

    def test_none_refused(self):
        for number in NUMBERS:
            data, said, _ = of_number(number)
            with self.subTest(number=number):
                self.assertNotIn("x", said)
                self.assertIn(len(feeds.split(data)[3]), range(2, 9))

    def test_blocks_of_its_cases(self):
        for number in NUMBERS:
            data, _, _ = of_number(number)
            blocks, load = feeds.blocks_of(feeds.split(data)[0]), manifests.LOADS[number % len(manifests.LOADS)]
            with self.subTest(number=number, load=load.__name__):
                self.assertEqual(len(blocks), data[16])
                if load is loads.one:
                    self.assertEqual(len(blocks), 1)
                elif load is loads.most:
                    self.assertEqual(len(blocks), 64)
                elif load is loads.halves:
                    self.assertEqual(len(set(blocks)), 1)
                    self.assertEqual(len(blocks), 2)
                elif load is loads.feet:
                    self.assertGreaterEqual(sum(length == 1 for length, _, _ in blocks), len(blocks) - 1)

    def test_seams(self):
        """At a step of the walk, or a foot off, all blocks end where the grade changes."""
        for seed in range(40):
            made = manifests.Manifest(Draw(seed), loads.mixed, manifests.seams)
            starts = {start for start, *_ in made.profile[1:-1]}
            behind = accumulate((length for length, _ in made.blocks), initial=0)
            ends = {made.head - feet for feet in behind}
            shifts = [16 * steps + more for steps in range(20) for more in (-1, 0, 1)]
            self.assertTrue(any({end + shift for end in ends if end + shift > made.profile[0][0]} == starts for shift in shifts))

    def test_model_calls_where_the_program_does(self):
        """The least place that is not called for, by weight and evenly, with the train where its walk was taken."""
        for number in NUMBERS:
            load, ground = (cases[number % len(cases)] for cases in (manifests.LOADS, manifests.GROUNDS))
            made = manifests.draw_manifest(Draw(number), load, ground)
            for walk, build in ((made.walk, ()), (made.even, (EVENLY,))):
                for limit in (0, walk.speed // 2):
                    place = walk.uncalled(limit)
                    causes = [self.cause(made, target, limit, build) for target in (place - 1, place)]
                    with self.subTest(number=number, limit=limit, build=build):
                        self.assertEqual(causes, [1, 0])

    def cause(self, made, target, limit, build):
        feed = feeds.Feed(made.train)
        feed.blocks, feed.profile, feed.targets = made.blocks, made.profile, [(target, limit)]
        full, speed = (feeds.nearest_bits(hundredths, 100) for hundredths in (made.train["set"], made.walk.speed))
        # the nearest binary32 may count as a hundredth more of speed, or less of pressure
        feed.samples = [feeds.pack_sample(0, made.head, speed - 1, full + 1, full + 1)]
        return int(told(second(feed.bytes(), *build).splitlines())[0][0].split()[3])

    def test_what_is_shown(self):
        shown = [feeds.weighed(data, said.encode(), even.encode())[1] for data, said, even in map(of_number, NUMBERS)]
        self.assertNotIn(feeds.UNLIKE, shown)
        for name in ("call more", "call less", "farther", "nearer"):
            self.assertGreater(shown.count(name), 1, name)

    def test_targets_between_the_stops(self):
        """Where the target stands between the two, one alone calls for it, unless they come to its speed at one place."""
        places, shown = manifests.PLACES, []
        for number in range(len(places) * 3):
            data, said, even = of_number(number)
            if places[number % len(places)] is manifests.between and data[16] > 2:
                shown.append(feeds.weighed(data, said.encode(), even.encode())[1])
        self.assertGreater(len(shown), 4)
        self.assertGreater(shown.count("call more") + shown.count("call less"), len(shown) * 3 // 4)


class Broken(unittest.TestCase):
    """Blocks that break a rule: 13."""

    def told(self, spoil, length, weight):
        train = dict(draw_train(Draw(1)), cars=1, length=length, weight=weight)
        feed = feeds.Feed(train)
        feed.profile = [(0, 0, 0, 0), (length + 32768, 0, 0, 0)]
        spoil(feed, length)
        return second(feed.bytes())

    def test_each_rule(self):
        spoils = [spoil for spoil in edges.OUTSIDE if "block" in spoil.__qualname__]
        self.assertEqual(len(spoils), 15)
        for spoil in spoils:
            for length, weight in ((50, 10), (20000, 30000)):
                self.assertEqual(self.told(spoil, length, weight), "x 13\n")
        # as they were, they are right
        self.assertEqual(self.told(edges.outside_blocks(), 50, 10), "")

    def test_too_light_comes_first(self):
        for number in (24, 48):
            # a seed that is told to be of the kind is its own number
            self.assertNotEqual(feeds.kind_of(number), "edges")
            data = feeds.random_feed(number, "edges")
            self.assertEqual((data[16], second(data)), (65, "x 5\n"))

    def test_every_spoil_has_its_turn(self):
        self.assertEqual(len(set(edges.OUTSIDE)), len(edges.OUTSIDE))
        # sums one off, lengths and weights of 0 with the sums right
        train = {"length": 50, "weight": 10}
        sums = set()
        for spoil in edges.OUTSIDE:
            feed = feeds.Feed(dict(train))
            if spoil.__qualname__.startswith("outside_blocks"):
                spoil(feed, 50)
                length, weight, spare = map(sum, zip(*feed.blocks))
                sums.add((length - 50, weight - 10, spare, min(min(block[:2]) for block in feed.blocks)))
        self.assertEqual(sums, {(0, 0, 0, 0), (0, 0, 1, 1), (0, 0, 2, 1), (1, 0, 0, 1), (-1, 0, 0, 1), (0, 1, 0, 1),
                                (0, -1, 0, 1)})

    def test_sixty_five_with_right_sums(self):
        for train in (SMALL, GREAT):
            feed = feeds.Feed(dict(train))
            edges.too_many_blocks(feed, None)
            self.assertEqual(len(feed.blocks), 65)
            self.assertEqual(tuple(map(sum, zip(*feed.blocks))), (feed.consist["length"], feed.consist["weight"]))

    def test_kinds_that_break_blocks(self):
        for kind, numbers in (("damaged", (11, 18, 21, 28)), ("cut", (1, 10, 19, 28, 37, 46))):
            for number in numbers:
                # a seed that is told to be of the kind is its own number
                self.assertNotEqual(feeds.kind_of(number), kind)
                with self.subTest(kind=kind, number=number):
                    self.assertEqual(second(feeds.random_feed(number, kind)), "x 13\n")
        ends = [len(feeds.random_feed(number, "cut")) for number in (1, 10, 19, 28, 37, 46)]
        # the count missing, and bytes of blocks
        self.assertIn(16, ends)
        self.assertGreater(max(ends), 17)

    def test_other_kinds_have_blocks(self):
        for kind in ("trip", "brakes", "light", "grades", "brink", "runaway", "emergency", "undulating", "damaged", "edges", "quiet",
                     "learning"):
            counts = [records.block_count(feeds.random_feed(seed, kind)) for seed in range(150)]
            with self.subTest(kind=kind):
                self.assertGreater(len([count for count in counts if count]), 5)
                self.assertGreater(counts.count(0), 40)


if __name__ == "__main__":
    unittest.main()
