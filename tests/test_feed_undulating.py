"""Tests of tools/feed: the random feeds of undulating country, where R-2's location and document 01's first crossing part."""

import functools
import unittest

from built import FIRST_CROSSING
from here import feeds
from feeds import undulations
from feeds.chance import Draw
from second_program import mph, psi, run as second, told

# What each case's first difference shows, by number; and where the target stands, but for two cases with a place of their own.
CASES = (("dips", "above"), ("speeds up", "below"), ("cut from below", "cut, below"), ("rises often", "above", "below"),
         ("dips", "above"), ("peaks", "above", "below"), ("cut from above", "cut, above"), ("equals", "above", "below"),
         ("last step", "cut, above", "cut, below"))
PLACES = ("between", "at last", "nearest", "between", "outside")
OWN_PLACES = {"equals": "at last", "last step": "last step"}
NUMBERS = range(len(CASES) * len(PLACES))


def crossing(data):
    """What the second program prints by the first crossing."""
    return second(data, FIRST_CROSSING)


def causes(said):
    """The penalty's, sample by sample."""
    return [int(first.split()[3]) for first, _ in told(said.splitlines())]


@functools.cache
def undulating(number):
    """A feed of the kind.  A seed that is told to be of it is its own number, but for those that pick it themselves; 45 more has
    the same case and place."""
    return feeds.random_feed(number if feeds.kind_of(number) != "undulating" else number + 45, "undulating")


class Feeds(unittest.TestCase):
    """What the two rules say of each."""

    def seen(self, *places):
        """Of each feed whose target stands there: number, case, the causes by R-2 and by the first crossing from the sample of
        its walk on, and whether the first difference shows what it should."""
        for number in NUMBERS:
            case, *right = CASES[number % len(CASES)]
            if OWN_PLACES.get(case, PLACES[number % len(PLACES)]) in places:
                data = undulating(number)
                said, other = second(data), crossing(data)
                # the train may stand at first; it coasts to the last step at the second sample
                stands = feeds.unpack(feeds.split(data)[3][0], feeds.SAMPLE_WIDTHS)[5] == 0
                walk = 1 if stands or case == "last step" else 0
                self.assertEqual(causes(said)[:walk], [0] * walk)
                shown = feeds.rise(data, said.encode(), other.encode())[1]
                yield number, case, causes(said)[walk:], causes(other)[walk:], shown in right

    def test_few_samples_and_none_refused(self):
        for number in NUMBERS:
            with self.subTest(number=number):
                self.assertIn(len(feeds.split(undulating(number))[3]), range(2, 9))
                self.assertNotIn("x", second(undulating(number)))

    def test_any_three_hundred_seeds_have_thirty(self):
        for first in range(30):
            self.assertEqual(sum(feeds.kind_of(seed) == "undulating" for seed in range(first, first + 300)), 30)

    def test_target_between_first_crossing_and_location(self):
        for number, case, ours, others, right in self.seen("between", "nearest"):
            with self.subTest(number=number, case=case):
                self.assertNotEqual(ours[0], others[0])
                self.assertTrue(right)

    def test_target_at_the_location_and_a_foot_nearer(self):
        for number, case, ours, others, right in self.seen("at last"):
            with self.subTest(number=number, case=case):
                self.assertEqual((ours[0], others[0]), (0, 0))
                # a foot on the peak may be another one
                if case != "peaks":
                    self.assertNotEqual(ours[1:3], others[1:3])
                    self.assertTrue(right)

    def test_target_outside(self):
        for number, case, ours, others, _ in self.seen("outside"):
            with self.subTest(number=number, case=case):
                self.assertEqual(ours[0], others[0])

    def test_last_step(self):
        for number, case, ours, others, right in self.seen("last step"):
            with self.subTest(number=number, case=case):
                self.assertEqual((ours, others), ([0, 1, 1], [0, 0, 0]))
                self.assertTrue(right)


@functools.cache
def countries():
    """For each case's walk its name, country, the target's speed and its bounds."""
    return [(does.__name__, *undulations.draw_country(Draw(seed), does)) for seed, does in enumerate(undulations.WALKS)]


class Walks(unittest.TestCase):
    """What the walks of the cases do, by the model and by the programs."""

    def feed(self, country, *target):
        """One sample, where the walk was taken; one target or none."""
        lines = ["%s %d" % item for item in country.train.items()]
        lines += ["block %d %d" % block for block in country.blocks]
        lines += ["profile %d grade %d curve %d" % record[:3] for record in country.profile]
        lines += ["target %d speed %d" % target] if target else []
        full = psi(country.train["set"])
        lines += ["sample 0 head %d speed %s front %s rear %s" % (country.head, mph(country.walk.speed), full, full)]
        return feeds.make("\n".join(lines))

    def test_model_stops_where_the_program_does(self):
        stops = []
        for name, country, _, _ in countries():
            walk, stop = country.walk, int(second(self.feed(country)).splitlines()[0].split()[4])
            stops.append(stop)
            with self.subTest(name=name):
                self.assertEqual((walk.location(0) or 16777215, walk.first_crossing(0) or 16777215), (stop, stop))
        self.assertEqual(stops.count(16777215), 2)

    def called(self, program):
        """Whether it calls for a target a foot before the bounds, at the first, a foot before the last and at the last; with each
        case's name, and whether the first of the four is ahead of the train and judged."""
        for name, country, limit, (first, last) in countries():
            said = [program(self.feed(country, place, limit)) for place in (first - 1, first, last - 1, last)]
            yield name, first > country.head, [causes(one) == [1] for one in said]

    def test_bounds_of_the_first_crossing(self):
        for name, judged, said in self.called(crossing):
            with self.subTest(name=name):
                self.assertEqual(said, [judged, False, False, False])

    def test_bounds_of_the_location(self):
        for name, judged, said in self.called(second):
            with self.subTest(name=name):
                self.assertEqual(said, [judged, True, True, False])

    def test_what_the_walks_do(self):
        for name, country, limit, _ in countries():
            walk, squares, most = country.walk, country.walk.squares, limit ** 2
            below = next(step for step, square in enumerate(squares) if square <= most)
            rises = sum(one <= most < two for one, two in zip(squares, squares[1:]))
            with self.subTest(name=name):
                self.assertEqual(walk.stops(), not name.startswith("cut"))
                self.assertTrue(rises > (name == "rises_often") or name.startswith("cut"))
                if name in ("dips", "cut_from_above"):
                    self.assertGreater(walk.speed, limit)
                if name in ("speeds_up", "cut_from_below"):
                    self.assertLessEqual(walk.speed, limit)
                if name == "peaks":
                    self.assertLessEqual(max(squares[below:]), (limit + 1) ** 2)
                if name == "equals":
                    self.assertEqual(squares[(walk.location(limit) - walk.head) // 16], most)


if __name__ == "__main__":
    unittest.main()
