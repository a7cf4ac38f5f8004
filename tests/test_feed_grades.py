"""Tests of tools/feed: grades that all but balance, where R-11's finer averages and those in hundredths part."""

import functools
import unittest

from built import HUNDREDTHS
from feed_texts import TRAIN
from here import feeds
from feeds import grades
from feeds.chance import Draw
from feeds.walks import Walk
from second_program import run as second

ACCEPTED = b"0 0 0 0 7\n0 0 0 0 0\n"


def accepted(said):
    return sum(not first.startswith("x") for first, _ in feeds.answers(said.splitlines()))


class SlightDescents(unittest.TestCase):
    """The count of tools/compare: of one sample of a train of 600 ft with its head at 5,000, so that -5 foot-hundredths under it
    are the last inside, and -6 are -1 exactly."""

    def count(self, *profile, said=ACCEPTED, speed="10.0", length=600):
        text = TRAIN.replace("length 600", "length %d" % length) + "profile 0\n" + "".join(
            "profile %d grade %d\n" % record for record in profile)
        return feeds.slight_descents(feeds.make(
            text + "profile 40000\nsample 0 head 5000 speed %s front 90.0 rear 90.0\n" % speed), said)

    def test_bounds(self):
        for total in range(-8, 3):
            grade = 1 if total > 0 else -1
            with self.subTest(total=total):
                self.assertEqual(self.count((4500, grade), (4500 + abs(total), 0)) if total else self.count(), -6 < total < 0)

    def test_only_what_is_under_the_train(self):
        for first, last, counts in ((4399, 4400, 0), (4399, 4401, 1), (4395, 4405, 1), (4394, 4406, 0), (4999, 5001, 1),
                                    (5000, 5001, 0)):
            with self.subTest(first=first, last=last):
                self.assertEqual(self.count((first, -1), (last, 0)), counts)
        # up and down that all but balance
        self.assertEqual(self.count((4400, 300), (4700, -300), (4999, -301), (5000, 0)), 1)
        self.assertEqual(self.count((4400, 300), (4700, -300), (5000, 0)), 0)

    def test_trains_too_short_for_one(self):
        for length, counts in ((100, 0), (101, 1)):
            self.assertEqual(self.count((4990, -1), (4991, 0), length=length), counts)

    def test_only_accepted_and_moving(self):
        slight = ((4500, -1), (4501, 0))
        self.assertEqual(self.count(*slight, speed="0.001"), 1)
        for speed in ("0.0", "bits 0x80000000"):
            self.assertEqual(self.count(*slight, speed=speed), 0)
        for said in (b"", b"x 10\n", b"\xff\n", b"gone\n", b"0 0 0 0\n", b"0 0 0 0 %s\n" % (b"9" * 5000)):
            self.assertEqual(self.count(*slight, said=said), 0)
        self.assertEqual(self.count(*slight, said=4 * ACCEPTED), 1)

    def test_feeds_of_any_form(self):
        whole = feeds.random_feed(1, "grades")
        cut = [whole[:size] for size in range(0, len(whole), 7)]
        for data in (b"", TRAIN.encode(), whole[:16] + b"\0\0\0" + whole[-40:], *cut):
            self.assertIn(feeds.slight_descents(data, 40 * ACCEPTED), range(40))


@functools.cache
def of_ground(ground):
    """Feeds of the kind on that ground, each with what the second program prints.  A seed that is told to be of the kind is its
    own number, but for those that pick it themselves."""
    seeds = [seed for seed in range(grades.PROFILES.index(ground), 96, len(grades.PROFILES)) if feeds.kind_of(seed) != "grades"]
    made = [feeds.random_feed(seed, "grades") for seed in seeds]
    return [(data, second(data)) for data in made]


class Kind(unittest.TestCase):

    def share(self, ground):
        """Of the accepted samples on that ground, those that are slight descents; a train may come to stand."""
        made = of_ground(ground)
        return sum(feeds.slight_descents(data, said.encode()) for data, said in made) / sum(accepted(said) for _, said in made)

    def test_balanced(self):
        for feet in (1, 2, 7, 300):
            for total in (-701, -7, -1, 0, 1, 6, 300):
                pieces = grades.balanced(feet, total)
                self.assertEqual(sum(part for part, _, _ in pieces), feet)
                self.assertEqual(sum(part * grade for part, grade, _ in pieces), total)
                self.assertTrue(all(part > 0 for part, _, _ in pieces))

    def test_slight_sums(self):
        for length in (101, 200, 201, 2500):
            drawn = {grades.draw_slight(Draw(seed), length) for seed in range(200)}
            self.assertEqual((min(drawn), max(drawn)), (-((length - 1) // 100), -1))

    def test_none_refused(self):
        for ground in grades.PROFILES:
            for _, said in of_ground(ground):
                self.assertNotIn("x", said)

    def test_every_place_on_crests(self):
        for data, said in of_ground(grades.crests):
            moving = sum(feeds.unpack(one, feeds.SAMPLE_WIDTHS)[5] > 0 for one in feeds.split(data)[3])
            self.assertEqual(feeds.slight_descents(data, said.encode()), moving)

    def test_first_sample_on_a_crest(self):
        for data, said in of_ground(grades.crest_below):
            first = "".join(said.splitlines(keepends=True)[:2])
            self.assertEqual(feeds.slight_descents(data, first.encode()), 1)

    def test_shares(self):
        self.assertGreater(self.share(grades.dips), 0.4)
        self.assertGreater(self.share(grades.crests), 0.9)
        for ground in (grades.descent, grades.climb):
            self.assertEqual(self.share(ground), 0)

    def test_hundredths_show(self):
        shown = [feeds.finer(said.encode(), second(data, HUNDREDTHS).encode())[1]
                 for ground in grades.PROFILES for data, said in of_ground(ground)]
        self.assertNotIn(feeds.UNLIKE, shown)
        self.assertGreater(shown.count("nearer"), 20)
        self.assertGreater(shown.count("not called"), 5)


def starts_of(total):
    """Starts and grades over 600 ft whose sum of grade x feet is that."""
    start = 0
    for feet, grade, _ in grades.balanced(600, total):
        yield start, grade
        start += feet


class Model(unittest.TestCase):

    def test_average(self):
        # Millions: level 600 + 800 + 100 + 70 = 1,570, and 2 less for each -1 of G; 1,449 x 1,570 / 605 = 3,760.2.  The last is
        # document 01's own, -1 % throughout.
        train = dict(cars=10, axles=40, weight=1000, length=600, rated=0, application=30000, set=9000)
        for total, lost in ((0, 3760), (-1, 3755), (-6, 3755), (-7, 3750), (5, 3760), (6, 3765), (-60000, -44141)):
            ground = [(0, 0, 0, 0)] + [(4400 + start, grade, 0, 0) for start, grade in starts_of(total)]
            with self.subTest(total=total):
                self.assertEqual(Walk(train, ground + [(5000, 0, 0, 0), (40000, 0, 0, 0)], 5000, 1000).squares[1], 1000000 - lost)


if __name__ == "__main__":
    unittest.main()
