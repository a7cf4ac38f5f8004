"""Tests of the second program: which targets are judged, and which of them call."""

import unittest

from built import FIRST_CROSSING, HUNDREDTHS, core
from here import example, feeds
from second_program import made, mph, one_line, run, told, whole


class Judgement(unittest.TestCase):

    def test_offset(self):
        self.assertEqual(core().second_target_offset(*whole(500, 4000, 2000)), 375)
        self.assertEqual(core().second_target_offset(*whole(500, 3000, 2000)), 278)
        self.assertEqual(core().second_target_offset(*whole(500, 2000, 2000)), 0)
        self.assertEqual(core().second_target_offset(*whole(500, 0, 0)), 0)
        self.assertEqual(core().second_target_offset(*whole(500, 1, 0)), 500)

    def test_targets_at_the_edges_of_the_reach(self):
        # No stop on 5 % downhill without brakes, and so no location for any speed: every judged
        # target calls, also one that allows the train's speed or more (decision 117).
        for target, called in ((4999, 0), (5000, 1), (37768, 1), (37769, 0)):
            for speed in (0, 99, 100, 10000):
                self.assertEqual(
                    one_line(speed=mph(100), rated=0, profile="profile 0 grade -500\nprofile 40000",
                             targets="target %d speed %d" % (target, speed)),
                    "0 0 %d %d 16777215" % (called, called))

    def test_location_for_a_target_speed(self):
        # 1.00 mph: q 10,000, then 6,622 (s 81.37), then below 0.  A target speed of 82
        # (6,724) is reached at 5,016, 81 (6,561) only at 5,032.
        def called(target, speed):
            return one_line(speed=mph(100), offset=0, targets="target %d speed %d" % (target, speed)) \
                == "0 0 1 1 5032"
        self.assertFalse(called(5016, 82))
        self.assertTrue(called(5015, 82))
        self.assertFalse(called(5032, 81))
        self.assertTrue(called(5031, 81))
        # The offset: 500 x (10,000 - 6,724) / 10,000 = 163.8, rounded up to 164.
        def called_with_offset(target):
            return one_line(speed=mph(100), targets="target %d speed 82" % target) == "0 0 1 1 5032"
        self.assertFalse(called_with_offset(5180))
        self.assertTrue(called_with_offset(5179))

    def test_allowed_all_the_way(self):
        # A train that is no faster than a target and stays so: its location is the head, its
        # offset 0, and the target does not call, be it at the head.
        for target in (5000, 5001, 37768):
            for speed in (100, 101, 10000):
                self.assertEqual(one_line(speed=mph(100), targets="target %d speed %d" % (target, speed)), "0 0 0 0 5032")
            # A train at rest makes no step: every location is its head, downhill too.
            for speed in (0, 1, 10000):
                self.assertEqual(one_line(profile="profile 0 grade -500\nprofile 40000", rated=0,
                                          targets="target %d speed %d" % (target, speed)), "0 0 0 0 5000")


class SpeedsUpAgain(unittest.TestCase):
    """The walk over a summit of test_second_location (Hills): 8.00 mph at 5,000, 7.37 at 5,048, 8.22 at 5,096, the stop at
    5,176."""

    def causes(self, *targets, **more):
        """The cause by R-2, and by document 01's first crossing."""
        more = dict({"length": 64, "rated": 0, "speed": mph(800)}, **more)
        more["profile"] = "profile 0 grade 120\nprofile 5000 grade -120\nprofile 5080 grade 500\nprofile 60000"
        more["targets"] = "".join("target %d speed %d\n" % one for one in targets)
        found = []
        for build in ((), (FIRST_CROSSING,)):
            line = one_line(build=build, **more).split()
            self.assertEqual((line[2], line[4]), (str(int(line[3] != "0")), "5176"))
            found.append(int(line[3]))
        return tuple(found)

    def test_above_at_first(self):
        # 7.60 mph: first reached at 5,032, for good at 5,128.  The offset is 500 x (640,000 -
        # 577,600) / 640,000 = 48.75, rounded up to 49.
        for target, want in ((5177, (0, 0)), (5176, (1, 0)), (5081, (1, 0)), (5080, (1, 1)), (5000, (1, 1)), (4999, (0, 0))):
            self.assertEqual(self.causes((target, 760)), want)
        self.assertEqual(self.causes((5128, 760), offset=0), (0, 0))
        self.assertEqual(self.causes((5127, 760), offset=0), (1, 0))

    def test_below_already(self):
        # The train's own speed: above again at 5,096 and 5,112, for good at or below at 5,128.  8.21 mph:
        # above at 5,096, below from 5,112 on.  There is no offset, as the train is not faster at the head.
        for speed, location in ((800, 5128), (809, 5128), (810, 5112), (821, 5112)):
            for target, want in ((location, (0, 0)), (location - 1, (1, 0)), (5000, (1, 0)), (4999, (0, 0))):
                self.assertEqual(self.causes((target, speed)), want)

    def test_equality_stays(self):
        # 8.22 mph squared is the 675,684 that the train comes to at 5,096, and no more.
        for speed in (822, 823, 10000):
            self.assertEqual(self.causes((5000, speed)), (0, 0))

    def test_stop(self):
        # 5,176 and the offset of 500.
        self.assertEqual(self.causes((5676, 0)), (0, 0))
        self.assertEqual(self.causes((5675, 0)), (1, 1))

    def test_first_such_target(self):
        # It is never above 8.22 mph, and below 8.10 for good from 5,112 on: neither calls.  It is below
        # 8.09 from 5,128 on, and the stop and its offset make 5,676.
        self.assertEqual(self.causes((5090, 822), (5112, 810), (5113, 809), (5600, 0)), (3, 4))
        self.assertEqual(self.causes((5090, 822), (5112, 810), (5128, 809), (5676, 0)), (0, 0))

    def test_cut_below_the_target(self):
        # Without brakes on the level, 50 mph: 32,768 ft further the train is below 45 mph, but it
        # has not stopped.  Every judged target calls, whatever it allows; by the first crossing
        # one that it reaches in time does not.
        level = {"speed": mph(5000), "rated": 0, "profile": "profile 0\nprofile 60000"}
        for target, judged in ((4999, 0), (5000, 1), (20000, 1), (37768, 1), (37769, 0)):
            for speed in (0, 4500, 5000, 9000, 10000):
                line = "target %d speed %d" % (target, speed)
                self.assertEqual(one_line(targets=line, **level), "0 0 %d %d 16777215" % (judged, judged))
                if speed >= 5000:
                    self.assertEqual(one_line(targets=line, build=(FIRST_CROSSING,), **level), "0 0 0 0 16777215")
        line = "target 37768 speed 4500"
        self.assertEqual(one_line(targets=line, build=(FIRST_CROSSING,), **level), "0 0 0 0 16777215")


class Vectors(unittest.TestCase):
    """R-2's, worked apart from this program, and what document 01 alone would answer."""

    HILLS = {"rated": 20000, "profile": "profile 0\nprofile 5200 grade 150\nprofile 6000 grade -200\nprofile 7200\n"
                                        "profile 8000 grade 200\nprofile 60000"}
    LEVEL = {"rated": 0, "profile": "profile 0\nprofile 60000"}
    ALL = (
        ("rise-past-target", HILLS, ((8136, 1500),), ((0, 5000, "25.0"), (1, 5001, "25.0"), (2, 5016, "25.0")),
         ["0 0 0 0 8344", "1 0 1 1 8345", "2 0 1 1 8344"]),
        ("rise-from-below", HILLS, ((6900, 1900), (7000, 1600), (7900, 1200)), ((0, 6400, "8.0"), (1, 6412, "8.0")),
         ["0 0 1 2 8448", "1 0 1 2 8444"]),
        ("cut-below-target", LEVEL, ((20000, 9000), (36000, 4500)), ((0, 5000, "50.0"), (1, 5001, "0.0")),
         ["0 0 1 1 16777215", "1 0 1 1 5001"]))

    def feed(self, train, targets, samples):
        return made([(*one, "90.0", "90.0") for one in samples],
                    targets="".join("target %d speed %d\n" % one for one in targets), **train)

    def lines(self, feed, *build):
        """The penalty's."""
        return [first for first, _ in told(run(feed, *build).splitlines())]

    def test_vectors(self):
        for name, *given, want in self.ALL:
            with self.subTest(name=name):
                feed = self.feed(*given)
                self.assertEqual(self.lines(feed), want)
                # the same stops, and never a call
                self.assertEqual(self.lines(feed, FIRST_CROSSING),
                                 ["%s 0 0 0 %s" % tuple(line.split()[::4]) for line in want])

    def test_hundredths(self):
        # By document 01's averages the third stop of the first is a step further on, and all else the same (R-11).
        for name, *given, want in self.ALL:
            other = {"rise-past-target": want[:2] + ["2 0 1 1 8360"]}.get(name, want)
            self.assertEqual(self.lines(self.feed(*given), HUNDREDTHS), other)

    def test_stored_feeds_are_these(self):
        for name, *given, want in self.ALL:
            words = example("figures/" + name)
            self.assertEqual(feeds.make(words), self.feed(*given))
            stated = [line[3:] for line in words.splitlines() if line.startswith("#> ")]
            self.assertEqual([first for first, _ in told(stated)], want)


if __name__ == "__main__":
    unittest.main()
