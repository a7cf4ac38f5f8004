"""Tests of tools/feed: random feeds of rear devices that go quiet."""

import unittest

from here import feeds
from second_program import EVERLASTING, run, told


class Quiet(unittest.TestCase):

    # The feeds of the kind that the seeds from 0 to 899 pick.
    FEEDS = [feeds.random_feed(seed) for seed in range(900) if feeds.kind_of(seed) == "quiet"]

    @classmethod
    def setUpClass(cls):
        cls.both = [(run(data), run(data, words=EVERLASTING)) for data in cls.FEEDS]

    def test_only_readings_are_refused(self):
        for output, _ in self.both:
            self.assertLessEqual({line for line in output.splitlines() if line.startswith("x")}, {"x 8"})

    def test_silences(self):
        found = [one for data, (output, _) in zip(self.FEEDS, self.both) for one in feeds.silences(data, output.encode())]
        self.assertLessEqual({4, 5, 6, 7}, {one.seconds for one in found})
        for does in ("kept", "given up", "none yet"):
            self.assertEqual({one.state for one in found if one.does == does}, set("012345"))

    def test_where_the_choices_part(self):
        # times through a feed: states, stops, emergency's stops
        shown = {"state": 0, "stop": 0, "emergency's stop": 0}
        for pairs in ([told(output.splitlines()) for output in outputs] for outputs in self.both):
            parted = [[(*first.split(), second.split()[4]) for first, second in both] for both in zip(*pairs) if both[0] != both[1]]
            for name, place in (("state", 1), ("stop", 4), ("emergency's stop", 5)):
                shown[name] += any(ours[place] != other[place] for ours, other in parted)
        self.assertGreater(min(shown.values()), len(self.FEEDS) // 5, shown)

    def test_any_three_hundred_seeds_have_both_partings(self):
        shown = [feeds.parting(data, *(output.encode() for output in outputs))[1] for data, outputs in zip(self.FEEDS, self.both)]
        self.assertEqual(len(shown), 60)
        for first in range(41):
            self.assertLessEqual({"given up", "none yet"}, set(shown[first:first + 20]))

    def test_refused_samples_bring_a_rear(self):
        # of a later value than the last one heard, in a silence
        count = 0
        for data, (output, _) in zip(self.FEEDS, self.both):
            silent = {one.place for one in feeds.silences(data, output.encode())}
            samples = feeds.split(data)[3]
            for place, (line, _) in enumerate(feeds.answers(output.splitlines())):
                present = feeds.unpack(samples[place], feeds.SAMPLE_WIDTHS)[2]
                count += line == "x 8" and present == 1 and {place - 1, place + 1} <= silent
        self.assertGreater(count, 20)


if __name__ == "__main__":
    unittest.main()
