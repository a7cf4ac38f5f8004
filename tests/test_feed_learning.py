"""Tests of tools/feed: random feeds from which the application time is learnt."""

import collections
import ctypes
import unittest

import built
from built import TYPED
from here import feeds
from second_learning import DONE
from second_program import Session, run

LESSONS = ("learnt", "ended by 600 s", "ended by the 257th point")


# A sample that ends a lesson by itself: its place, the time in force after it, the seconds since the front fell, and the points
# that were kept.
End = collections.namedtuple("End", "place time seconds points")


def taught(data):
    """Each End by the second program."""
    core, session, out = built.core(), Session(), ctypes.create_string_buffer(16)
    consist, profile, targets, samples = feeds.split(data)
    core.second_open(ctypes.byref(session), consist, ctypes.c_size_t(len(consist)))
    track = [part for words in (profile[2:], targets[1:]) for part in (words, ctypes.c_size_t(len(words)))]
    for place, sample in enumerate(samples):
        stage, fell, points = (getattr(session.learner, name) for name in ("stage", "fell_at", "points"))
        core.second_judge(ctypes.byref(session), sample, ctypes.c_size_t(len(sample)), *track, out, ctypes.c_size_t(16))
        if stage != DONE and session.learner.stage == DONE:
            yield End(place, session.train.application, session.brakes.last_time - fell, points)


class Learning(unittest.TestCase):

    # The feeds of the kind that the seeds from 0 to 899 pick.
    FEEDS = [feeds.random_feed(seed) for seed in range(900) if feeds.kind_of(seed) == "learning"]

    @classmethod
    def setUpClass(cls):
        cls.outputs = [run(data).encode() for data in cls.FEEDS]
        cls.ended = [[one for one in feeds.lessons(data, output) if one.shows in LESSONS]
                     for data, output in zip(cls.FEEDS, cls.outputs)]
        cls.ends = [list(taught(data)) for data in cls.FEEDS]

    def test_only_readings_are_refused(self):
        for output in self.outputs:
            self.assertLessEqual({line for line in output.decode().splitlines() if line.startswith("x")}, {"x 8"})

    def test_reckoned_as_by_the_second_program(self):
        # where a lesson ends, and the times that can be known from outside
        known = 0
        for data, ended, ends in zip(self.FEEDS, self.ended, self.ends):
            self.assertEqual([one.place for one in ended], [end.place for end in ends])
            before = feeds.consist_of(data)["application"]
            for one, end in zip(ended, ends):
                if one.shows != "learnt":
                    self.assertEqual(end.time, before)
                elif one.result:
                    self.assertEqual(end.time, one.result.time)
                    known += 1
                before = end.time
        self.assertGreater(known, 30)

    def test_any_three_hundred_seeds_have_every_lesson(self):
        self.assertEqual(len(self.FEEDS), 60)
        seen = [feeds.Tally(1).lessons for _ in self.FEEDS]
        for one, data, output in zip(seen, self.FEEDS, self.outputs):
            one.add(data, output)
        for first in range(41):
            every = set.intersection(*(set(one.missing()) for one in seen[first:first + 20]))
            self.assertEqual(every, set())

    def test_any_three_hundred_seeds_have_every_difference(self):
        shown = [feeds.typed(data, output, run(data, TYPED).encode())[1] for data, output in zip(self.FEEDS, self.outputs)]
        for first in range(41):
            self.assertLessEqual({"call more", "call less", "farther", "nearer"}, set(shown[first:first + 20]))

    def test_the_last_second_and_the_last_point(self):
        pairs = [pair for both in zip(self.ended, self.ends) for pair in zip(*both)]
        learnt, late, many = ([end for one, end in pairs if one.shows == shows] for shows in LESSONS)
        self.assertEqual((max(end.seconds for end in learnt), min(end.seconds for end in late)), (599, 600))
        # the point that levels off is not yet kept
        self.assertEqual((max(end.points for end in learnt), {end.points for end in many}), (255, {256}))


if __name__ == "__main__":
    unittest.main()
