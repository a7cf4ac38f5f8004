"""Tests of what tools/compare counts of lessons: what R-3's learner takes from a feed, reckoned from outside."""

import unittest

from here import example, feeds
from lesson_feeds import PIPE, REFUSED, STATES, SUDDEN, feed, said
from second_program import run


def lessons(samples, states, full=9000):
    """Each as its place, what it shows and the time."""
    found = feeds.lessons(feed(*samples, full=full), said(*states))
    return [(one.place, one.shows, one.result and one.result.time) for one in found]


def held(pipe, until, wait=5):
    """The pipe, unchanged up to that time."""
    pipe = list(pipe)
    while pipe[-1][0] < until:
        pipe.append((min(until, pipe[-1][0] + wait), *pipe[-1][1:]))
    return pipe


def in_service(pipe):
    """States of a charged train that then applies."""
    return [0] + [1] * (len(pipe) - 1)


class Learnt(unittest.TestCase):

    def test_vectors(self):
        for name, want in (("learn-levels-off", [(8, "learnt", 35742)]),
                           ("learn-half-waits", [(6, "one half", None), (8, "learnt", 46157)])):
            data = feeds.make(example("figures/" + name))
            found = feeds.lessons(data, run(data).encode())
            self.assertEqual([(one.place, one.shows, one.result and one.result.time) for one in found], want)

    def test_the_trip_learns_what_is_typed(self):
        data = feeds.make(example("trip"))
        first, second = feeds.lessons(data, run(data).encode())
        self.assertEqual((first.shows, first.result.time, feeds.consist_of(data)["application"]), ("learnt", 60000, 60000))
        # the equalization of a second application cannot be known from outside
        self.assertEqual((second.shows, second.result), ("learnt", None))

    def test_learnt(self):
        # (8,700 - 6,428) / (1.1 x 75 + 9.33) is 24.7414.. s
        self.assertEqual(lessons(PIPE, STATES), [(7, "learnt", 35742)])
        # by a last fall of f the line over all six points falls by (6,750 + 15 f) / 105 a second: f is less than half up to 34
        for last, shown in ((8399, [(7, "learnt", 35742)]), (8366, [(7, "learnt", 35742)]), (8365, []), (8400, [])):
            self.assertEqual(lessons([*PIPE[:-1], (16, 8000, last)], STATES), shown)

    def test_rounded_up_below_equalization(self):
        # below 6,428 the slope is the line's own: (6,400 - 6,428) / 30 is -0.933 s, up to -933 ms, and 1 + 1 seconds
        pipe = ((0, 9000, 9000), (1, 6000, 9000), (2, 6000, 6400), (3, 6000, 6370), (4, 6000, 6340), (5, 6000, 6330))
        self.assertEqual(lessons(pipe, in_service(pipe)), [(5, "learnt", 1067)])
        result = next(feeds.lessons(feed(*pipe), said(*in_service(pipe)))).result
        self.assertEqual((result.found, result.below), (1067, True))

    def test_the_last_point_tells_which_slope(self):
        # the one that levels off, and not the one before: (6,600 - 6,428) / 75 is 2.2933.. s
        pipe = ((0, 9000, 9000), (1, 6000, 9000), (2, 6000, 6600), (3, 6000, 6525), (4, 6000, 6450), (5, 6000, 6427))
        self.assertEqual(lessons(pipe, in_service(pipe)), [(5, "learnt", 4294)])
        # at equalization: 172 / 91.83 is 1.8730.. s
        self.assertEqual(lessons([*pipe[:-1], (5, 6000, 6428)], in_service(pipe)), [(5, "learnt", 3874)])

    def test_held_within_the_range(self):
        # 1 + 1 seconds, and (6,000 - 6,428) / 10
        pipe = SUDDEN
        result = next(feeds.lessons(feed(*pipe), said(*in_service(pipe)))).result
        self.assertEqual((result.time, result.found), (1000, -40800))
        # 100 + 1 seconds, and 2,272 / (1.1 x 2 + 9.33), which is 197.0511.. s
        pipe = held(PIPE[:2], 100) + [(101, 8000, 8700), (102, 8000, 8698), (103, 8000, 8696), (107, 8000, 8695)]
        result = next(feeds.lessons(feed(*pipe), said(*in_service(pipe)))).result
        self.assertEqual((result.time, result.found), (240000, 298052))

    def test_other_set_pressures(self):
        # 3 psi below 80; E is 5,714, and (7,700 - 5,714) / 91.83 is 21.6269.. s
        pipe = [(time, front - 1000, rear - 1000) for time, front, rear in PIPE]
        self.assertEqual(lessons(pipe, STATES, full=8000), [(7, "learnt", 32627)])

    def test_where_equalization_cannot_be_known(self):
        # a second application upon the first, and one of a train that has been charging
        for states in ((0, 1, 2, 1, 1, 1, 1, 1), (5, 1, 1, 1, 1, 1, 1, 1)):
            self.assertEqual(lessons(PIPE, states), [(7, "learnt", None)])
        # the first sample may apply already
        self.assertEqual(lessons(PIPE, (1, 1, 1, 1, 2, 2, 2, 2)), [(7, "learnt", 35742)])

    def test_refused_samples_teach_nothing(self):
        pipe = [*PIPE[:3], (12, 8000, 8000), *PIPE[3:]]
        self.assertEqual(lessons(pipe, (*STATES[:3], REFUSED, *STATES[3:])), [(8, "learnt", 35742)])
        self.assertEqual(lessons(PIPE, (*STATES[:7], REFUSED)), [])


class Steps(unittest.TestCase):

    def test_the_front_falls_by_three_psi(self):
        for front, shown in ((8700, [(7, "learnt", 35742)]), (8701, [])):
            self.assertEqual(lessons([PIPE[0], *((time, front, rear) for time, _, rear in PIPE[1:])], STATES), shown)

    def test_the_rear_falls_by_three_psi(self):
        # from 8,701 on the first point is the next one, a second later: (8,625 - 6,428) / 91.83 is 23.9246.. s
        self.assertEqual(lessons([*PIPE[:2], (11, 8000, 8701), *PIPE[3:]], STATES), [(7, "learnt", 35925)])

    def test_no_service(self):
        for state in (0, 3, 4, 5):
            self.assertEqual(lessons(PIPE, len(PIPE) * (state,)), [])

    def test_from_the_fourth_point_on(self):
        # two points, and a third that levels off; the fourth is told from the line over three
        pipe = ((0, 9000, 9000), (1, 8000, 9000), (2, 8000, 8700), (3, 8000, 8600), (4, 8000, 8590), (5, 8000, 8588))
        self.assertEqual([one[:2] for one in lessons(pipe, in_service(pipe))], [(5, "learnt")])
        self.assertEqual(lessons(pipe[:-1], in_service(pipe[:-1])), [])

    def test_silences(self):
        # as the front falls: the timer runs, and the next rear is the one before
        self.assertEqual(lessons([PIPE[0], (1, 8000, None), (2, 8000, 9000), *PIPE[2:]], (0, 1, *STATES[1:])),
                         [(1, "silent as the front falls", None), (8, "learnt", 35742)])
        # before the rear falls it is nothing; while it falls it is told
        self.assertEqual(lessons([*PIPE[:2], (6, 8000, None), *PIPE[2:]], (0, 1, *STATES[1:])), [(8, "learnt", 35742)])
        pipe = [*PIPE[:5], (14, 8000, None), *PIPE[6:]]
        self.assertEqual(lessons(pipe, STATES), [(5, "lost while it falls", None), (7, "learnt", 35742)])

    def test_rises_are_nothing(self):
        # the line over four points is the same
        for rear in (8560, 8550):
            self.assertEqual(lessons([*PIPE[:5], (14, 8000, rear), *PIPE[6:]], STATES), [(7, "learnt", 35742)])

    def test_cut(self):
        for state, shown in ((5, "cut by a release"), (3, "cut by an emergency")):
            self.assertEqual(lessons(PIPE, (0, 1, 1, 1, state, state, state, state)), [(4, shown, None)])
            # no points yet; already learnt; before the front falls
            self.assertEqual(lessons(PIPE, (0, 1, state, *5 * (state,))), [])
            self.assertEqual(lessons([*PIPE, (17, 8000, 8000)], (*STATES, state)), [(7, "learnt", 35742)])
            self.assertEqual(lessons(PIPE, (0, state, *6 * (state,))), [])

    def test_done(self):
        # deeper, it is none; up to 8,700 too; above that the next fall teaches anew
        again = [(time + 20, front, rear) for time, front, rear in PIPE[1:]]
        for front, count in ((8000, 1), (8700, 1), (8701, 2)):
            pipe = [*PIPE, (20, front, 9000), *again]
            self.assertEqual([one[1] for one in lessons(pipe, in_service(pipe))], count * ["learnt"])

    def test_600_seconds(self):
        # the last point 599 seconds after the front fell, and 600
        for later, shown in ((599, "learnt"), (600, "ended by 600 s"), (601, "ended by 600 s")):
            falling = [(later - 4 + more, 8000, 8700 - 75 * more) for more in range(4)]
            pipe = [*held(PIPE[:2], later - 6), *falling, (later + 1, 8000, 8450)]
            self.assertEqual([one[1] for one in lessons(pipe, in_service(pipe))], [shown])
        # then it is done
        pipe += [(time + later + 1, front, rear - 500) for time, front, rear in PIPE[1:]]
        self.assertEqual([one[1] for one in lessons(pipe, in_service(pipe))], ["ended by 600 s"])

    def test_257th_point(self):
        # it would level off: as the 256th it does, as the 257th it ends
        for points, shown in ((255, "learnt"), (256, "ended by the 257th point")):
            pipe = [*PIPE[:2], *((2 + t, 8000, 8700 - 2 * t) for t in range(points)), (points + 3, 8000, 8701 - 2 * points)]
            pipe.append((points + 7, 8000, 8000))
            self.assertEqual([one[:2] for one in lessons(pipe, in_service(pipe))], [(points + 2, shown)])


class Counted(unittest.TestCase):

    def test_feeds_that_end_early(self):
        whole = feed(*PIPE)
        for end in (0, 15, 16, 17, 30, len(whole) - 1):
            self.assertEqual(list(feeds.lessons(whole[:end], said(*STATES))), [])
        self.assertEqual(len(list(feeds.lessons(whole, said(*STATES)))), 1)
        self.assertEqual(list(feeds.lessons(whole, b"gone\n\xff\n")), [])

    def test_times_that_no_right_program_accepts(self):
        # as they were, or before
        for time in (11, 5):
            pipe = [*PIPE[:3], *((time, 8000, rear) for _, _, rear in PIPE[3:])]
            self.assertEqual(lessons(pipe, STATES), [])

    NAMES = {"learnt": "a time learnt", "learnt anew": "a time learnt anew", "ended by 600 s": "a lesson ended by 600 s",
             "ended by the 257th point": "a lesson ended by the 257th point",
             "silent as the front falls": "a rear silent as the front falls", "lost while it falls": "a rear lost while it falls",
             "cut by a release": "a lesson cut by a release", "cut by an emergency": "a lesson cut by an emergency",
             "one half": "a slope of one half", "below equalization": "a time learnt below equalization",
             "held at 1000": "a time held at 1,000", "held at 240000": "a time held at 240,000"}

    def counts(self, *runs):
        """What was counted of feeds and outputs; and what never occurred is what was not."""
        tally = feeds.Tally(1)
        for data, output in runs:
            tally.add(data, output)
        row = next(line for line in tally.table().splitlines() if line.startswith("lessons   "))
        found = {name: int(count) for name, _, count in (one.rpartition(":") for one in row[10:].split("  "))}
        self.assertEqual(list(found), list(self.NAMES))
        missing = [name for name in tally.missing() if name in self.NAMES.values()]
        self.assertEqual(missing, [called for name, called in self.NAMES.items() if not found[name]])
        return {name: count for name, count in found.items() if count}

    def test_counts(self):
        plain = feed(*PIPE), said(*STATES)
        self.assertEqual(self.counts(), {})
        self.assertEqual(self.counts(plain), {"learnt": 1})
        # anew is of one feed
        self.assertEqual(self.counts(plain, plain), {"learnt": 2})
        pipe = [*PIPE, (20, 8701, 9000), *((time + 20, front, rear) for time, front, rear in PIPE[1:])]
        self.assertEqual(self.counts((feed(*pipe), said(*in_service(pipe)))), {"learnt": 2, "learnt anew": 1})
        self.assertEqual(self.counts((plain[0], said(0, 1, 1, 1, 5, 5, 5, 5)), (plain[0], said(0, 1, 1, 1, 3, 3, 3, 3))),
                         {"cut by a release": 1, "cut by an emergency": 1})
        self.assertEqual(self.counts((feed(*SUDDEN), said(*in_service(SUDDEN)))),
                         {"learnt": 1, "below equalization": 1, "held at 1000": 1})

    def test_a_time_that_is_the_limit_is_not_held(self):
        # (6,398 - 6,428) / 30 is -1 s, with 1 + 1 more
        pipe = ((0, 9000, 9000), (1, 6000, 9000), (2, 6000, 6398), (3, 6000, 6368), (4, 6000, 6338), (5, 6000, 6330))
        self.assertEqual(self.counts((feed(*pipe), said(*in_service(pipe)))), {"learnt": 1, "below equalization": 1})


if __name__ == "__main__":
    unittest.main()
