"""Tests of what tools/compare counts of silences: what the default does with a lost rear, and where the choices part."""

import unittest

from feed_texts import TRAIN
from here import feeds

REFUSED = "x 8\n"


def feed(*samples):
    """Each is time, front and rear, None where it is lost."""
    lines = ("sample %d head 5000 speed 0.0 front %s rear %s" % (time, front, rear or "lost") for time, front, rear in samples)
    return feeds.make(TRAIN + "profile 0\nprofile 40000\n" + "\n".join(lines) + "\n")


def said(*states, stop=7):
    """An output: by a sample its state, or a refusal."""
    return "".join(state if state == REFUSED else "%d %d 0 0 %d\n%d %d 0 0 0\n" % (time, state, stop, time, state)
                   for time, state in enumerate(states)).encode()


class Silences(unittest.TestCase):

    def silences(self, *samples, output=None):
        """Each without its place and its state."""
        found = feeds.silences(feed(*samples), said(*len(samples) * [0]) if output is None else output)
        return [(one.does, one.seconds, one.otherwise) for one in found]

    def test_kept_and_given_up(self):
        self.assertEqual(
            self.silences((3, 90, 80), (4, 90, None), (8, 90, None), (9, 90, None), (10, 80, None), (11, 90, 90), (16, 80, None)),
            [("kept", 1, False), ("kept", 5, False), ("given up", 6, True), ("given up", 7, False), ("kept", 5, False)])
        # heard at time 0
        self.assertEqual(self.silences((0, 90, 80), (5, 90, None), (6, 90, None)), [("kept", 5, False), ("given up", 6, True)])

    def test_none_yet(self):
        # the everlasting choice holds the first front
        self.assertEqual(self.silences((0, 90, None), (9, 85, None), (10, 90, None), (11, 85, None), (12, 90, 85), (13, 90, None)),
                         [("none yet", None, False), ("none yet", None, True), ("none yet", None, False), ("none yet", None, True),
                          ("kept", 1, False)])

    def test_by_hundredths(self):
        # 90.004 and 90.001 count as 90.00, 90.01 does not
        self.assertEqual(self.silences((0, 90, "90.001"), (6, "90.004", None), (7, "90.011", None)),
                         [("given up", 6, False), ("given up", 7, True)])

    def test_refused_samples_bring_nothing(self):
        samples = (0, 90, None), (2, 90, 80), (4, 90, 70), (5, 70, None), (8, 90, None)
        self.assertEqual(self.silences(*samples, output=said(REFUSED, 0, REFUSED, REFUSED, 0)), [("given up", 6, True)])
        self.assertEqual(self.silences(*samples, output=said(REFUSED, REFUSED, REFUSED, 0, 0)),
                         [("none yet", None, False), ("none yet", None, True)])
        self.assertEqual(self.silences(*samples, output=said(*5 * [REFUSED])), [])

    def test_place_and_state(self):
        found = feeds.silences(feed((0, 90, 90), (1, 90, None), (2, 90, 90), (3, 90, None)), said(0, 3, REFUSED, 5))
        self.assertEqual([(one.place, one.state) for one in found], [(1, "3"), (3, "5")])

    def test_feeds_that_end_early(self):
        whole, output = feed((0, 90, None), (1, 90, None)), said(0, 0)
        for end, count in ((0, 0), (16, 0), (17, 0), (30, 0), (31, 0), (len(whole) - 21, 0), (len(whole) - 1, 1), (len(whole), 2)):
            self.assertEqual(len(list(feeds.silences(whole[:end], output))), count)
        self.assertEqual(list(feeds.silences(whole, b"gone\n\xff\n")), [])

    def counts(self, data, output):
        """The row of the table, and what never occurred."""
        tally = feeds.Tally(1)
        tally.add(data, output)
        row = next(line for line in tally.table().splitlines() if line.startswith("silences"))
        return row.split(None, 1)[1], [name for name in tally.missing() if "silence" in name]

    def test_counts(self):
        samples = ((0, 90, None), (1, 90, None), (2, 90, 90), (6, 90, None), (7, 90, None), (8, 90, None), (9, 90, None))
        names = ["a silence kept at 5 s", "a silence given up at 6 s", "a silence with none yet", "a silence kept while recharging",
                 "a silence that counts as front while recharging"]
        for states, row, missing in (
                ((0, 0, 0, 0, 0, 0, 0), (1, 1, 2, 0, 0), names[3:]), ((5, 0, 5, 0, 5, 0, 5), (1, 1, 2, 1, 2), []),
                ((5, 5, 0, 5, 0, 5, 0), (1, 1, 2, 1, 3), []),
                ((0, 0, 0, 0, REFUSED, REFUSED, 5), (0, 0, 2, 0, 1), [*names[:2], names[3]]),
                ((REFUSED, REFUSED, 0, 5, 0, 0, 0), (1, 1, 0, 1, 0), [names[2], names[4]])):
            with self.subTest(states=states):
                self.assertEqual(self.counts(feed(*samples), said(*states)), (
                    "kept at 5 s:%d  given up at 6 s:%d  none yet:%d  recharging, kept:%d  recharging, as front:%d" % row, missing))


class Parting(unittest.TestCase):
    """What the count makes of a program's outputs under the two choices, told by the feed's silences."""

    # given up at the third sample, counted otherwise there; heard again at the fifth
    GIVEN_UP = feed((0, 90, 80), (5, 90, None), (6, 90, None), (7, 80, None), (8, 90, 90))
    # counted otherwise at the second
    NONE_YET = feed((0, 90, None), (1, 85, None), (2, 90, None), (3, 90, 85), (4, 90, 85))
    # the same, and given up at the last
    BOTH = feed((0, 90, None), (1, 85, None), (2, 90, 85), (7, 90, None), (8, 90, None))

    def test_what_the_first_shows(self):
        for data, states, want in (
                (self.GIVEN_UP, (0, 0, 5, 0, 0), (1, "given up")), (self.GIVEN_UP, (0, 0, 5, 5, 5), (3, "given up")),
                # it shows later, where both count it alike
                (self.GIVEN_UP, (0, 0, 0, 5, 5), (2, "given up")), (self.GIVEN_UP, (0, 0, 0, 0, 5), (1, "given up")),
                (self.NONE_YET, (0, 5, 0, 0, 0), (1, "none yet")), (self.NONE_YET, (0, 0, 0, 5, 5), (2, "none yet")),
                (self.BOTH, (0, 5, 0, 0, 5), (2, "none yet")), (self.BOTH, (0, 0, 0, 5, 5), (2, "none yet")),
                (self.BOTH, (0, 0, 0, 0, 5), (1, "given up")), (self.BOTH, (0, 0, 0, 0, 0), (0, None))):
            with self.subTest(states=states):
                self.assertEqual(feeds.parting(data, said(0, 0, 0, 0, 0), said(*states)), want)

    def test_in_what_they_may_part(self):
        # the state, the stop, the penalty, emergency
        ours = said(0, 0, 0, 0, 0)
        for old, new in ((b"2 0 0 0 7", b"2 0 0 0 8"), (b"2 0 0 0 7", b"2 0 1 3 7"), (b"2 0 0 0 0", b"2 0 1 3 9"),
                         (b"2 0 0 0 0", b"2 0 0 0 9"), (b"2 0 0 0 7\n2 0 ", b"2 4 0 0 7\n2 4 ")):
            self.assertEqual(feeds.parting(self.GIVEN_UP, ours, ours.replace(old, new)), (1, "given up"))
            self.assertEqual(feeds.parting(self.GIVEN_UP, ours.replace(old, new), ours), (1, "given up"))

    def test_what_the_choice_does_not_explain(self):
        ours = said(0, 0, 0, 0, 0)
        for other in (
                # before the choices count the rear otherwise
                said(5, 0, 0, 0, 0), said(0, 5, 5, 5, 5), said(0, 0, 0, 0, 0, stop=8),
                # another time, in either line, number of samples or refusal, also beside a parting
                ours.replace(b"2 0 0 0 7", b"3 0 0 0 7"), ours.replace(b"2 0 0 0 0", b"3 0 0 0 0"), said(0, 0, 0, 0),
                said(0, 0, 5, 0), said(0, 0, 5, 0, REFUSED), said(0, 0, 5, 0, 0, REFUSED), ours + b"x 2\n", b"", ours[:-10],
                ours[:-1],
                # what is no decision
                ours.replace(b"2 0 0 0 7", b"2 0 0 1 7"), ours.replace(b"2 0 0 0 7", b"2 6 0 0 7"),
                ours.replace(b"2 0 0 0 7", b"gone\xff")):
            with self.subTest(other=other):
                self.assertEqual(feeds.parting(self.GIVEN_UP, ours, other)[1], feeds.UNLIKE)
        # refused samples with another number
        self.assertEqual(feeds.parting(self.GIVEN_UP, b"x 8\n", b"x 9\n"), (1, feeds.UNLIKE))
        # no rear is lost, or the feed ends before its samples
        for data in (feed((0, 90, 90), (1, 90, 80)), self.GIVEN_UP[:16], b""):
            self.assertEqual(feeds.parting(data, said(0, 0), said(0, 5)), (1, feeds.UNLIKE))


if __name__ == "__main__":
    unittest.main()
