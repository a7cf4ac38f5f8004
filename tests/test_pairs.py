"""Tests of pairs of trips that differ in speed alone (02, R-13): the slower feed, and what tools/compare counts of the outputs."""

import unittest

from feed_texts import SAMPLE, TRAIN, WHOLE, run as command
from here import feeds
from lesson_feeds import PIPE, STATES, feed as lesson, said as taught
from second_program import EVERLASTING, run

REFUSED = "x 8\n"


def speeds(data):
    """The bits of each whole sample's."""
    return [int.from_bytes(record[8:12], "big") for record in feeds.split(data)[3] if len(record) == feeds.SAMPLE_BYTES]


class Slowed(unittest.TestCase):
    """The feed of a slower trip."""

    def test_speeds_alone_differ(self):
        for seed in range(90):
            data = feeds.random_feed(seed)
            slower = feeds.slowed(data, seed)
            self.assertEqual(len(slower), len(data))
            try:
                *before, samples = feeds.split(data)
            except IndexError:
                self.assertEqual(slower, data)
                continue
            *same, others = feeds.split(slower)
            self.assertEqual(same, before)
            for one, other in zip(samples, others):
                self.assertEqual(other[:8] + other[12:], one[:8] + one[12:])
                self.assertTrue(other[8:12] == one[8:12] or other[8:12] < one[8:12] <= feeds.nearest_bits(100).to_bytes(4, "big"))

    def test_how_they_differ(self):
        # as it was, by the next binary32, a little, much, down to nothing: often, all in one trip and each by its own
        of_trips = []
        for seed in range(60):
            data = feeds.random_feed(seed, "trip")
            shown = set()
            for bits, less in zip(speeds(data), speeds(feeds.slowed(data, seed))):
                if bits:
                    miles = feeds.value_of(bits) - feeds.value_of(less)
                    shown.add("same" if less == bits else "next" if less == bits - 1 else "standing" if less == 0
                              else "little" if miles <= 2 else "much")
            if len(speeds(data)) > 20:
                of_trips.append(shown)
        for name in ("same", "next", "little", "much", "standing"):
            self.assertGreater(sum(name in shown for shown in of_trips), 8, name)
        self.assertIn({"same", "next", "little", "much", "standing"}, of_trips)
        for manner in ({"same", "next", "little"}, {"next", "little"}, {"little", "much"}, {"much"}, {"much", "standing"}):
            # what is much of a low speed is little of it
            self.assertTrue(any(shown in (manner, manner | {"little"}) for shown in of_trips), manner)

    def slowed_line(self, line):
        """The speeds that a sample's line gets, by many seeds."""
        data = feeds.make(WHOLE + line + "\n")
        return {bits for seed in range(60) for bits in speeds(feeds.slowed(data, seed))}

    def test_what_is_left_as_it_is(self):
        for bits in (0x7fc00000, 0xffc00000, 0x7f800000, 0xff800000, 0x80000000, 0x80000001, 0xc1a00000, 0x42c80001, 0x43480000, 0):
            self.assertEqual(self.slowed_line("sample 0 head 5000 speed bits %#x front 90.0 rear 90.0" % bits), {bits})
        self.assertEqual(self.slowed_line("sample 0 head 5000 speed 40.0 front 90.0 rear 90.0 mark 0x54"),
                         {feeds.nearest_bits(40)})
        # the ends of the speeds that are taken
        self.assertEqual(self.slowed_line("sample 0 head 5000 speed bits 1 front 90.0 rear 90.0"), {0, 1})
        fastest = self.slowed_line("sample 0 head 5000 speed 100.0 front 90.0 rear 90.0")
        self.assertLess({0, 0x42c7ffff, 0x42c80000}, fastest)
        self.assertEqual(max(fastest), 0x42c80000)

    def test_feeds_that_end_early(self):
        whole = feeds.make(TRAIN + "block 600 1000\nprofile 0\nprofile 40000\ntarget 6000 speed 0\n"
                           + 2 * SAMPLE.replace("0.0 ", "40.0 ", 1))
        before, seed = len(whole) - 2 * feeds.SAMPLE_BYTES, 1
        changed = feeds.slowed(whole, seed)
        self.assertTrue(all(less < bits for less, bits in zip(speeds(changed), speeds(whole))))
        for end in range(len(whole)):
            samples = max(0, end - before) // feeds.SAMPLE_BYTES
            kept = before + samples * feeds.SAMPLE_BYTES
            self.assertEqual(feeds.slowed(whole[:end], seed), (changed[:kept] + whole[kept:])[:end])

    def test_command(self):
        for words, kind in ((["7"], None), (["7", "trip"], "trip")):
            data = feeds.random_feed(7, kind)
            self.assertEqual(command(["slower", *words]), (0, feeds.slowed(data, 7), ""))
            self.assertNotEqual(feeds.slowed(data, 7), data)
        for words in ([], ["x"], ["7", "none"], ["7", "trip", "8"]):
            self.assertEqual(command(["slower", *words])[0], 2)


def said(*samples, emergency="0 0 0"):
    """An output; each sample is state, cause and stop, or a refusal."""
    def lines(time, state, cause, stop):
        return "%d %d %d %d %d\n%d %d %s\n" % (time, state, cause > 0, cause, stop, time, state, emergency)

    return "".join(one if one == REFUSED else lines(time, *one) for time, one in enumerate(samples)).encode()


FASTER = said((0, 0, 7), (1, 0, 8), (1, 2, 9))
NEVER = 16777215                   # no stop


class WrongPair(unittest.TestCase):
    """What is said of two outputs, the second of the slower trip."""

    def test_what_a_lower_speed_explains(self):
        for slower in (
                FASTER, said((0, 0, 7), (1, 0, 8), (1, 0, 9)), said((0, 0, 6), (1, 0, 0), (1, 2, 8)),
                # another cause, and whatever is said of emergency
                said((0, 0, 7), (1, 0, 8), (1, 3, 9)), said((0, 0, 7), (1, 0, 8), (1, 2, 9), emergency="1 4 99")):
            with self.subTest(slower=slower):
                self.assertIsNone(feeds.wrong_pair(FASTER, slower))
        self.assertIsNone(feeds.wrong_pair(said((0, 1, NEVER)), said((0, 0, 4000000))))
        self.assertIsNone(feeds.wrong_pair(said((0, 1, NEVER)), said((0, 0, NEVER))))
        self.assertIsNone(feeds.wrong_pair(b"", b""))

    def test_what_it_does_not(self):
        for place, slower in (
                # the penalty earlier, or alone
                (1, said((0, 0, 7), (1, 2, 8), (1, 2, 9))), (0, said((0, 2, 6), (1, 0, 8), (1, 2, 9))),
                # another state, in either line
                (1, said((0, 0, 7), (2, 0, 8), (1, 2, 9))), (2, FASTER.replace(b"2 1 0 0 0", b"2 2 0 0 0")),
                # a farther stop, or none
                (0, said((0, 0, 8), (1, 0, 8), (1, 2, 9))), (2, said((0, 0, 7), (1, 0, 8), (1, 0, 10))),
                (1, said((0, 0, 7), (1, 0, NEVER), (1, 2, 9))),
                # another time, number of samples, or what is no decision
                (0, FASTER.replace(b"0 0 0 0 7", b"1 0 0 0 7")), (2, said((0, 0, 7), (1, 0, 8))), (3, FASTER + said((0, 0, 7))),
                (2, FASTER[:-10]), (0, b""), (1, FASTER.replace(b"1 1 0 0 8", b"1 1 0 1 8")),
                (1, FASTER.replace(b"1 1 0 0 8", b"gone\xff"))):
            with self.subTest(slower=slower):
                self.assertEqual(feeds.wrong_pair(FASTER, slower), place)
        self.assertEqual(feeds.wrong_pair(said((0, 0, 4000000)), said((0, 0, NEVER))), 0)

    def test_nothing_is_said_from_a_refusal_on(self):
        far = (0, 3, NEVER)
        for faster, slower in (((REFUSED, (0, 0, 7)), (REFUSED, far)), ((REFUSED, (0, 0, 7)), (far, far)),
                               (((0, 0, 7), (0, 0, 7)), (REFUSED, far)), ((REFUSED,), (far, far)), ((REFUSED,), ())):
            self.assertIsNone(feeds.wrong_pair(said(*faster), said(*slower)))
            # but of what comes before it
            for first, place in (((0, 0, 8), None), (far, 0)):
                self.assertEqual(feeds.wrong_pair(said((0, 0, 8), *faster), said(first, *slower)), place)

    def test_output_that_is_none(self):
        for garbage in (b"gone\xff\n", b"7\n", b"\n\n", b"0 0 0 0 7\n"):
            self.assertIsNone(feeds.wrong_pair(garbage, garbage))
            self.assertEqual(feeds.wrong_pair(FASTER, garbage), 0)
            self.assertEqual(feeds.wrong_pair(garbage, FASTER), 0)

    def test_answers_of_a_program(self):
        turned = 0
        for seed in range(24):
            data = feeds.random_feed(seed)
            for words in ((), EVERLASTING):
                faster, slower = (run(one, words=words).encode() for one in (data, feeds.slowed(data, seed)))
                self.assertIsNone(feeds.wrong_pair(faster, slower), seed)
                turned += feeds.wrong_pair(slower, faster) is not None
        # the other way round nearly all would be wrong
        self.assertGreater(turned, 24)


class Counts(unittest.TestCase):
    """What a comparison counts of pairs."""

    NAMES = {"earlier": "a penalty that is earlier at a higher speed", "same sample": "a penalty at the same sample of a pair",
             "faster alone": "a penalty of the faster trip alone", "nearer": "a nearer stop at a lower speed",
             "learnt": "a pair of trips that learn a time", "lost rear": "a pair of trips with a lost rear"}
    ROW = ("pairs     %d trips, %d samples; called earlier:%d  same sample:%d  faster alone:%d  not called:%d; "
           "stops nearer:%d  equal:%d; trips learnt:%d  lost rear:%d  cut by a refusal:%d")
    FEED = feeds.make(WHOLE + "".join(SAMPLE.replace("sample 0", "sample %d" % time) for time in range(3)))

    def check(self, data, faster, slower, counts, shown):
        tally = feeds.Tally(1)
        self.assertIsNone(tally.pairs.add(data, faster, slower))
        self.assertIn(self.ROW % counts, tally.table().splitlines())
        self.assertEqual([name for name in self.NAMES.values() if name not in tally.missing()],
                         [self.NAMES[one] for one in shown])

    def test_calls_and_stops(self):
        for slower, counts, shown in (
                (FASTER, (0, 1, 0, 0, 0, 3), ["same sample"]),
                (said((0, 0, 6), (1, 0, 8), (1, 3, 8)), (0, 1, 0, 0, 2, 1), ["same sample", "nearer"]),
                (said((0, 0, 7), (1, 0, 8), (1, 0, 9)), (0, 0, 1, 0, 0, 3), ["faster alone"])):
            self.check(self.FEED, FASTER, slower, (1, 3, *counts, 0, 0, 0), shown)
        called = said((0, 2, 7), (1, 2, 8), (1, 2, NEVER))
        self.check(self.FEED, called, FASTER, (1, 3, 1, 0, 0, 0, 1, 2, 0, 0, 0), ["earlier", "nearer"])
        self.check(self.FEED, said((0, 0, 7)), said((0, 0, 7)), (1, 1, 0, 0, 0, 1, 0, 1, 0, 0, 0), [])

    def test_a_refusal_cuts(self):
        # what comes after it is not counted: a call, a stop, a lost rear
        lost = feeds.make(WHOLE + SAMPLE + SAMPLE.replace("rear 90.0", "rear lost"))
        for faster in (said((0, 0, 7)), said((0, 0, 7), REFUSED), said((0, 0, 7), REFUSED, (0, 3, 9)), said((0, 0, 7), (0, 3, 9))):
            for slower in (said((0, 0, 7), REFUSED), said((0, 0, 7), REFUSED, (0, 3, 7))):
                self.check(lost, faster, slower, (1, 1, 0, 0, 0, 1, 0, 1, 0, 0, 1), [])
        # from the first sample on
        self.check(lost, REFUSED.encode(), said((0, 0, 7), (0, 0, 7)), 11 * (0,), [])
        self.check(lost, b"", b"", 11 * (0,), [])

    def test_lost_rears(self):
        lost = feeds.make(WHOLE + SAMPLE + SAMPLE.replace("rear 90.0", "rear lost"))
        self.check(lost, said((0, 0, 7), (0, 0, 7)), said((0, 0, 7), (0, 0, 7)), (1, 2, 0, 0, 0, 1, 0, 2, 0, 1, 0), ["lost rear"])

    def test_times_learnt(self):
        # at the last of its samples
        data, count = lesson(*PIPE), len(PIPE)
        output = taught(*STATES)
        self.check(data, output, output, (1, count, 0, 0, 0, 1, 0, count, 1, 0, 0), ["learnt"])
        cut = taught(*STATES[:-1], REFUSED)
        for pair in ((output, cut), (cut, output), (cut, cut)):
            self.check(data, *pair, (1, count - 1, 0, 0, 0, 1, 0, count - 1, 0, 0, 1), [])
        # after a refusal, and a lesson that teaches none
        data, output = lesson(PIPE[0], *PIPE), taught(0, REFUSED, *STATES[1:])
        self.assertIn("learnt", [one.shows for one in feeds.lessons(data, output)])
        self.check(data, output, output, (1, 1, 0, 0, 0, 1, 0, 1, 0, 0, 1), [])
        data, output = lesson(PIPE[0], (1, 8000, None)), taught(*STATES[:2])
        self.assertEqual(len(list(feeds.lessons(data, output))), 1)
        self.check(data, output, output, (1, 2, 0, 0, 0, 1, 0, 2, 0, 1, 0), ["lost rear"])

    def test_a_wrong_pair_is_not_counted(self):
        for slower in (said((0, 0, 7), (1, 2, 8), (1, 2, 9)), b"gone\xff\n", b""):
            tally = feeds.Tally(1)
            self.assertIsNotNone(tally.pairs.add(self.FEED, FASTER, slower))
            self.assertIn(self.ROW % (11 * (0,)), tally.table().splitlines())


if __name__ == "__main__":
    unittest.main()
