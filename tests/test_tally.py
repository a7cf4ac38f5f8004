"""Tests of what tools/compare counts: where program 1 and one that keeps an earlier rule part, and what never occurred."""

import unittest

from feed_texts import TRAIN
from here import feeds


class Tally(unittest.TestCase):

    def test_what_earlier_rules_never_showed(self):
        rises = {"above": "a rise", "below": "a rise of a train already below", "cut, below": "a cut walk below a target's speed"}
        finer = {"nearer": "a nearer stop", "not called": "a penalty not called"}
        weighed = {"call more": "a call more by weight", "call less": "a call less by weight",
                   "farther": "a farther stop by weight", "nearer": "a nearer stop by weight"}
        last = "a parting of the choices by none yet"
        learnt = {shown: name.replace("by weight", "by a learnt time") for shown, name in weighed.items()}
        for count, named in ((feeds.first_crossing, rises), (feeds.hundredths, finer), (feeds.evenly, weighed),
                             (feeds.unlearnt, learnt)):
            self.assertEqual(feeds.Tally(2, [count()]).missing()[-len(named) - 1:], [last, *named.values()])
            for shown, name in named.items():
                one = count()
                one.feeds[shown] += 1
                self.assertEqual(one.missing(), [other for other in named.values() if other != name])
        every = feeds.Tally(2, [feeds.first_crossing(), feeds.hundredths(), feeds.evenly(), feeds.unlearnt()]).missing()
        self.assertEqual(every[-14:], [last, *rises.values(), *finer.values(), *weighed.values(), *learnt.values()])

    def test_what_was_never_seen(self):
        sizes = ["a sample with 1 block", "a sample with 2 to 63 blocks", "a sample with 64 blocks"]
        silences = ["a silence kept at 5 s", "a silence given up at 6 s", "a silence with none yet",
                    "a silence kept while recharging", "a silence that counts as front while recharging"]
        lessons = ["a time learnt", "a time learnt anew", "a lesson ended by 600 s", "a lesson ended by the 257th point",
                   "a rear silent as the front falls", "a rear lost while it falls", "a lesson cut by a release",
                   "a lesson cut by an emergency", "a slope of one half", "a time learnt below equalization",
                   "a time held at 1,000", "a time held at 240,000"]
        pairs = ["a penalty that is earlier at a higher speed", "a penalty at the same sample of a pair",
                 "a penalty of the faster trip alone", "a nearer stop at a lower speed", "a pair of trips that learn a time",
                 "a pair of trips with a lost rear"]
        last = [*sizes, *silences, *lessons, *pairs, "a parting of the choices by a value given up",
                "a parting of the choices by none yet"]
        self.assertEqual(feeds.Tally(2).missing()[-30:], ["a runaway", "a slight descent", *last])
        seen = feeds.Tally(2)
        seen.slight += 1
        self.assertEqual(seen.missing()[-29:], ["a runaway", *last])
        for said, named in (("x 10", "refusal 10"), ("x 13", "refusal 13")):
            seen = feeds.Tally(2)
            self.assertIn(named, seen.missing())
            seen.add(b"", said.encode())
            self.assertNotIn(named, seen.missing())
        # 1 and 12 are not the program's to give, 11 is retired
        refusals = [name for name in feeds.Tally(2).missing() if name.startswith("refusal")]
        self.assertEqual(refusals, ["refusal %d" % n for n in (2, 3, 4, 5, 6, 7, 8, 9, 10, 13)])

    def test_output_that_is_none(self):
        # whatever a program prints, the counts stand it
        feed, good = feeds.random_feed(1, "grades"), b"0 0 0 0 7\n0 0 0 0 0\n"
        for garbage in (b"gone\xff\n", b"0 0 0 0 %s\n" % (5000 * b"9"), b"x %s\n" % (5000 * b"9"), b"\n\n", b"1 1 1 1 1\n1",
                        b"x\n"):
            for output, other in ((garbage, good), (good, garbage), (garbage, garbage)):
                tally = feeds.Tally(1, [feeds.first_crossing(), feeds.hundredths(), feeds.evenly(), feeds.unlearnt()])
                tally.add(feed, output)
                rules = (*tally.earlier, tally.choices)
                self.assertEqual([one.add(feed, output, other) for one in rules], 5 * [output == other])
                self.assertIn("compared 1 feeds", tally.table())


class Rises(unittest.TestCase):
    """What the count makes of a feed: a train at 20 mph, then above it, with targets of that speed and a hundredth less."""

    FEED = feeds.make(TRAIN + "profile 0\nprofile 40000\ntarget 5000 speed 2000\ntarget 6000 speed 1999\n"
                      "sample 0 head 5000 speed 20.0 front 90.0 rear 90.0\nsample 1 head 5000 speed 20.001 front 90.0 rear 90.0\n")
    CUT = 16777215

    def said(self, *causes, stop=7, state=0):
        return "".join("%d %d %d %d %d\n%d %d 0 0 0\n" % (time, state, cause > 0, cause, stop, time, state)
                       for time, cause in enumerate(causes)).encode()

    def test_what_the_first_shows(self):
        for causes, others, stop, want in (
                ((1, 1), (0, 0), 7, (2, "below")), ((2, 2), (0, 2), 7, (1, "above")), ((0, 1), (0, 0), 7, (1, "above")),
                ((1, 1), (2, 2), 7, (2, "below")), ((1, 1), (0, 0), self.CUT, (2, "cut, below")),
                ((2, 2), (0, 0), self.CUT, (2, "cut, above")), ((1, 1), (1, 1), 7, (0, None)), ((), (), 7, (0, None))):
            with self.subTest(causes=causes, others=others, stop=stop):
                self.assertEqual(feeds.rise(self.FEED, self.said(*causes, stop=stop), self.said(*others, stop=stop)), want)

    def test_what_no_rise_explains(self):
        called, none = self.said(1, 1), self.said(0, 0)
        for said, other in (
                # a call less, an earlier target
                (none, called), (self.said(2, 2), called),
                # another stop, state, number of samples or refusal
                (called, self.said(0, 0, stop=8)), (called, self.said(0, 0, state=1)), (called, self.said(0)), (called, b""),
                (called, b"x 8\n" + self.said(0)), (b"gone", b"x 8\n"),
                # emergency's line alone, the penalty's bit alone
                (called, called.replace(b"1 0 0 0 0\n", b"1 0 1 1 0\n")), (called, called.replace(b"0 0 1 1", b"0 0 0 1")),
                # a target and a sample that the feed has not
                (self.said(3, 3), none), (self.said(0, 0, 1), self.said(0, 0, 0))):
            with self.subTest(said=said, other=other):
                self.assertEqual(feeds.rise(self.FEED, said, other)[1], feeds.UNLIKE)
        self.assertEqual(feeds.rise(b"", called, none)[1], feeds.UNLIKE)


def said(*samples, emergency="0 0 0"):
    """An output; each sample is state, cause and stop."""
    return "".join("%d %d %d %d %d\n%d %d %s\n" % (time, state, cause > 0, cause, stop, time, state, emergency)
                   for time, (state, cause, stop) in enumerate(samples)).encode()


def never_explained(ours):
    """Outputs that part from that one, of two samples, in what no rule changes."""
    return (
        # another time, state, number of samples or refusal
        ours.replace(b"1 1 1 3 7", b"2 1 1 3 7"), said((0, 0, 8), (2, 3, 7)), said((0, 0, 8)), ours + b"x 8\n", b"x 8\n" + ours,
        b"", ours.replace(b"\n", b"\r\n"),
        # emergency's time and state, and its line
        ours.replace(b"1 1 0 0 0", b"1 2 0 0 0"), ours.replace(b"1 1 0 0 0", b"2 1 0 0 0"), ours[:-10],
        # what is no decision
        ours.replace(b"0 0 0 0 7", b"0 0 1 0 7"), ours.replace(b"0 0 0 0 7", b"0 0 0 1 7"), ours.replace(b"3 7", b"9 7"),
        ours.replace(b"0 7", b"0 " + 5000 * b"9"), ours.replace(b"0 7", b"0 \xff"), ours.replace(b"0 7", b"0 -1"))


class Finer(unittest.TestCase):
    """What the count makes of two outputs of two samples each."""

    def test_what_is_shown(self):
        ours = said((0, 0, 7), (1, 3, 7))
        for other, want in (
                (ours, (0, None)), (said((0, 0, 8), (1, 3, 7)), (1, "nearer")),
                (said((0, 0, 16777215), (1, 3, 4000000)), (2, "nearer")),
                (said((0, 3, 7), (1, 3, 7)), (1, "not called")), (said((0, 4, 7), (1, 4, 7)), (2, "not called")),
                (said((0, 3, 8), (1, 3, 8)), (2, "not called")), (said((0, 0, 7), (1, 2, 7)), (1, "neither")),
                (said((0, 0, 7), (1, 3, 7), emergency="1 1 9"), (2, "neither")),
                (said((0, 0, 7), (1, 3, 8), emergency="0 0 9"), (2, "nearer"))):
            with self.subTest(other=other):
                self.assertEqual(feeds.finer(ours, other), want)
        self.assertEqual(feeds.finer(b"x 8\n" + ours, b"x 8\n" + said((0, 0, 8), (1, 3, 7))), (1, "nearer"))
        self.assertEqual(feeds.finer(b"", b""), (0, None))

    def test_what_finer_averages_do_not_explain(self):
        ours = said((0, 0, 7), (1, 3, 7))
        for other in (
                # a nearer stop, a call less
                said((0, 0, 6), (1, 3, 7)), said((0, 0, 7), (1, 0, 7)), said((0, 0, 9), (1, 0, 9)),
                *never_explained(ours)):
            with self.subTest(other=other[:60]):
                self.assertEqual(feeds.finer(ours, other)[1], feeds.UNLIKE)
        # no stop is the farthest of all
        self.assertEqual(feeds.finer(said((0, 0, 16777215)), said((0, 0, 4000000)))[1], feeds.UNLIKE)
        self.assertEqual(feeds.finer(b"x 8\n", b"x 9\n")[1], feeds.UNLIKE)


class Weighed(unittest.TestCase):
    """What the count makes of two outputs of two samples each, the second with the weight spread evenly; and of the blocks."""

    def feed(self, blocks):
        """With so many of them, as even as can be."""
        shares = [[(place + 1) * whole // blocks - place * whole // blocks for place in range(blocks)] for whole in (600, 1000)]
        return feeds.make(TRAIN + "".join("block %d %d\n" % pair for pair in zip(*shares)) + "profile 0\nprofile 40000\n")

    def test_what_is_shown(self):
        ours = said((0, 0, 7), (1, 3, 7))
        for other, want in (
                (ours, (0, None)), (said((0, 0, 8), (1, 3, 7)), (1, "nearer")), (said((0, 0, 6), (1, 3, 7)), (1, "farther")),
                (said((0, 0, 16777215), (1, 3, 4000000)), (2, "nearer")), (said((0, 0, 8), (1, 3, 6)), (2, "farther")),
                (said((0, 3, 7), (1, 3, 7)), (1, "call less")), (said((0, 4, 6), (1, 4, 7)), (2, "call less")),
                (said((0, 0, 7), (1, 0, 7)), (1, "call more")), (said((0, 0, 8), (1, 0, 6)), (2, "call more")),
                (said((0, 2, 7), (1, 0, 7)), (2, "call more")), (said((0, 0, 7), (1, 2, 7)), (1, "neither")),
                (said((0, 0, 7), (1, 3, 7), emergency="1 1 9"), (2, "neither"))):
            for blocks in (2, 63, 64):
                with self.subTest(other=other, blocks=blocks):
                    self.assertEqual(feeds.weighed(self.feed(blocks), ours, other), want)
        self.assertEqual(feeds.weighed(self.feed(2), b"x 8\n" + ours, b"x 8\n" + said((0, 0, 8), (1, 3, 7))), (1, "nearer"))
        self.assertEqual(feeds.weighed(self.feed(2), said((0, 0, 16777215)), said((0, 0, 4000000))), (1, "farther"))

    def test_what_blocks_do_not_explain(self):
        ours = said((0, 0, 7), (1, 3, 7))
        for other in never_explained(ours):
            with self.subTest(other=other[:60]):
                self.assertEqual(feeds.weighed(self.feed(2), ours, other)[1], feeds.UNLIKE)
        for refusals in ((b"x 13\n", b""), (b"x 13\n", b"x 6\n"), (b"x 13\n", ours)):
            self.assertEqual(feeds.weighed(self.feed(2), *refusals)[1], feeds.UNLIKE)

    def test_without_blocks_and_with_one(self):
        # nothing may differ: a stop, a call, the cause
        ours = said((0, 0, 7), (1, 3, 7))
        for other in (said((0, 0, 8), (1, 3, 7)), said((0, 3, 7), (1, 3, 7)), said((0, 0, 7), (1, 0, 7)),
                      said((0, 0, 7), (1, 2, 7))):
            for data in (self.feed(0), self.feed(1), self.feed(2)[:16], b""):
                self.assertEqual(feeds.weighed(data, ours, other)[1], feeds.UNLIKE)
                self.assertEqual(feeds.weighed(data, ours, ours), (0, None))

    def test_blocks_are_counted(self):
        tally = feeds.Tally(1)
        for blocks, samples in ((0, 7), (1, 1), (2, 2), (63, 3), (64, 4), (1, 5)):
            tally.add(self.feed(blocks), said(*samples * [(0, 0, 7)]))
        # refused and odd samples are none
        for output in (b"x 13\n", b"gone\n", b""):
            tally.add(self.feed(64), output)
        # a count that is never right
        tally.add(self.feed(0)[:16] + b"\x41", said((0, 0, 7)))
        self.assertIn("\nblocks    9 feeds; accepted samples with 1:6  2 to 63:5  64:4\n", tally.table())
        self.assertFalse([name for name in tally.missing() if "block" in name])


if __name__ == "__main__":
    unittest.main()
