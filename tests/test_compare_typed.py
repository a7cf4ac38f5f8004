"""Tests of tools/compare: where a learnt time answers otherwise than the typed one."""

import unittest

import built
from built import TYPED
from comparing import Comparing
from here import feeds
from lesson_feeds import PIPE, REFUSED, STATES, feed, said
from second_program import run

# It teaches a time at its eighth sample, of place 7, and has two more.
DATA = feed(*PIPE, (17, 8000, 8375), (18, 8000, 8375))
OURS = said(*STATES, 2, 2)


class Typed(unittest.TestCase):
    """What the count makes of two outputs, the second by the typed time."""

    def test_what_is_shown(self):
        for old, new, want in (
                (b"8 2 0 0 7", b"8 2 0 0 8", "nearer"), (b"8 2 0 0 7", b"8 2 0 0 6", "farther"),
                (b"8 2 0 0 7", b"8 2 0 0 16777215", "nearer"), (b"9 2 0 0 7", b"9 2 1 3 7", "call less"),
                (b"9 2 0 0 0", b"9 2 1 3 9", "neither"), (b"9 2 0 0 0", b"9 2 0 0 9", "neither"),
                # another fall, another state
                (b"9 2 0 0 7\n9 2 ", b"9 1 0 0 7\n9 1 ", "neither"), (b"9 2 0 0 7\n9 2 ", b"9 1 0 0 9\n9 1 ", "nearer")):
            with self.subTest(new=new):
                other = OURS.replace(old, new)
                self.assertNotEqual(other, OURS)
                self.assertEqual(feeds.typed(DATA, OURS, other), (1, want))
        called = OURS.replace(b"9 2 0 0 7", b"9 2 1 3 7")
        self.assertEqual(feeds.typed(DATA, called, OURS), (1, "call more"))
        self.assertEqual(feeds.typed(DATA, called, OURS.replace(b"8 2 0 0 7", b"8 2 0 0 8")), (2, "call more"))
        self.assertEqual(feeds.typed(DATA, OURS, OURS), (0, None))
        self.assertEqual(feeds.typed(b"", b"", b""), (0, None))

    def test_what_a_learnt_time_does_not_explain(self):
        for other in (
                # at the sample that learns, or before it
                OURS.replace(b"7 2 0 0 7", b"7 2 0 0 8"), OURS.replace(b"0 0 0 0 7", b"0 0 0 0 8"),
                OURS.replace(b"6 2 0 0 7\n6 2 ", b"6 1 0 0 7\n6 1 "),
                # and also after it
                OURS.replace(b" 7\n", b" 8\n"),
                # another time, number of samples or refusal, after it
                OURS.replace(b"8 2 0 0 7", b"9 2 0 0 7"), OURS.replace(b"8 2 0 0 0", b"9 2 0 0 0"), said(*STATES, 2),
                said(*STATES, 2, REFUSED), OURS + b"x 2\n", OURS[:-10], OURS[:-1], b"",
                # what is no decision
                OURS.replace(b"8 2 0 0 7", b"8 2 0 1 7"), OURS.replace(b"8 2 0 0 7", b"8 6 0 0 7"),
                OURS.replace(b"8 2 0 0 7", b"gone\xff")):
            with self.subTest(other=other):
                self.assertNotEqual(other, OURS)
                self.assertEqual(feeds.typed(DATA, OURS, other)[1], feeds.UNLIKE)
        # nothing is learnt, or the feed ends before its samples
        further = OURS.replace(b"9 2 0 0 7", b"9 2 0 0 8")
        for data in (feed(*PIPE[:-1], (16, 8000, 8400), (17, 8000, 8400), (18, 8000, 8400)), DATA[:16], b""):
            self.assertEqual(feeds.typed(data, OURS, further), (1, feeds.UNLIKE))
        # lessons without a result are none
        cut = said(0, 1, 1, 1, 5, 5, 5, 5, 5, 5)
        self.assertEqual(feeds.typed(DATA, cut, cut.replace(b"9 5 0 0 7", b"9 5 0 0 8")), (1, feeds.UNLIKE))


class Compared(Comparing):

    # A kind of feeds from which a time is learnt, and one with a train that never brakes.
    KIND, OTHER = "learning", "brink"

    def test_differences_are_counted(self):
        shown, samples = [], 0
        for seed in range(34, 46):
            data = feeds.random_feed(seed, self.KIND)
            count, what = feeds.typed(data, run(data).encode(), run(data, TYPED).encode())
            shown.append(what)
            samples += count
        counts = [shown.count(what) for what in feeds.EITHER_WAY]
        self.assertTrue(all(counts[:4]) and samples > sum(counts))
        status, out, _ = self.run_compare("12", "--first", "34", "--kind", self.KIND, "--typed", built.second(TYPED),
                                          "--", built.second(), "--", built.second())
        self.assertEqual(status, 0, out)
        self.assertIn("\nlearnt    %d feeds, %d samples; call more:%d  call less:%d  farther:%d  nearer:%d  neither:%d\n"
                      % (sum(counts), samples, *counts), out)
        self.assertIn("; program 3 0:12\n", out)

    def test_differences_where_nothing_is_learnt(self):
        program, farther = (self.saying("0 0 1 1 %d\n0 0 0 0 7\n" % stop) for stop in (7, 8))
        for kind in (self.KIND, self.OTHER):
            status, out, _ = self.run_compare("1", "--kind", kind, "--typed", farther, "--", program, "--", program)
            self.assertEqual(status, 1)
            self.assertIn("seed 0 (%s): the outputs differ;" % kind, out)
            self.assertIn("line 1 of program 1: 0 0 1 1 7\nline 1 of program 3: 0 0 1 1 8\n", out)

    def test_a_program_that_learns_too_soon(self):
        # it has the learnt time at the sample that learns already
        data = feeds.random_feed(0, self.KIND)
        ours, typed = run(data).splitlines(keepends=True), run(data, TYPED).splitlines(keepends=True)
        first = next(place for place, both in enumerate(zip(ours, typed)) if both[0] != both[1])
        early = "".join([*typed[:first - 2], *(line.replace("\n", "1\n") for line in typed[first - 2:first]), *typed[first:]])
        self.assertIn(feeds.typed(data, "".join(ours).encode(), "".join(typed).encode())[1], feeds.EITHER_WAY)
        self.assertEqual(feeds.typed(data, "".join(ours).encode(), early.encode())[1], feeds.UNLIKE)

    def test_its_number_is_the_last(self):
        ours, odd = self.saying("0 0 1 1 7\n0 0 0 0 7\n"), self.saying("x 8\n")
        # the options in another order: it does not matter
        status, out, _ = self.run_compare("1", "--typed", odd, "--evenly", ours, "--hundredths", ours, "--first-crossing", ours,
                                          "--", ours, "--", ours)
        self.assertEqual(status, 1)
        self.assertIn("line 1 of program 1: 0 0 1 1 7\nline 1 of program 6: x 8\n", out)
        self.assertLess(out.index("\nweighed   "), out.index("\nlearnt    "))

    def test_it_is_run_by_default_alone(self):
        ours = self.saying("x 8\n")
        earlier = self.program('if [ "$*" = everlasting ]; then kill -SEGV $$; fi', "printf 'x 8\\n'")
        status, out, _ = self.run_compare("3", "--typed", earlier, "--", ours, "--", ours)
        self.assertEqual(status, 0, out)
        self.assertIn("; program 3 0:3\n          everlasting: program 1 0:3; program 2 0:3\n", out)

    def test_what_never_occurred(self):
        status, out, _ = self.run_compare("300", "--typed", "true", "--", "true", "--", "true")
        self.assertEqual(status, 3)
        self.assertIn(", a time learnt, a time learnt anew, a lesson ended by 600 s, a lesson ended by the 257th point, ", out)
        self.assertIn(", a call more by a learnt time, a call less by a learnt time, a farther stop by a learnt time, "
                      "a nearer stop by a learnt time\n", out)

    def test_command_line(self):
        for words in (("--typed",), ("--typed", "/nonexistent/program")):
            self.assertEqual(self.run_compare("5", *words, "--", "true", "--", "true")[0], 2)


if __name__ == "__main__":
    unittest.main()
