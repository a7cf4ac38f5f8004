"""Tests of tools/compare: what is compared and counted; test_compare_choices has what it makes of the two choices,
test_compare_typed what it makes of a learnt time, and test_compare_pairs what it makes of a slower trip."""

import os
import unittest

from comparing import Comparing
from here import PYTHON, feeds

# A stand-in for a session program: prints how many bytes it was given.
COUNT = [*PYTHON, "-c", "import sys; print(len(sys.stdin.buffer.read()))"]
# The same, but one off from 200 bytes on.
WRONG = [*PYTHON, "-c", "import sys; n = len(sys.stdin.buffer.read()); print(n + (n > 200))"]


class Compare(Comparing):

    def test_same(self):
        status, out, _ = self.run_compare("7", "--", *COUNT, "--", *COUNT)
        self.assertEqual(status, 0, out)
        self.assertIn("compared 7 feeds, 7 lines", out)
        self.assertIn("no difference", out)
        self.assertNotIn("rises", out)
        self.assertNotIn("finer", out)
        self.assertNotIn("weighed", out)
        self.assertNotIn("\nlearnt ", out)

    def test_difference_is_saved(self):
        first = 100
        status, out, _ = self.run_compare("30", "--first", str(first), "--", *COUNT, "--", *WRONG)
        self.assertEqual(status, 1, out)
        seed = next(seed for seed in range(first, first + 30)
                    if len(feeds.random_feed(seed)) > 200)
        length = len(feeds.random_feed(seed))
        self.assertIn("seed %d (" % seed, out)
        self.assertIn("line 1 of program 1: %d\n" % length, out)
        self.assertIn("line 1 of program 2: %d\n" % (length + 1), out)
        name, = os.listdir(self.place.name)
        with open(os.path.join(self.place.name, name), "rb") as file:
            self.assertEqual(file.read(), feeds.random_feed(seed))

    def test_ended_output_is_a_difference(self):
        status, out, _ = self.run_compare("3", "--", *COUNT, "--", "true")
        self.assertEqual(status, 1)
        self.assertIn("line 1 of program 2: (ended)\n", out)
        status, out, _ = self.run_compare("3", "--", "echo", "x 2", "--", "printf", "x 2")
        self.assertEqual(status, 1)
        self.assertIn("line 1 of program 1: x 2\nline 1 of program 2: x 2 (no newline)\n", out)

    def test_signal_is_a_difference(self):
        status, out, _ = self.run_compare("3", "--", "true", "--", "sh", "-c", "kill -SEGV $$")
        self.assertEqual(status, 1)
        self.assertIn("program 2 was ended by signal 11", out)

    def test_hanging_is_a_difference(self):
        status, out, _ = self.run_compare("3", "--timeout", "0.2", "--", "true", "--",
                                          "sleep", "10")
        self.assertEqual(status, 1)
        self.assertIn("program 2 ran out of time", out)

    def test_three_programs(self):
        status, out, _ = self.run_compare("7", "--", *COUNT, "--", *COUNT, "--", *COUNT)
        self.assertEqual(status, 0, out)
        self.assertIn("program 3 0:7", out)
        status, out, _ = self.run_compare("3", "--", "echo", "x 2", "--", "echo", "x 2", "--", "true")
        self.assertEqual(status, 1)
        self.assertIn("line 1 of program 1: x 2\nline 1 of program 3: (ended)\n", out)

    def test_what_never_occurred(self):
        status, out, _ = self.run_compare("300", "--", "true", "--", "true")
        self.assertEqual(status, 3)
        self.assertIn("never occurred: state 0,", out)
        self.assertIn("cause 8, refusal 2,", out)
        self.assertIn("refusal 10, refusal 13, emergency called in state 0,", out)
        self.assertIn("emergency called in state 5, emergency cause 1 in state 0,", out)
        self.assertIn("emergency cause 8 in state 5, a runaway, a slight descent, a sample with 1 block, "
                      "a sample with 2 to 63 blocks, a sample with 64 blocks, a silence kept at 5 s, ", out)
        self.assertIn(", a penalty that is earlier at a higher speed, a penalty at the same sample of a pair, a penalty of the "
                      "faster trip alone, a nearer stop at a lower speed, a pair of trips that learn a time, a pair of trips with "
                      "a lost rear, a parting of the choices by a value given up, a parting of the choices by none yet\n", out)
        self.assertEqual(self.run_compare("299", "--", "true", "--", "true")[0], 0)

    def test_emergency_is_counted(self):
        # On each of 3 feeds: a sample without emergency, one that calls it, two in which it stands, a refused one.
        said = ("0 0 0 0 7\n0 0 0 0 0\n1 3 1 2 7\n1 3 1 5 7\nx 8\n2 4 1 2 7\n2 4 1 5 7\n3 4 1 2 7\n3 4 1 5 7\n")
        program = [*PYTHON, "-c", "print(%r, end='')" % said]
        status, out, _ = self.run_compare("3", "--", *program, "--", *program)
        self.assertEqual(status, 0, out)
        self.assertIn("compared 3 feeds, 27 lines (12 accepted, 3 refused)\n", out)
        self.assertIn("\nstates    0:3  1:0  2:0  3:3  4:6  5:0\n", out)
        self.assertIn("\nemergency 0:3  1:0  2:0  3:0  4:0  5:9  6:0  7:0  8:0; "
                      "called in states 0:0  1:0  2:0  3:3  4:0  5:0\n", out)
        self.assertIn("\n          each cause in each state: 2 of 48\n", out)
        self.assertNotIn("neither", out)

    def test_a_missing_second_line_is_odd(self):
        for said in ("0 0 0 0 7\n", "0 0 0 0 7\nx 8\n", "0 0 0 0 7\n0 0 0 0\n"):
            program = [*PYTHON, "-c", "print(%r, end='')" % said]
            status, out, _ = self.run_compare("1", "--", *program, "--", *program)
            self.assertIn("\n%d lines are neither a decision nor a refusal\n" % said.count("\n"), out)
            self.assertIn("(0 accepted, 0 refused)", out)

    def test_runaways_are_counted(self):
        # 4 feeds of the kind, and a program that says of every sample that there is no stop.
        never = [*PYTHON, "-c", "print('1 0 0 0 16777215\\n' * 400)"]
        samples = sum(len(feeds.split(feeds.random_feed(seed, "runaway"))[3]) for seed in range(4))
        status, out, _ = self.run_compare("4", "--kind", "runaway", "--", *never, "--", *never)
        self.assertEqual(status, 0)
        self.assertIn("\nrunaways  %d\n" % samples, out)
        # whatever is said of them, none of these of other kinds runs away
        status, out, _ = self.run_compare("25", "--", *never, "--", *never)
        self.assertEqual(status, 0)
        self.assertIn("\nrunaways  0\n", out)

    def test_slight_descents_are_counted(self):
        # a program that accepts every sample, as every one of these is to be
        always = "0 0 0 0 7\n0 0 0 0 0\n" * 40
        data = [feeds.random_feed(seed, "grades") for seed in range(8)]
        count = sum(feeds.slight_descents(one, always.encode()) for one in data)
        self.assertGreater(count, 8)
        program = [*PYTHON, "-c", "print(%r, end='')" % always]
        status, out, _ = self.run_compare("8", "--kind", "grades", "--", *program, "--", *program)
        self.assertEqual(status, 0, out)
        self.assertIn("\nslight    %d\n" % count, out)

    def test_blocks_are_counted(self):
        # a program that accepts two samples, whatever it is given
        program = self.saying("0 0 0 0 7\n0 0 0 0 0\n1 0 0 0 7\n1 0 0 0 0\n")
        counts = [feeds.random_feed(seed, "manifest")[16] for seed in range(30)]
        sizes = [sum(2 for count in counts if least <= count <= most) for least, most in ((1, 1), (2, 63), (64, 64))]
        self.assertTrue(all(sizes))
        status, out, _ = self.run_compare("30", "--kind", "manifest", "--", program, "--", program)
        self.assertEqual(status, 0, out)
        self.assertIn("\nblocks    30 feeds; accepted samples with 1:%d  2 to 63:%d  64:%d\n" % (*sizes,), out)

    def test_rises_are_counted(self):
        # Of three samples the second calls the penalty, by the first target.  By the first crossing it is not called, or a
        # sample later.
        count, ours = 16, "0 0 0 0 %d\n0 0 0 0 0\n1 0 1 1 %d\n1 0 0 0 7\n2 0 1 1 %d\n2 0 0 0 7\n"
        later = ours.replace("1 0 1 1 %d\n1 0 0 0 7", "1 0 0 0 %d\n1 0 0 0 0")
        never = later.replace("2 0 1 1 %d\n2 0 0 0 7", "2 0 0 0 %d\n2 0 0 0 0")
        parts = [feeds.split(feeds.random_feed(seed, "undulating")) for seed in range(count)]
        below = sum(feeds.unpack(targets[1:6], feeds.TARGET_WIDTHS)[1]
                    >= 100 * feeds.value_of(feeds.unpack(samples[1], feeds.SAMPLE_WIDTHS)[5]) for _, _, targets, samples in parts)
        above = count - below
        self.assertTrue(above and below)
        for others, samples, stop, classes in ((never, 2, 7, (above, below, 0, 0)), (later, 1, 7, (above, below, 0, 0)),
                                               (never, 2, 16777215, (0, 0, above, below)), (ours, 0, 7, (0, 0, 0, 0))):
            program = self.saying(ours % (3 * (stop,)))
            status, out, _ = self.run_compare(str(count), "--kind", "undulating", "--first-crossing",
                                              self.saying(others % (3 * (stop,))), "--", program, "--", program)
            self.assertEqual(status, 0, out)
            self.assertIn("\nrises     %d feeds, %d samples; above:%d  below:%d  cut, above:%d  cut, below:%d\n"
                          % (sum(classes), samples * count, *classes), out)
            self.assertIn("program 3 0:%d\n" % count, out)

    def test_first_crossing_that_differs_otherwise(self):
        program = self.saying("0 0 1 1 7\n0 0 0 0 7\n")
        for said, line in (("0 0 0 0 8\n0 0 0 0 0\n", "0 0 0 0 8"), ("x 8\n", "x 8"), ("", "(ended)")):
            status, out, _ = self.run_compare("3", "--kind", "undulating", "--first-crossing", self.saying(said),
                                              "--", program, "--", program)
            self.assertEqual(status, 1)
            self.assertIn("seed 0 (undulating): the outputs differ;", out)
            self.assertIn("line 1 of program 1: 0 0 1 1 7\nline 1 of program 3: %s\n" % line, out)
        status, out, _ = self.run_compare("3", "--first-crossing", self.saying("", "kill -SEGV $$"), "--", "true", "--", "true")
        self.assertEqual(status, 1)
        self.assertIn("program 3 was ended by signal 11\n", out)

    def test_a_difference_beside_a_rise(self):
        # what the first crossing says is not what a difference is told by
        ours, other = (self.saying("0 0 1 %d 7\n0 0 0 0 7\n" % cause) for cause in (1, 2))
        status, out, _ = self.run_compare("3", "--kind", "undulating", "--first-crossing", self.saying("0 0 0 0 7\n0 0 0 0 0\n"),
                                          "--", ours, "--", other)
        self.assertEqual(status, 1)
        self.assertIn("line 1 of program 1: 0 0 1 1 7\nline 1 of program 2: 0 0 1 2 7\n", out)

    def test_finer_averages_are_counted(self):
        # Of two samples the second has the penalty; by hundredths it has a further stop, or the first has it already.
        ours = "0 0 0 0 7\n0 0 0 0 0\n1 0 1 1 7\n1 0 0 0 7\n"
        further = ours.replace("1 1 7", "1 1 16777215")
        sooner = ours.replace("0 0 0 0 7", "0 0 1 2 9").replace("1 1 7", "1 2 7")
        for others, samples, classes in ((ours, 0, (0, 0, 0)), (further, 1, (0, 3, 0)), (sooner, 2, (3, 0, 0)),
                                         (ours.replace("1 0 0 0 7", "1 0 1 1 9"), 1, (0, 0, 3))):
            program = self.saying(ours)
            status, out, _ = self.run_compare("3", "--hundredths", self.saying(others), "--", program, "--", program)
            self.assertEqual(status, 0, out)
            self.assertIn("\nfiner     %d feeds, %d samples; not called:%d  nearer:%d  neither:%d\n"
                          % (sum(classes), 3 * samples, *classes), out)
            self.assertIn("program 3 0:3\n", out)

    def test_hundredths_that_differ_otherwise(self):
        program = self.saying("0 0 1 1 7\n0 0 0 0 7\n")
        for said, line in (("0 0 1 1 6\n0 0 0 0 7\n", "0 0 1 1 6"), ("0 0 0 0 7\n0 0 0 0 0\n", "0 0 0 0 7"), ("x 8\n", "x 8"),
                           ("", "(ended)")):
            status, out, _ = self.run_compare("3", "--hundredths", self.saying(said), "--", program, "--", program)
            self.assertEqual(status, 1)
            self.assertIn("seed 0 (trip): the outputs differ;", out)
            self.assertIn("line 1 of program 1: 0 0 1 1 7\nline 1 of program 3: %s\n" % line, out)

    # Manifest trains in a row of which each has two blocks or more.
    SEVERAL = next(first for first in range(100) if all(feeds.random_feed(first + more, "manifest")[16] > 1 for more in range(3)))

    def test_what_is_weighed_is_counted(self):
        # Of two samples the second has the penalty; with the weight spread evenly it has not, or the first has it already.
        ours = "0 0 0 0 7\n0 0 0 0 0\n1 0 1 1 7\n1 0 0 0 7\n"
        later = ours.replace("1 0 1 1 7\n1 0 0 0 7", "1 0 0 0 7\n1 0 0 0 0")
        sooner = ours.replace("0 0 0 0 7", "0 0 1 2 9").replace("1 1 7", "1 2 7")
        for others, samples, classes in (
                (ours, 0, (0, 0, 0, 0, 0)), (later, 1, (3, 0, 0, 0, 0)), (sooner, 2, (0, 3, 0, 0, 0)),
                (ours.replace("1 1 7", "1 1 6"), 1, (0, 0, 3, 0, 0)), (ours.replace("1 1 7", "1 1 16777215"), 1, (0, 0, 0, 3, 0)),
                (ours.replace("1 0 0 0 7", "1 0 1 1 9"), 1, (0, 0, 0, 0, 3))):
            program = self.saying(ours)
            status, out, _ = self.run_compare("3", "--kind", "manifest", "--first", str(self.SEVERAL), "--evenly",
                                              self.saying(others), "--", program, "--", program)
            self.assertEqual(status, 0, out)
            self.assertIn("\nweighed   %d feeds, %d samples; call more:%d  call less:%d  farther:%d  nearer:%d  neither:%d\n"
                          % (sum(classes), 3 * samples, *classes), out)
            self.assertIn("program 3 0:3\n", out)

    def test_an_even_spread_that_differs_otherwise(self):
        program = self.saying("0 0 1 1 7\n0 0 0 0 7\n")
        for said, line in (("1 0 1 1 7\n1 0 0 0 7\n", "1 0 1 1 7"), ("0 1 1 1 7\n0 1 0 0 7\n", "0 1 1 1 7"), ("x 13\n", "x 13"),
                           ("", "(ended)")):
            status, out, _ = self.run_compare("3", "--kind", "manifest", "--first", str(self.SEVERAL), "--evenly",
                                              self.saying(said), "--", program, "--", program)
            self.assertEqual(status, 1)
            self.assertIn("seed %d (manifest): the outputs differ;" % self.SEVERAL, out)
            self.assertIn("line 1 of program 1: 0 0 1 1 7\nline 1 of program 3: %s\n" % line, out)

    def test_an_even_spread_that_differs_without_blocks(self):
        # the first feed with one block at most, after those with more
        program, farther = (self.saying("0 0 1 1 %d\n0 0 0 0 7\n" % stop) for stop in (7, 8))
        first = next(seed for seed in range(self.SEVERAL, 100) if feeds.random_feed(seed, "manifest")[16] == 1)
        status, out, _ = self.run_compare("50", "--kind", "manifest", "--first", str(self.SEVERAL), "--evenly", farther,
                                          "--", program, "--", program)
        self.assertEqual(status, 1)
        self.assertIn("seed %d (manifest): the outputs differ;" % first, out)
        self.assertIn("\nweighed   %d feeds" % (first - self.SEVERAL + 1), out)
        trip = next(seed for seed in range(100) if feeds.random_feed(seed, "trip")[16] == 0)
        status, out, _ = self.run_compare("1", "--kind", "trip", "--first", str(trip), "--evenly", farther,
                                          "--", program, "--", program)
        self.assertEqual(status, 1)

    def test_all_earlier_rules(self):
        # each has the number of its place, whatever the order of the options
        ours, without = (self.saying(said) for said in ("0 0 1 1 7\n0 0 0 0 7\n", "0 0 0 0 7\n0 0 0 0 0\n"))
        further, odd = self.saying("0 0 1 1 9\n0 0 0 0 7\n"), self.saying("x 8\n")
        for evenly, wrong in ((without, None), (odd, "5: x 8")):
            status, out, _ = self.run_compare("1", "--kind", "manifest", "--first", str(self.SEVERAL), "--evenly", evenly,
                                              "--hundredths", further, "--first-crossing", ours, "--", ours, "--", ours)
            self.assertEqual(status, 1 if wrong else 0, out)
            self.assertLess(out.index("\nfiner     1 feeds, 1 samples;"), out.index("\nweighed   1 feeds, 1 samples;"))
            if wrong:
                self.assertIn("line 1 of program 1: 0 0 1 1 7\nline 1 of program %s\n" % wrong, out)
            else:
                self.assertIn("program 4 0:1; program 5 0:1\n", out)

    def test_both_earlier_rules(self):
        ours, without = (self.saying(said) for said in ("0 0 1 1 7\n0 0 0 0 7\n", "0 0 0 0 7\n0 0 0 0 0\n"))
        further = self.saying("0 0 1 1 9\n0 0 0 0 7\n")
        for crossing, hundredths, wrong in ((without, further, None), (without, without, "4: 0 0 0 0 7"),
                                            (further, further, "3: 0 0 1 1 9")):
            # the options in the other order: it does not matter
            status, out, _ = self.run_compare("2", "--kind", "undulating", "--hundredths", hundredths,
                                              "--first-crossing", crossing, "--", ours, "--", ours)
            self.assertEqual(status, 1 if wrong else 0, out)
            self.assertLess(out.index("\nrises     "), out.index("\nfiner     "))
            if wrong:
                self.assertIn("line 1 of program 1: 0 0 1 1 7\nline 1 of program %s\n" % wrong, out)
            else:
                self.assertIn("\nrises     2 feeds, 2 samples;", out)
                self.assertIn("\nfiner     2 feeds, 2 samples;", out)
                self.assertIn("program 3 0:2; program 4 0:2\n", out)

    def test_command_line(self):
        for words in ((), ("5",), ("5", "--", "true"), ("x", "--", "true", "--", "true"),
                      ("5", "--", "true", "--"), ("0", "--", "true", "--", "true"),
                      ("5", "--kind", "none", "--", "true", "--", "true"),
                      ("5", "--first-crossing", "--", "true", "--", "true"),
                      ("5", "--first-crossing", "/nonexistent/program", "--", "true", "--", "true"),
                      ("5", "--hundredths", "--", "true", "--", "true"),
                      ("5", "--hundredths", "/nonexistent/program", "--", "true", "--", "true"),
                      ("5", "--evenly", "--", "true", "--", "true"),
                      ("5", "--evenly", "/nonexistent/program", "--", "true", "--", "true"),
                      ("5", "--", "/nonexistent/program", "--", "true")):
            with self.subTest(words=words):
                self.assertEqual(self.run_compare(*words)[0], 2)


if __name__ == "__main__":
    unittest.main()
