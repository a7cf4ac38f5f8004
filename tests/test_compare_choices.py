"""Tests of tools/compare: every feed under both choices of what a lost rear counts as."""

import unittest

import built
from comparing import Comparing
from here import feeds
from second_program import EVERLASTING, run

ONE = "0 0 0 0 7\n0 0 0 0 0\n"


class Choices(Comparing):

    def choosing(self, said, everlasting, after=""):
        """A program that prints the one by default, and else the other, and then does what is to come after."""
        return self.program(
            'if [ "$*" = everlasting ]; then', "printf '%s'" % everlasting, after, "else", "printf '%s'" % said, "fi")

    def test_the_word_is_the_last_argument(self):
        program = "sh", "-c", 'echo "$@"', "sh", "one"
        status, out, _ = self.run_compare("1", "--", *program, "--", *program)
        self.assertEqual(status, 1)
        self.assertIn("line 1 of program 1: one\nline 1 of program 1 everlasting: one everlasting\n", out)

    def test_programs_that_differ_under_one_choice(self):
        ours, other = self.choosing(ONE, "x 8\n"), self.choosing(ONE, "x 9\n")
        status, out, _ = self.run_compare("3", "--", ours, "--", ours, "--", other)
        self.assertEqual(status, 1)
        self.assertIn("seed 0 (trip): the outputs differ;", out)
        self.assertIn("line 1 of program 1 everlasting: x 8\nline 1 of program 3 everlasting: x 9\n", out)
        ours, other = self.choosing("x 8\n", ONE), self.choosing("x 9\n", ONE)
        status, out, _ = self.run_compare("3", "--", ours, "--", other)
        self.assertEqual(status, 1)
        self.assertIn("line 1 of program 1: x 8\nline 1 of program 2: x 9\n", out)

    def test_ends_under_the_everlasting_choice(self):
        ours = self.saying(ONE)
        status, out, _ = self.run_compare("3", "--", ours, "--", self.choosing(ONE, ONE, "exit 7"))
        self.assertEqual(status, 0, out)
        self.assertIn("\nexits     program 1 0:3; program 2 0:3\n          everlasting: program 1 0:3; program 2 7:3\n", out)
        status, out, _ = self.run_compare("3", "--", ours, "--", self.choosing(ONE, ONE, "kill -SEGV $$"))
        self.assertEqual(status, 1)
        self.assertIn("program 2 everlasting was ended by signal 11\n", out)
        status, out, _ = self.run_compare("3", "--timeout", "0.3", "--", ours, "--", self.choosing(ONE, ONE, "exec sleep 10"))
        self.assertEqual(status, 1)
        self.assertIn("program 2 everlasting ran out of time\n", out)

    def test_earlier_rules_are_by_default_alone(self):
        ours, earlier = self.saying(ONE), self.choosing(ONE, "", "kill -SEGV $$")
        status, out, _ = self.run_compare("3", "--first-crossing", earlier, "--hundredths", earlier, "--evenly", earlier,
                                          "--", ours, "--", ours)
        self.assertEqual(status, 0, out)
        self.assertIn("; program 5 0:3\n          everlasting: program 1 0:3; program 2 0:3\n", out)

    def test_time_and_refusals_are_the_same(self):
        # on feeds in which the choices may part, at the last sample
        data = feeds.random_feed(1, "quiet")
        said = run(data)
        self.assertTrue(any(silence.otherwise for silence in feeds.silences(data, said.encode())))
        *before, first, second = said.splitlines(keepends=True)
        self.assertFalse(first.startswith("x"))
        later = "".join("%d %s" % (int(line.split(" ")[0]) + 1, line.split(" ", 1)[1]) for line in (first, second))
        for last in (later, "x 8\n", "", first, "gone\n" + second):
            program = self.choosing(said, "".join(before) + last)
            status, out, _ = self.run_compare("1", "--kind", "quiet", "--first", "1", "--", program, "--", program)
            self.assertEqual(status, 1, last)
            self.assertIn("line %d of program 1 everlasting: " % (len(before) + 1 + (last == first)), out)

    def test_no_parting_without_a_silence(self):
        # the rear is there throughout
        program = self.choosing(ONE, ONE.replace("0 0 0 0 7", "0 0 0 0 8"))
        status, out, _ = self.run_compare("1", "--kind", "brink", "--", program, "--", program)
        self.assertEqual(status, 1)
        self.assertIn("line 1 of program 1: 0 0 0 0 7\nline 1 of program 1 everlasting: 0 0 0 0 8\n", out)

    def test_partings_are_counted(self):
        shown, samples = [], 0
        for seed in range(30):
            data = feeds.random_feed(seed, "quiet")
            count, what = feeds.parting(data, run(data).encode(), run(data, words=EVERLASTING).encode())
            shown.append(what)
            samples += count
        given_up, none_yet = (shown.count(what) for what in ("given up", "none yet"))
        self.assertTrue(given_up and none_yet and samples > given_up + none_yet)
        status, out, _ = self.run_compare("30", "--kind", "quiet", "--", built.second(), "--", built.second())
        self.assertEqual(status, 0, out)
        self.assertIn("\nchoices   %d feeds, %d samples; given up:%d  none yet:%d\n"
                      % (given_up + none_yet, samples, given_up, none_yet), out)


if __name__ == "__main__":
    unittest.main()
