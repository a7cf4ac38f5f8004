"""Tests of tools/compare: the slower trip of each feed, and what the answers to it may be."""

import os
import unittest

import built
from comparing import Comparing
from here import feeds
from second_program import run

# Two samples, the second with the penalty; and the same with a nearer stop in each.
OURS = "0 0 0 0 7\n0 0 0 0 0\n1 1 1 1 9\n1 1 0 0 9\n"
NEARER = "0 0 0 0 6\n0 0 0 0 0\n1 1 1 1 8\n1 1 0 0 9\n"


class Pairs(Comparing):

    SEED, KIND = "0", "trip"

    def setUp(self):
        super().setUp()
        self.feed = os.path.join(self.place.name, "feed")
        with open(self.feed, "wb") as file:
            file.write(feeds.random_feed(int(self.SEED), self.KIND))

    def on_trips(self, said, slower, everlasting):
        """A program that prints the one for the feed, and for another the next, or the last under the everlasting choice."""
        return self.program(
            "if cmp -s - %s; then" % self.feed, "printf '%s'" % said, 'elif [ "$*" = everlasting ]; then',
            "printf '%s'" % everlasting, "else", "printf '%s'" % slower, "fi")

    def run_trips(self, program, other, *words):
        return self.run_compare("1", "--kind", self.KIND, "--first", self.SEED, *words, "--", program, "--", other)

    def test_what_a_lower_speed_explains(self):
        for slower, counts in (
                (OURS, (2, 0, 1, 0, 0, 0, 2, 0)), (NEARER, (2, 0, 1, 0, 0, 2, 0, 0)),
                (OURS.replace("1 1 1 1 9\n1 1 0 0 9", "1 1 0 0 9\n1 1 0 0 0"), (2, 0, 0, 1, 0, 0, 2, 0)),
                (OURS.replace("1 1 0 0 9", "1 1 1 1 99"), (2, 0, 1, 0, 0, 0, 2, 0)),
                # nothing is said from a refusal on
                ("0 0 0 0 7\n0 0 0 0 0\nx 8\n", (1, 0, 0, 0, 1, 0, 1, 1)), ("x 8\n1 1 1 1 10\n1 1 0 0 9\n", None)):
            program = self.on_trips(OURS, slower, NEARER)
            status, out, _ = self.run_trips(program, program)
            self.assertEqual(status, 0, out)
            row = (1, *counts) if counts else 9 * (0,)
            self.assertIn("\npairs     %d trips, %d samples; called earlier:%d  same sample:%d  faster alone:%d  not called:%d; "
                          "stops nearer:%d  equal:%d; trips learnt:0  lost rear:0  cut by a refusal:%d\n" % row, out)

    def test_what_it_does_not(self):
        # whatever else is nearer before it: a penalty of the slower alone, another state, a farther stop, no stop, an end
        for faster, second, number, line in (
                (OURS.replace("1 1 1 1 9", "1 1 0 0 9"), "1 1 1 1 8\n1 1 0 0 9\n", 3, "1 1 1 1 8"),
                (OURS, "1 2 1 1 9\n1 2 0 0 9\n", 3, "1 2 1 1 9"), (OURS, "1 1 1 1 9\n1 2 0 0 9\n", 4, "1 2 0 0 9"),
                (OURS, "1 1 1 1 10\n1 1 0 0 9\n", 3, "1 1 1 1 10"), (OURS, "1 1 1 1 16777215\n1 1 0 0 9\n", 3, "1 1 1 1 16777215"),
                (OURS, "", 3, "(ended)")):
            slower = "0 0 0 0 6\n0 0 0 0 0\n" + second
            theirs = faster.splitlines()[number - 1]
            for program, name in ((self.on_trips(faster, slower, faster), "program 1"),
                                  (self.on_trips(faster, faster, slower), "program 1 everlasting")):
                status, out, _ = self.run_trips(program, program)
                self.assertEqual(status, 1, out)
                self.assertIn("seed %s (%s): the outputs differ;" % (self.SEED, self.KIND), out)
                self.assertIn("\nline %d of %s: %s\nline %d of %s slower: %s\n" % (number, name, theirs, number, name, line), out)

    def test_a_slower_trip_without_an_end(self):
        for words, what, told in (((), "kill -SEGV $$", "was ended by signal 11"),
                                  (("--timeout", "0.3"), "exec sleep 10", "ran out of time")):
            program = self.program("if cmp -s - %s; then" % self.feed, "printf 'x 8\\n'", "else", what, "fi")
            # the second program is not run on it
            ours = self.saying("x 8\n")
            status, out, _ = self.run_trips(ours, program, *words)
            self.assertEqual(status, 0, out)
            status, out, _ = self.run_trips(program, ours, *words)
            self.assertEqual(status, 1)
            self.assertIn("\nprogram 1 slower %s\nprogram 1 everlasting slower %s\n" % (told, told), out)

    def test_pairs_are_counted(self):
        first, count, tally = 60, 24, feeds.Tally(1)
        for seed in range(first, first + count):
            data = feeds.random_feed(seed)
            outputs = [run(one).encode() for one in (data, feeds.slowed(data, seed))]
            self.assertIsNone(tally.pairs.add(data, *outputs))
        row = next(line for line in tally.table().splitlines() if line.startswith("pairs "))
        self.assertEqual(tally.pairs.missing(), [], row)
        status, out, _ = self.run_compare(str(count), "--first", str(first), "--", built.second(), "--", built.second())
        self.assertEqual(status, 0, out)
        self.assertIn("\n%s\n" % row, out)


if __name__ == "__main__":
    unittest.main()
