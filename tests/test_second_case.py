"""Tests of the second program: document 01's case, and every example."""

import unittest

from built import FIRST_CROSSING, HUNDREDTHS, TYPED
from here import example, examples, feeds
from second_program import CASE, both, run, told


class Case(unittest.TestCase):
    """Document 01's case and its counterpart."""

    def test_target_at_5531(self):
        self.assertEqual(both(CASE, targets="target 5531 speed 0"),
                         [("0 0 0 0 5000", "0 0 0 0 0"), ("1 0 1 1 5032", "1 0 0 0 5032"),
                          ("2 0 1 1 5001", "2 0 0 0 5001")])

    def test_target_at_5532(self):
        self.assertEqual(both(CASE, targets="target 5532 speed 0"),
                         [("0 0 0 0 5000", "0 0 0 0 0"), ("1 0 0 0 5032", "1 0 0 0 0"),
                          ("2 0 0 0 5001", "2 0 0 0 0")])


class Examples(unittest.TestCase):
    """Every example prints the lines after its `#>` marks."""

    def lines(self, name):
        """Those that an example states, and those that are printed for it."""
        words = example(name)
        lines = run(feeds.make(words)).splitlines()
        told(lines)
        return [line[3:] for line in words.split("\n") if line.startswith("#> ")], lines

    def test_examples(self):
        self.assertGreaterEqual(len(examples()), 8)
        for name in examples():
            with self.subTest(name=name):
                want, lines = self.lines(name)
                self.assertGreater(len(want), 0)
                self.assertEqual(lines, want)

    def test_figures(self):
        # The long trips state no lines.
        for name in examples("figures"):
            with self.subTest(name=name):
                want, lines = self.lines("figures/" + name)
                if want or not name.startswith("trip-"):
                    self.assertEqual(lines, want)

    def otherwise(self, build):
        """Those that a build answers otherwise."""
        names = examples() + ["figures/" + name for name in examples("figures")]
        return [name for name in names if run(feeds.make(example(name)), build) != run(feeds.make(example(name)))]

    def test_where_the_first_crossing_answers_otherwise(self):
        # Those that show R-2 (02), and no other.
        self.assertEqual(self.otherwise(FIRST_CROSSING), ["long-descent", "rolling-hills", "figures/cut-below-target",
                                                          "figures/rise-from-below", "figures/rise-past-target"])

    def test_where_hundredths_answer_otherwise(self):
        # R-11 (02).  A crest's average is -1 in either unit, and the train stops at the same step.
        self.assertEqual(self.otherwise(HUNDREDTHS), ["manifest", "rolling-hills", "trip", "figures/finer-grade",
                                                      "figures/manifest-one-block", "figures/manifest-sag",
                                                      "figures/rise-past-target", "figures/trip-no-call"])

    def test_where_the_typed_time_answers_otherwise(self):
        # R-3 (02).  The trip learns what is typed.
        self.assertEqual(self.otherwise(TYPED), ["learning", "figures/learn-half-waits", "figures/learn-levels-off",
                                                 "figures/trip-eighth-target", "figures/trip-every-change",
                                                 "figures/trip-no-call"])

    def test_finer_grade_in_hundredths(self):
        # Document 01's average of -0.47 hundredths, down: the train rolls 16 ft further.
        self.assertEqual(run(feeds.make(example("figures/finer-grade")), HUNDREDTHS).splitlines(),
                         ["0 0 0 0 133", "0 0 0 0 0", "1 0 0 0 116", "1 0 0 0 0"])


if __name__ == "__main__":
    unittest.main()
