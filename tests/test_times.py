"""Tests of the times tool: python3 -m unittest discover -s tests"""

import os
import pathlib
import tempfile
import unittest

from here import load

times = load("times")

LINES = """rt: whole is kept: an earlier run on this machine proved the same files over the same libraries
== bits
fn bits::word: proved
logic=proved functions=1 sum=0a
rt: bits proved
== bits: its tests
fn bits::tests::one: proved
rt: bits: its tests are proved
rt: bits: trying its must-fail edits (3)
rt: must-fail bits/seven_bits.edit: refused, as it must be: note: src/lib.rt:6:1: it is not proved
rt: must-fail bits/half_written.edit: refused, as it must be: note: src/lib.rt:6:1: it is not proved
rt: must-fail bits/gone.edit: BAD EDIT: an 'old:' text is in src/lib.rt 0 times, and not once
rt: note: bad must-fail edits, as told above: 1. They fail nothing here, and say nothing of a contract: mend or remove them
rt: ok; handles allowed: none; must-fail edits: 2 refused, 1 bad; done in this run: 1 of the 2 proofs (of crates and of their tests)
4 passed, 0 failed""".splitlines()


class Times(unittest.TestCase):

    def setUp(self):
        seconds = iter(range(0, 1000, 10))
        self.costs = times.Costs(lambda: next(seconds))
        for line in LINES:
            self.costs.take(line)

    def test_what_was_said_of_each_crate(self):
        with tempfile.TemporaryDirectory() as place:
            self.costs.keep(place)
            said = {name: pathlib.Path(place, name).read_text(encoding="utf-8") for name in os.listdir(place)}
        self.assertEqual(said, {"bits.say": "fn bits::word: proved\nlogic=proved functions=1 sum=0a\n",
                                "whole.say": LINES[0] + "\n"})

    def test_summary(self):
        self.assertEqual(self.costs.summary(), "rt ci: 150 s by the clock, 2 crates, 2 edits refused, 0 of them for a name alone, 1 bad; "
                         "done in this run: 1 of the 2 proofs (of crates and of their tests)")

    def test_a_bad_edit(self):
        self.assertEqual(self.costs.shows_nothing(), 1)

    def test_a_bad_edit_in_the_last_words_alone(self):
        costs = times.Costs()
        costs.take(LINES[-2])
        self.assertEqual(costs.shows_nothing(), 1)

    def test_budget(self):
        self.assertFalse(self.costs.is_over(149))
        self.costs.take("rt: ok; handles allowed: none; must-fail edits: 2 refused; every proof and must-fail edit was done in this run")
        self.assertTrue(self.costs.is_over(159))
        self.assertFalse(self.costs.is_over(160))
        self.assertFalse(self.costs.is_over(None))

    def test_an_edit_refused_for_a_name_alone(self):
        costs = times.Costs()
        costs.take("rt: must-fail bits/seven_bits.edit: refused, as it must be (only because a proof file names what the edit took away, "
                   "so this says little of the contract: change a value and keep the names): proofs/word/Proof.antt:3:1: error")
        self.assertEqual(costs.shows_nothing(), 1)


if __name__ == "__main__":
    unittest.main()
