"""Tests of the stored texts under both choices of what a lost rear counts as, and of tools/figures, which runs them so."""

import os
import shutil
import subprocess
import tempfile
import unittest

from here import EXAMPLES, ROOT, TOOLS, example, examples, feeds
from second_program import EVERLASTING, run

HEADING = "# The output under the everlasting choice:\n"
NAMES = examples() + ["figures/" + name for name in examples("figures")]
# Those that show R-7 (02), and state both outputs; and the long trips, which rely on the everlasting value.
QUIET = ["lost-rear", "figures/quiet-emergency", "figures/quiet-recharging"]
TRIPS = ["figures/trip-eighth-target", "figures/trip-every-change", "figures/trip-no-call"]


def figures(*words):
    """Status and errors of the command."""
    done = subprocess.run([os.path.join(TOOLS, "figures"), *words], stdout=subprocess.PIPE, stderr=subprocess.PIPE, check=False)
    return done.returncode, done.stderr.decode()


class Texts(unittest.TestCase):

    def test_where_the_choices_part(self):
        parted = [name for name in NAMES if run(feeds.make(example(name))) != run(feeds.make(example(name)), words=EVERLASTING)]
        self.assertEqual(parted, QUIET + TRIPS)

    def test_stated_under_the_everlasting_choice(self):
        self.assertEqual([name for name in NAMES if "#>>" in example(name)], QUIET)
        for name in QUIET:
            words = example(name)
            self.assertEqual(words.count(HEADING), 1)
            stated = "".join(line[4:] for line in words.splitlines(keepends=True) if line.startswith("#>> "))
            self.assertEqual(run(feeds.make(words), words=EVERLASTING), stated)


    def test_every_change_of_state(self):
        # those that 01 knows
        changes = {"01", "03", "12", "13", "15", "21", "23", "25", "34", "45", "50", "51", "53"}
        data = feeds.make(example("figures/trip-every-change"))
        for words in ((), EVERLASTING):
            states = [first.split()[1] for first, _ in feeds.answers(run(data, words=words).splitlines())]
            self.assertEqual({one + other for one, other in zip(states, states[1:]) if one != other}, changes)


class Figures(unittest.TestCase):

    def test_args(self):
        with open(os.path.join(ROOT, "crates", "figures", "args"), encoding="ascii") as file:
            names = file.read().splitlines()
        choice = names.index("everlasting")
        self.assertEqual(sorted(names[:choice]), examples("figures"))
        self.assertEqual(sorted("figures/" + name for name in names[choice + 1:]), QUIET[1:] + TRIPS)

    def test_what_a_text_states_is_checked(self):
        # one line of each of its outputs is wrong, and all that is stored is right
        with tempfile.TemporaryDirectory() as place:
            texts = os.path.join(place, "figures")
            shutil.copytree(os.path.join(EXAMPLES, "figures"), texts)
            words = example("figures/quiet-emergency")
            for line, wrong in (("#> 8 1 0 0 7380\n", "#> 8 1 0 0 7460\n"), ("#>> 8 1 0 0 7460\n", "#>> 8 1 0 0 7380\n")):
                self.assertEqual(words.count(line), 1)
                words = words.replace(line, wrong)
            with open(os.path.join(texts, "quiet-emergency.txt"), "w", encoding="utf-8") as file:
                file.write(words)
            self.assertEqual(figures("--check", texts), (1, "".join(
                "figures: quiet-emergency%s: the second program does not print what the text states\n" % choice
                for choice in ("", " everlasting"))))


if __name__ == "__main__":
    unittest.main()
