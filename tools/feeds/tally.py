"""What a comparison of programs has seen."""

from collections import Counter

from .answers import EITHER_WAY, UNLIKE, answers_of
from .finer import FINER, finer, slight_descents
from .lessons import LessonsSeen
from .pairs import PairsSeen
from .rises import RISES, rise
from .runaways import runaways
from .silences import CHOICES, SilencesSeen, parting
from .typed import typed
from .weighing import BlocksSeen, weighed

STATES = range(0, 6)
CAUSES = range(1, 9)
REFUSALS = (*range(2, 11), 13)
MOST_DIGITS = 8                    # of a number that may be printed


def number_of(word):
    """None where it is none, or longer than any that a program may print."""
    return int(word) if len(word) <= MOST_DIGITS and word.isascii() and word.isdigit() else None


def numbers_of(line):
    """A decision's five numbers; None where the line is no decision's."""
    numbers = [number_of(word) for word in (line or "").split(" ")]
    return numbers if len(numbers) == 5 and None not in numbers else None


def refusal_of(line):
    """Its number; None where the line is no refusal's."""
    mark, *words = line.split(" ")
    return number_of(words[0]) if mark == "x" and len(words) == 1 else None


class Earlier:
    """How often program 1 answers otherwise than one that keeps an earlier rule, or than itself under the everlasting choice: the
    feeds by what they show, and the samples."""

    def __init__(self, name, count, shows, wanted):
        self.name = name
        self.count = count         # of a feed and the two outputs: how many samples differ, and what that shows
        self.shows = shows         # all that it may show
        self.wanted = wanted       # what must have been shown, and what that is called
        self.feeds, self.samples = Counter(), 0

    def add(self, feed, output, other):
        """Counts what the rule changes; whether there is no other difference."""
        samples, shown = self.count(feed, output, other)
        self.samples += samples
        self.feeds[shown] += shown is not None
        return shown != UNLIKE

    def missing(self):
        return [name for shown, name in self.wanted.items() if not self.feeds[shown]]

    def row(self):
        return "%-9s %d feeds, %d samples; " % (self.name, sum(self.feeds.values()), self.samples) + "  ".join(
            "%s:%d" % (shown, self.feeds[shown]) for shown in self.shows)


def first_crossing():
    """A program that takes document 01's first crossing in place of R-2's location."""
    return Earlier("rises", rise, RISES, {
        "above": "a rise", "below": "a rise of a train already below", "cut, below": "a cut walk below a target's speed"})


def hundredths():
    """A program that takes averages in hundredths of a percent in place of R-11's."""
    return Earlier("finer", lambda _, output, other: finer(output, other), FINER, {
        "nearer": "a nearer stop", "not called": "a penalty not called"})


def evenly():
    """A program that spreads the weight evenly in place of R-1's blocks."""
    return Earlier("weighed", weighed, EITHER_WAY, {
        "call more": "a call more by weight", "call less": "a call less by weight", "farther": "a farther stop by weight",
        "nearer": "a nearer stop by weight"})


def unlearnt():
    """A program that keeps the typed time in place of R-3's learnt one."""
    return Earlier("learnt", typed, EITHER_WAY, {
        "call more": "a call more by a learnt time", "call less": "a call less by a learnt time",
        "farther": "a farther stop by a learnt time", "nearer": "a nearer stop by a learnt time"})


def everlasting():
    """Program 1 under the everlasting choice in place of R-7's default."""
    return Earlier("choices", parting, CHOICES, {
        "given up": "a parting of the choices by a value given up", "none yet": "a parting of the choices by none yet"})


class Tally:
    """What was seen; `earlier` are the programs after those that are compared, in their order."""

    def __init__(self, programs, earlier=()):
        self.programs = programs
        self.feeds = self.lines = self.odd = self.runaways = self.slight = 0
        self.states = Counter()
        self.causes = Counter()
        self.refusals = Counter()
        self.emergencies = Counter()    # by cause
        self.called = Counter()         # by state
        self.stood = Counter()          # by cause and state
        self.kinds = Counter()
        self.blocks = BlocksSeen()
        self.silences = SilencesSeen()
        self.lessons = LessonsSeen()
        self.pairs = PairsSeen()
        self.choices = everlasting()
        self.earlier = list(earlier)
        # by default, those of the earlier rules too; then under the everlasting choice
        self.ends = [Counter() for _ in range(2 * programs + len(self.earlier))]

    def add(self, feed, output):
        self.feeds += 1
        self.runaways += runaways(feed, output)
        self.slight += slight_descents(feed, output)
        self.silences.add(feed, output)
        self.lessons.add(feed, output)
        standing, before = 0, self.accepted()
        for first, second in answers_of(output):
            lines = 1 + (second is not None)
            self.lines += lines
            refusal, penalty, emergency = refusal_of(first), numbers_of(first), numbers_of(second)
            if refusal is not None:
                self.refusals[refusal] += 1
            elif penalty and emergency:
                standing = self.add_decisions(penalty, emergency, standing)
            else:
                self.odd += lines
        self.blocks.add(feed, self.accepted() - before)

    def accepted(self):
        """How many samples were."""
        return sum(self.states.values())

    def add_decisions(self, penalty, emergency, standing):
        """Counts a sample's two; `standing` is emergency's cause before it, the answer the one after it."""
        _, state, _, cause, _ = penalty
        self.states[state] += 1
        self.causes[cause] += 1
        cause = emergency[3]
        self.emergencies[cause] += 1
        if cause:
            self.stood[cause, state] += 1
            self.called[state] += not standing
        return cause

    def add_ends(self, ends):
        """How each run ended."""
        for counter, end in zip(self.ends, ends):
            counter[str(end)] += 1

    def exits(self, ends):
        """Of programs in their order."""
        return "; ".join("program %d " % number + ", ".join("%s:%d" % pair for pair in sorted(counter.items()))
                         for number, counter in enumerate(ends, 1))

    def missing(self):
        return (["state %d" % n for n in STATES if not self.states[n]]
                + ["cause %d" % n for n in CAUSES if not self.causes[n]]
                + ["refusal %d" % n for n in REFUSALS if not self.refusals[n]]
                + ["emergency called in state %d" % n for n in STATES if not self.called[n]]
                + ["emergency cause %d in state %d" % (cause, state) for cause in CAUSES for state in STATES
                   if not self.stood[cause, state]]
                + ["a runaway"] * (not self.runaways)
                + ["a slight descent"] * (not self.slight)
                + self.blocks.missing()
                + self.silences.missing()
                + self.lessons.missing()
                + self.pairs.missing()
                + self.choices.missing()
                + [name for one in self.earlier for name in one.missing()])

    def table(self):
        def row(name, counter, usual):
            numbers = sorted(set(usual) | set(counter))
            return "%-9s %s" % (name, "  ".join("%d:%d" % (n, counter[n]) for n in numbers))
        return "\n".join([
            "compared %d feeds, %d lines (%d accepted, %d refused)"
            % (self.feeds, self.lines, self.accepted(), sum(self.refusals.values())),
            "kinds     " + "  ".join("%s:%d" % pair for pair in sorted(self.kinds.items())),
            row("states", self.states, STATES),
            row("causes", self.causes, range(0, 9)),
            row("refusals", self.refusals, REFUSALS),
            row("emergency", self.emergencies, range(0, 9)) + "; called in states " + row("", self.called, STATES).strip(),
            "          each cause in each state: %d of %d" % (
                sum(self.stood[cause, state] > 0 for cause in CAUSES for state in STATES), len(CAUSES) * len(STATES)),
            "runaways  %d" % self.runaways,
            "slight    %d" % self.slight,
            self.blocks.row(),
            self.silences.row(),
            self.lessons.row(),
            self.pairs.row(),
            self.choices.row(),
        ] + [one.row() for one in self.earlier] + [
            "exits     " + self.exits(self.ends[:-self.programs]),
            "          everlasting: " + self.exits(self.ends[-self.programs:]),
        ] + (["%d lines are neither a decision nor a refusal" % self.odd] if self.odd else []))
