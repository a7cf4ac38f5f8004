"""Pairs of trips that differ in speed alone; what R-13 says of the answers to them, and what a comparison meets of that."""

from collections import Counter
from fractions import Fraction
from itertools import zip_longest

from .answers import DECISION, accepted, answers_of, first_lines, parted
from .binary32 import nearest_bits, value_of
from .chance import Draw
from .lessons import LEARNT, lessons
from .records import SAMPLE_BYTES, SAMPLE_MARK, split

FASTEST = nearest_bits(100)        # mph; of speeds that are not negative, the higher has the greater bits
SPEED = slice(8, 12)               # of a sample's bytes


# Each of these makes a speed no higher, of bits from 1 to FASTEST.

def same(_, bits):
    return bits


def next_below(_, bits):
    return bits - 1


def little_less(draw, bits):
    """By 2 mph at most."""
    speed = value_of(bits) - Fraction(draw.between(1, 200), 100)
    return nearest_bits(*max(speed, 0).as_integer_ratio())


def much_less(draw, bits):
    """By a tenth or more."""
    return nearest_bits(*(value_of(bits) * draw.between(1, 90) / 100).as_integer_ratio())


def standing(*_):
    return 0


# What chance makes of the speeds of a trip.
MANNERS = ((same, next_below, little_less, much_less, standing), (same, next_below, little_less), (next_below, little_less),
           (little_less, much_less), (much_less,), (much_less, standing))


def slowed_sample(draw, data, manner):
    """As it is where it is not whole or has no speed that could be lower."""
    speed = int.from_bytes(data[SPEED], "big")
    if len(data) < SAMPLE_BYTES or data[0] != SAMPLE_MARK or not 0 < speed <= FASTEST:
        return data
    return data[:SPEED.start] + draw.pick(manner)(draw, speed).to_bytes(4, "big") + data[SPEED.stop:]


def slowed(feed, seed):
    """The feed of a slower trip: each speed is no higher, by chance from the seed, and the rest is the same."""
    try:
        samples = split(feed)[3]
    except IndexError:             # it ends before its samples
        return feed
    draw = Draw(~seed)             # no feed's own
    manner = draw.pick(MANNERS)
    return feed[:len(feed) - sum(map(len, samples))] + b"".join(slowed_sample(draw, data, manner) for data in samples)


def pairs(faster, slower):
    """How much the two answers to a sample part, up to the first sample that is not accepted in both: R-13 says nothing from there
    on.  None where time and state are not the same."""
    for both in zip_longest(answers_of(faster), answers_of(slower), fillvalue=("", None)):
        found = parted(*both)
        if any(first.startswith("x") for first, _ in both) or found is None and both[0] == both[1]:
            return
        yield found


def wrong_pair(faster, slower):
    """The place of the first pair in which the states are not the same, the slower trip alone has the penalty, or its stop is
    beyond the faster's; None for none.  The outputs may be any programs', right or not."""
    return next((place for place, found in enumerate(pairs(faster, slower)) if found is None or min(found) < 0), None)


def first_call(lines):
    """The place of the first decision that has the penalty; None for none."""
    return next((place for place, line in enumerate(lines) if DECISION.fullmatch(line)[2] != "0 0"), None)


def called(faster, slower):
    """What the decisions of a pair of trips show."""
    first, other = first_call(faster), first_call(slower)
    if first is None:
        return "not called"
    if other is None:
        return "faster alone"
    return "same sample" if first == other else "earlier"


class PairsSeen:
    """The pairs of trips that have a sample accepted in both, by what they show up to the first that is not; and their samples."""

    CALLED = ("earlier", "same sample", "faster alone", "not called")
    STOPS = ("nearer", "equal")    # the slower's
    ALSO = ("learnt", "lost rear", "cut by a refusal")
    # what must be shown, and what that is called where it never was
    WANTED = {"earlier": "a penalty that is earlier at a higher speed", "same sample": "a penalty at the same sample of a pair",
              "faster alone": "a penalty of the faster trip alone", "nearer": "a nearer stop at a lower speed",
              "learnt": "a pair of trips that learn a time", "lost rear": "a pair of trips with a lost rear"}

    def __init__(self):
        self.trips = self.samples = 0
        self.shown = Counter()

    def add(self, feed, faster, slower):
        """Counts a pair of trips in which no pair of samples is wrong, else the place of the first that is."""
        wrong = wrong_pair(faster, slower)
        if wrong is None:
            self.count(feed, faster, slower, list(pairs(faster, slower)))
        return wrong

    def count(self, feed, faster, slower, found):
        if found:
            self.trips += 1
            self.samples += len(found)
            self.shown.update("nearer" if farther else "equal" for _, farther in found)
            self.shown.update(self.of_trips(feed, faster, slower, len(found)))

    def of_trips(self, feed, faster, slower, count):
        """What the first so many samples of two trips show."""
        lines = first_lines(faster), first_lines(slower)
        yield called(*(one[:count] for one in lines))
        if all(any(one.shows == LEARNT and one.place < count for one in lessons(feed, output)) for output in (faster, slower)):
            yield "learnt"
        if any(one.rear is None and one.place < count for one in accepted(feed, faster)):
            yield "lost rear"
        if any(len(one) > count for one in lines):
            yield "cut by a refusal"

    def missing(self):
        return [name for shown, name in self.WANTED.items() if not self.shown[shown]]

    def row(self):
        called_so, stops, also = ("  ".join("%s:%d" % (name, self.shown[name]) for name in names)
                                  for names in (self.CALLED, self.STOPS, self.ALSO))
        return "pairs     %d trips, %d samples; called %s; stops %s; trips %s" % (self.trips, self.samples, called_so, stops, also)
