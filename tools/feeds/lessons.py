"""What R-3's learner takes from a feed, reckoned from its samples and the brake states that are answered, with points and
fractions; and the lessons that a comparison meets."""

from collections import Counter, namedtuple
from fractions import Fraction
from math import ceil

from .answers import accepted
from .records import CONSIST, consist_of

FALL = 300                         # hundredths that the front falls, and then the rear
LONGEST = 600                      # seconds
MOST_POINTS = 256
FEWEST_POINTS = 4                  # from which on the rear may be found to level off
CHARGED, APPLYING, HOLDING = "012"     # brake states
LEAST_TIME, GREATEST_TIME = next((least, greatest) for name, _, least, greatest in CONSIST if name == "application")

# What a sample shows.  A lesson ends so:
LEARNT, TOO_LONG, TOO_MANY = "learnt", "ended by 600 s", "ended by the 257th point"
# or so, with points kept:
CUT = {"5": "cut by a release", "3": "cut by an emergency"}
# On the way to that:
SILENT_FALL, LOST, HALF = "silent as the front falls", "lost while it falls", "one half"

# A sample's place and what it shows; where a time is learnt, the Result, None where the equalization cannot be known.
Lesson = namedtuple("Lesson", "place shows result")
# The time in ms, in the consist's range, the one before it is held there, and whether the rear ended below equalization.
Result = namedtuple("Result", "time found below")


def line_of(points):
    """Slope and intercept of the least-squares line."""
    times, pressures = zip(*points)
    squares, products = sum(t * t for t in times), sum(t * p for t, p in points)
    spread = len(points) * squares - sum(times) ** 2
    return (Fraction(len(points) * products - sum(times) * sum(pressures), spread),
            Fraction(squares * sum(pressures) - sum(times) * products, spread))


def result_of(points, initial, equalization):
    """What is learnt from the line over all points but the last; initial are the seconds until the first."""
    slope, intercept = line_of(points[:-1])
    below = points[-1][1] < equalization
    if not below:
        slope = Fraction(110, 100) * slope - Fraction(933, 100)
    found = 1000 * (initial + 1) + ceil(1000 * (equalization - intercept) / slope)
    return Result(min(max(found, LEAST_TIME), GREATEST_TIME), found, below)


class Learner:
    """What is held from accepted sample to accepted sample."""

    def __init__(self, full):
        self.full = full           # the set pressure
        self.wait()

    def wait(self):
        self.done = False
        self.fell = self.before = None     # when the front did, and the rear before it falls
        self.began, self.points = None, []

    def end(self, shows):
        self.done = True
        return shows

    def take(self, one):
        """What a sample shows; None for nothing."""
        low = one.front <= self.full - FALL
        if one.state not in (APPLYING, HOLDING):
            shows = CUT.get(one.state) if self.points and not self.done else None
            self.wait()
            return shows
        if self.done:
            if not low:
                self.wait()
            return None
        if self.fell is None:
            if low:
                self.fell, self.before = one.time, one.rear
            return SILENT_FALL if low and one.rear is None else None
        if one.time - self.fell >= LONGEST:
            return self.end(TOO_LONG)
        if one.rear is None:
            return LOST if self.points else None
        return self.hear(one.time, one.rear)

    def hear(self, time, rear):
        """A rear that is present, since the front fell."""
        if self.before is None:
            self.before = rear
        elif not self.points:
            if rear <= self.before - FALL:
                self.began, self.points = time, [(0, rear)]
        elif rear < self.points[-1][1]:
            if len(self.points) == MOST_POINTS:
                return self.end(TOO_MANY)
            self.points.append((time - self.began, rear))
            return self.levels_off()
        return None

    def levels_off(self):
        """Whether the last point tells that it does."""
        if len(self.points) < FEWEST_POINTS:
            return None
        (last, _), (whole, _) = line_of(self.points[-2:]), line_of(self.points)
        if last == whole / 2:
            return HALF
        return self.end(LEARNT) if last > whole / 2 else None


class FirstApplication:
    """A session's first, of a charged train, without a second one upon it: its equalization is known from outside."""

    def __init__(self, full):
        self.equalization, self.last = 5 * full // 7, CHARGED

    def take(self, state):
        """Its equalization; None from where another application may have begun on."""
        if state < self.last:
            self.equalization = None
        self.last = state
        return self.equalization


def lessons(feed, output):
    """A Lesson for each accepted sample that shows something.  The output may be any program's, right or not."""
    samples = list(accepted(feed, output))
    if not samples:                # the feed may end before its consist does
        return
    full = consist_of(feed)["set"]
    learner, first, last = Learner(full), FirstApplication(full), -1
    for one in samples:
        if one.time <= last:       # no right program accepts it
            continue
        last = one.time
        shows, equalization = learner.take(one), first.take(one.state)
        if shows:
            known = shows == LEARNT and equalization is not None
            yield Lesson(one.place, shows, result_of(learner.points, learner.began - learner.fell, equalization) if known else None)


def names_of(results):
    """What the results of a feed are counted as, from its second on as learnt anew; None is one that cannot be known."""
    for number, result in enumerate(results):
        if number:
            yield "learnt anew"
        if result:
            yield from ("held at %d" % limit for limit in (LEAST_TIME, GREATEST_TIME) if result.time == limit != result.found)
            if result.below:
                yield "below equalization"


class LessonsSeen:
    """What accepted samples show, by what they are counted as."""

    # and what that is called where it never occurred
    WANTED = {LEARNT: "a time learnt", "learnt anew": "a time learnt anew", TOO_LONG: "a lesson ended by 600 s",
              TOO_MANY: "a lesson ended by the 257th point", SILENT_FALL: "a rear silent as the front falls",
              LOST: "a rear lost while it falls", CUT["5"]: "a lesson cut by a release", CUT["3"]: "a lesson cut by an emergency",
              HALF: "a slope of one half", "below equalization": "a time learnt below equalization",
              "held at 1000": "a time held at 1,000", "held at 240000": "a time held at 240,000"}

    def __init__(self):
        self.samples = Counter()

    def add(self, feed, output):
        found = list(lessons(feed, output))
        self.samples.update(one.shows for one in found)
        self.samples.update(names_of(one.result for one in found if one.shows == LEARNT))

    def missing(self):
        return [called for name, called in self.WANTED.items() if not self.samples[name]]

    def row(self):
        return "lessons   " + "  ".join("%s:%d" % (name, self.samples[name]) for name in self.WANTED)
