"""Steep grades, and grades that all but balance."""

from itertools import cycle, islice

from .loads import now_and_then
from .motion import Run
from .records import REACH, Feed
from .trains import draw_profile, draw_targets, draw_train
from .walks import Walk

MOST = 250                         # records of ground


def laid(first, last, pieces):
    """A profile from first to last of pieces of ground, each feet, grade and curve; level where they run out."""
    profile, start = [], first
    for feet, grade, curve in islice(pieces, MOST):
        if start < last:
            profile.append((start, grade, curve, 0))
            start += feet
    return profile + [(start, 0, 0, 0)] * (start < last) + [(last, 0, 0, 0)]


def balanced(feet, total):
    """One piece or two over so many feet, of grades a hundredth apart, whose sum of grade x feet is the total."""
    grade, more = divmod(total, feet)
    return [(part, one, 0) for part, one in ((more, grade + 1), (feet - more, grade)) if part > 0]


def draw_slight(draw, length):
    """A sum of grade x feet whose average over that length, 101 ft or more, lies between -1 and 0 in ten-thousandths of a
    percent."""
    most = (length - 1) // 100
    return -draw.pick((1, most, draw.between(1, most)))


# A profile each, from first to last, for a train of that length with its head there.

def dips(draw, first, last, head, length):
    """Level, with dips and humps of one hundredth of a percent, so short that those under the train make an average near 0, most
    often between -1 and 0."""
    def pieces():
        while True:
            yield draw.between(length // 4, length), 0, draw.pick((0, 0, 1))
            yield draw.between(1, max(1, length // 300)), draw.pick((-1, -1, -1, 1)), 0
    return laid(first, last, pieces())


def crests(draw, first, last, head, length):
    """Ups and downs that come again after the train's length: wherever it is, all but as much of it is up as down."""
    up, feet = draw.between(1, 300), draw.between(1, length // 2)
    return laid(first, last, cycle([(feet, up, 0), *balanced(length - feet, draw_slight(draw, length) - up * feet)]))


def crest_below(draw, first, last, head, length):
    """One crest under the train, which all but balances as the walk begins."""
    ahead = draw.between(length // 4, length - 1)
    behind = length - ahead
    # so that the descent is not steeper than there may be
    up = draw.between(1, min(500, 480 * ahead // behind))
    down = balanced(ahead, draw_slight(draw, length) - up * behind)
    return laid(first, last, [(head - ahead - first, up, 0), *down, (40, down[-1][1], 0)])


def descent(draw, first, last, head, length):
    return [(first, -draw.between(100, 500), draw.between(0, 300), 0), (last, 0, 0, 0)]


def climb(draw, first, last, head, length):
    return [(first, draw.between(100, 500), draw.between(0, 2000), 0), (last, 0, 0, 0)]


def hills(draw, first, last, head, length):
    return draw_profile(draw, first, last, 500, draw.between(10, 80))


def draw_board(draw, feed, head, speed):
    """A board about where the train stops with its offset, or a few feet further; none where it does not stop."""
    train = feed.consist
    stop = Walk(train, feed.profile, head, speed, feed.blocks).location(0)
    return [] if stop is None else [(stop + train["offset"] + draw.below(30), 0)]


PROFILES = (dips, crests, crest_below, descent, climb, hills)
# What all but balances does so for a weight that is spread evenly.
ANY_LOAD = (descent, climb, hills)


def grades(draw, number):
    """Steep grades, and grades that all but balance: a train over crests a
    little more downhill than up, averages between -1 and 0 ten-thousandths of
    a percent, long coasting, descents without a stop; often a board at which
    the train just stops."""
    train = draw_train(draw)
    length = train["length"] = draw.between(101, 2500)
    first = draw.below(2000)
    head = first + length + draw.below(50)
    fast = draw.between(300, 1800)
    count = draw.between(4, 20)
    train["rated"] = draw.pick((0, 0, train["weight"] * 5, train["weight"] * 50))
    run = Run(draw, train, head, fast, draw.below(10000))
    feed = Feed(train)
    feed.samples = run.samples(count)
    last = run.head + REACH + draw.below(2000)
    ground = PROFILES[number % len(PROFILES)]
    feed.profile = ground(draw, first, last, head, length)
    feed.blocks = now_and_then(draw, train) if ground in ANY_LOAD else []
    feed.targets = draw_targets(draw, head, run.head + 3000, fast, draw.between(0, 8))
    if draw.chance(50):
        feed.targets = draw_board(draw, feed, head, fast) or feed.targets
    return feed.bytes()
