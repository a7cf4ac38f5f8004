"""Undulating country and weak brakes: walks that pass below a target's speed and rise above it again."""

from itertools import accumulate
from math import isqrt

from .brinks import fastest_coasting
from .loads import few, now_and_then
from .records import REACH, Feed
from .trains import SURE, draw_train, sample
from .walks import STEP_FEET, Walk

FASTEST = 10000
MOST_TARGETS = 8


def draw_weak(draw):
    """A train whose full application holds it on four tenths of a percent, or on less."""
    train = draw_train(draw)
    train.update({"length": draw.between(50, 2500), "rated": train["weight"] * draw.between(0, 8),
                  "offset": draw.pick((0, draw.between(0, 1500)))})
    return train


def draw_waves(draw, first, head, last):
    """Downs and ups ahead of the head, and in the end a climb, level track or a long gentle descent."""
    curve, start, profile = draw.pick((0, 0, draw.between(0, 200))), first, []
    for place in range(draw.below(2), draw.between(2, 8)):
        profile.append((start, draw.between(20, 150) if place % 2 else -draw.between(30, 200), curve, 0))
        start = max(start, head) + draw.between(200, draw.pick((1000, 3000)))
    end = draw.pick((0, draw.between(0, 150), -draw.between(5, 40)))
    return profile + [(start, end, curve, 0), (last, 0, 0, 0)]


class Country:
    """A train before such ground, and its walk."""

    def __init__(self, draw):
        self.train = draw_weak(draw)
        first = draw.below(2000)
        self.head = first + self.train["length"] + draw.below(50)
        self.profile = draw_waves(draw, first, self.head, self.head + REACH + draw.between(150, 500))
        # few, as dozens of walks are made
        self.blocks = now_and_then(draw, self.train, (few,))
        self.walk = Walk(self.train, self.profile, self.head, draw.between(300, draw.pick((2000, 4500))), self.blocks)

    def bounds(self, limit):
        """The least place for a target of that speed that the first crossing does not call for, and the least one from there
        on that R-2's location does not call for, either."""
        return self.walk.first_crossing(limit) + self.walk.offset(limit), self.walk.uncalled(limit)


# --- what a walk does: the speed of a target for which it does so, None where there is none

def draw_root(draw, low, high):
    """A speed whose square is at least low and below high."""
    least, most = isqrt(low - 1) + 1, isqrt(high - 1)
    return draw.between(least, most) if least <= most else None


def greatest_rise(walk, most):
    """From which q it rises furthest, and to which; what is above `most` counts as that."""
    highest = list(accumulate(reversed(walk.squares), max))[::-1]
    return max(((low, min(high, most)) for low, high in zip(walk.squares, highest)), key=lambda pair: pair[1] - pair[0])


def rises_above(walk, limit):
    """How often."""
    above = [square > limit * limit for square in walk.squares]
    return sum(after > before for before, after in zip(above, above[1:]))


def dips(draw, walk):
    """From above the target's speed below it, above it again, and below it for good."""
    return draw_root(draw, *greatest_rise(walk, walk.speed ** 2)) if walk.stops() else None


def speeds_up(draw, walk):
    """From below the target's speed, or at it, above it, and below it for good."""
    most = isqrt(max(walk.squares) - 1)
    return draw.pick((walk.speed, draw.between(walk.speed, most))) if walk.stops() and walk.speed <= most else None


def rises_often(draw, walk):
    """One or the other, above it again twice or more."""
    low, high = greatest_rise(walk, FASTEST ** 2)
    limits = [draw_root(draw, low, high) for _ in range(8 if walk.stops() else 0)]
    return next((limit for limit in limits if limit and rises_above(walk, limit) > 1), None)


def peaks(draw, walk):
    """One or the other, above it again by less than a hundredth of a mph."""
    low, high = greatest_rise(walk, FASTEST ** 2)
    limit = isqrt(high - 1)
    return limit if walk.stops() and limit * limit >= low else None


def equals(draw, walk):
    """One or the other, and from where it stays below, q is at first the very square."""
    low, high = greatest_rise(walk, FASTEST ** 2)
    for step, square in enumerate(walk.squares if walk.stops() else ()):
        if low <= square < high and isqrt(square) ** 2 == square:
            if walk.location(isqrt(square)) == walk.head + STEP_FEET * step:
                return isqrt(square)
    return None


def cut_from_below(draw, walk):
    """Cut, from below the target's speed, or at it."""
    return None if walk.stops() else draw.pick((walk.speed, draw.between(walk.speed, FASTEST), FASTEST))


def cut_from_above(draw, walk):
    """Cut, after it was above the target's speed and below it."""
    return None if walk.stops() else draw_root(draw, min(walk.squares), walk.speed ** 2)


WALKS = (dips, speeds_up, cut_from_below, rises_often, dips, peaks, cut_from_above, equals)


def draw_country(draw, does):
    """Country whose walk does so, the target's speed, and its bounds; some dozens are drawn for the rarest."""
    while True:
        country = Country(draw)
        limit = does(draw, country.walk)
        if limit is not None:
            bounds = country.bounds(limit)
            if bounds[0] < bounds[1]:
                return country, limit, bounds


# --- where the target stands, by its bounds

def between(draw, first, last):
    """R-2 calls, the first crossing does not."""
    return draw.between(first, last - 1)


def nearest(draw, first, last):
    """The same, a foot further than where both call."""
    return first


def at_last(draw, first, last):
    """Neither calls, but R-2 does as soon as the train is a foot nearer."""
    return last


def outside(draw, first, last):
    """Both call, or neither does."""
    return draw.pick((first - 1, last + draw.below(100)))


PLACES = (between, at_last, nearest, between, outside)


def draw_quiet(draw, country, target, limit):
    """Targets before that one that do not call: behind the train, or of a speed above which the walk does not rise again."""
    quiet, head, speed = {}, country.head, country.walk.speed
    for _ in range(draw.below(MOST_TARGETS)):
        location, allowed = draw.pick(((draw.below(head), draw.between(0, FASTEST)), (head, speed),
                                       (target - 1, min(limit + 1, FASTEST)), (draw.between(head, head + 3000), FASTEST)))
        if location < target and (location < head or location >= country.bounds(allowed)[1]):
            quiet[location] = allowed
    return sorted(quiet.items())


def draw_further(draw, target, count):
    """Targets after that one, at most so many; for some the first crossing calls, too."""
    further = []
    while len(further) < count and draw.chance(40):
        target += draw.between(1, 4000)
        further.append((target, draw.pick((0, draw.between(0, FASTEST)))))
    return further


# --- the kind

def approach(draw, country, nearer):
    """Samples: the train where its walk was taken, often after it stood there; if it is to come nearer, a foot on and, as its
    steps may fall otherwise, 16 more; some at other speeds.  An application that just begins leaves A and B as they were."""
    full, speed = country.train["set"], country.walk.speed
    low = full if nearer else full - draw.pick((0, 0, 400, 6000))
    way = [(0, 0, full)] * draw.below(2) + [(feet, speed, low) for feet in ((0, 1, 16) if nearer else (0,))]
    way += [(draw.below(30), draw.between(0, 4500), low) for _ in range(draw.between(1, 4))]
    time, head, samples = draw.below(10000), country.head, []
    for feet, speed, pressure in way:
        time, head = time + draw.between(1, 5), head + feet
        samples.append(sample(draw, time, head, speed, pressure, pressure, SURE))
    return samples


def last_step(draw):
    """A train that coasts to a stop at the last step; a hundredth of a mph faster its walk is cut below the target's speed."""
    train = dict(draw_weak(draw), rated=0)
    feed, head, time, full = Feed(train), train["length"], draw.below(1000), train["set"]
    fastest = fastest_coasting(train)
    feed.profile = [(0, 0, 0, 0), (head + REACH, 0, 0, 0)]
    limit = draw.pick((min(fastest + 1, FASTEST), draw.between(fastest // 2, fastest), FASTEST))
    feed.targets = [(head + REACH - draw.below(1000), limit)]
    feed.samples = [sample(draw, time + more, head, fastest - 1 + more, full, full, SURE) for more in range(4)]
    return feed.bytes()


def undulating(draw, number):
    """Undulating country and weak brakes: the walk passes below a target's
    speed, rises above it and falls for good later, once or more often; it begins
    below that speed; it is cut at the step limit, below it.  The target stands
    between the first crossing and the last, at the last or outside."""
    which = number % (len(WALKS) + 1)
    if which == len(WALKS):
        return last_step(draw)
    # equality tells at its own place alone
    place = at_last if WALKS[which] is equals else PLACES[number % len(PLACES)]
    country, limit, bounds = draw_country(draw, WALKS[which])
    target = place(draw, *bounds)
    feed = Feed(country.train)
    feed.blocks = country.blocks
    feed.profile = country.profile
    feed.targets = draw_quiet(draw, country, target, limit) + [(target, limit)]
    if place in (between, nearest):
        feed.targets += draw_further(draw, target, MOST_TARGETS - len(feed.targets))
    feed.samples = approach(draw, country, place is at_last)
    return feed.bytes()
