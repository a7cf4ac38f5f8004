"""Manifest trains: blocks whose weights are far from even, where that matters."""

from itertools import accumulate

from . import loads
from .records import REACH, Feed
from .trains import draw_train
from .undulations import MOST_TARGETS, approach, draw_further
from .walks import STEP_FEET, Walk

# How often a train and its ground are drawn for stops that part.
TRIES = 8
# Records of ground that changes every few feet.
MOST_RIPPLES = 250


def draw_even_numbers(draw):
    """A train of which two equal halves can be made."""
    train = draw_train(draw)
    train["length"] -= train["length"] % 2
    train["weight"] -= train["weight"] % 2
    train["offset"] = draw.pick((0, train["offset"]))
    return train


def draw_coasting(draw):
    """A train so light that it tells how each share is rounded, as it coasts."""
    train, cars = draw_even_numbers(draw), draw.between(1, 6)
    train.update({"cars": cars, "axles": draw.pick((2, 4 * cars)), "weight": draw.between(loads.MOST_BLOCKS, 90),
                  "length": draw.between(200, 2000), "rated": 0})
    return train


# --- the ground from its first foot on, under a train with its head there and ahead of it

def draw_slope(draw, start, up):
    return start, draw.between(30, 160) * (1 if up else -1), draw.pick((0, 0, draw.between(0, 600))), 0


def draw_slopes(draw, first, head, length, ups):
    """One after the other, each up or down, the first turn under the train or not far ahead."""
    starts = [first, draw.between(max(first + 1, head - length), head + length)]
    while len(starts) < len(ups):
        starts.append(starts[-1] + draw.between(length // 3 + 1, 2 * length))
    return [draw_slope(draw, start, up) for start, up in zip(starts, ups)]


def sag(draw, first, head, blocks):
    return draw_slopes(draw, first, head, head - first, (False, True))


def crest(draw, first, head, blocks):
    return draw_slopes(draw, first, head, head - first, (True, False))


def hills(draw, first, head, blocks):
    up = draw.chance(50)
    return draw_slopes(draw, first, head, head - first, [up == (place % 2 == 0) for place in range(draw.between(4, 12))])


def seams(draw, first, head, blocks):
    """The grade changes just where a block ends, at a step of the walk, or a foot before or behind."""
    steps, more = draw.pick((0, draw.below(20))), draw.pick((0, 0, 1, -1))
    ends = {head + STEP_FEET * steps + more - feet for feet in accumulate((length for length, _ in blocks), initial=0)}
    return [draw_slope(draw, start, draw.chance(50)) for start in sorted({first} | {end for end in ends if end > first})]


def ripples(draw, first, head, blocks):
    """Short slopes that on the whole take a light train down about as hard as it resists."""
    grade, profile = -draw.between(3, 8), []
    while first < head + REACH and len(profile) < MOST_RIPPLES:
        profile.append((first, grade + draw.between(-4, 4), draw.pick((0, 0, draw.below(20))), 0))
        first += draw.between(1, 2 * REACH // MOST_RIPPLES)
    return profile


class Manifest:
    """A train with its blocks before such ground; its walk by their weights, and by the same weight spread evenly."""

    def __init__(self, draw, load, ground):
        coasts = load is loads.tons
        self.train = draw_coasting(draw) if coasts else draw_even_numbers(draw)
        self.blocks = load(draw, self.train)
        first = draw.below(2000)
        self.head = first + self.train["length"] + draw.below(50)
        self.profile = (ripples if coasts else ground)(draw, first, self.head, self.blocks)
        last = max(self.head + REACH, self.profile[-1][0]) + draw.between(150, 500)
        self.profile.append((last, 0, 0, 0))
        speed = draw.between(300, draw.pick((1500, 3500)))
        self.walk = Walk(self.train, self.profile, self.head, speed, self.blocks)
        self.even = Walk(self.train, self.profile, self.head, speed)

    def parts(self):
        """Whether the stops do."""
        return self.walk.location(0) != self.even.location(0)


def draw_manifest(draw, load, ground):
    """One whose stops part, if some tries find it; they can't for one block, and seldom do for two halves."""
    for _ in range(1 if load in (loads.one, loads.halves) else TRIES):
        manifest = Manifest(draw, load, ground)
        if manifest.parts():
            break
    return manifest


# --- where the target stands: by the least places at which it is not called for, by weight and evenly

def between(draw, weighed, even):
    """The call is one walk's alone, where they part."""
    low, high = sorted((weighed, even))
    return draw.between(low, max(low, high - 1))


def brink(draw, weighed, even):
    """Not called for, but it is as soon as the train is a foot nearer."""
    return weighed


def short(draw, weighed, even):
    """Called for by a foot."""
    return weighed - 1


def outside(draw, weighed, even):
    """Both call, or neither does."""
    return draw.pick((min(weighed, even) - 1, max(weighed, even) + draw.below(100)))


LOADS = (loads.empties_first, loads.loads_first, loads.one, loads.most, loads.tons, loads.mixed, loads.loads_first,
         loads.empties_first, loads.halves, loads.tons, loads.feet)
GROUNDS = (sag, crest, hills, seams, crest, sag, hills)
PLACES = (between, outside, brink, between, outside, short, between, outside, brink)


def manifest(draw, number):
    """Manifest trains of 1 to 64 blocks, empties in front of loads and the
    reverse, over sags, crests and hills: the stop is another than with the
    weight spread evenly, and a target stands between the two or at the brink."""
    load, ground, place = (cases[number % len(cases)] for cases in (LOADS, GROUNDS, PLACES))
    made = draw_manifest(draw, load, ground)
    limit = draw.pick((0, 0, draw.between(0, made.walk.speed)))
    target = place(draw, made.walk.uncalled(limit), made.even.uncalled(limit))
    feed = Feed(made.train)
    feed.blocks = made.blocks
    feed.profile = made.profile
    feed.targets = [(target, limit)] + draw_further(draw, target, MOST_TARGETS - 1)
    feed.samples = approach(draw, made, place is brink)
    return feed.bytes()
