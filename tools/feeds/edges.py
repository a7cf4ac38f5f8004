"""Fields at their least and greatest, and just outside."""

from itertools import zip_longest

from .binary32 import INFINITE, MINUS, nearest_bits
from .loads import least, most
from .records import CONSIST, LAST_FOOT, LAST_TIME, MOST_BLOCKS, REACH, SAMPLE_MARK, Feed, pack_sample

FASTEST = nearest_bits(100)        # the greatest speed and pressure
HIGHEST = nearest_bits(160)


# ----------------------------- consist, blocks, profile and targets, one rule broken

# Each of these makes a function that breaks one rule in a feed whose train has its head there.

def outside_consist(name, value):
    def spoil(feed, head):
        feed.consist[name] = value
    return spoil


def outside_blocks(*changes):
    """Three blocks, and what is added to the length, weight and spare bits of each."""
    def spoil(feed, head):
        length, weight = feed.consist["length"], feed.consist["weight"]
        blocks = (1, 1, 0), (length - 2, weight - 2, 0), (1, 1, 0)
        feed.blocks = [tuple(map(sum, zip(*pair))) for pair in zip_longest(blocks, changes, fillvalue=(0, 0, 0))]
    return spoil


def outside_block_count(count):
    """Three right blocks, and another count."""
    def spoil(feed, head):
        outside_blocks()(feed, head)
        feed.block_count = count
    return spoil


def too_many_blocks(feed, head):
    """65, and nothing else wrong."""
    for name in ("length", "weight"):
        feed.consist[name] = max(MOST_BLOCKS + 1, feed.consist[name])
    rest = [feed.consist[name] - MOST_BLOCKS for name in ("length", "weight")]
    feed.blocks = [(1, 1)] * MOST_BLOCKS + [tuple(rest)]


def outside_profile(place, **fields):
    """One field of a profile of four records is changed."""
    def spoil(feed, head):
        feed.profile = [(head - feed.consist["length"], 0, 0, 0), (head, -500, 2000, 0),
                        (head + 500, 500, 0, 0), (head + REACH, 0, 0, 0)]
        start, grade, curve, spare = feed.profile[place]
        feed.profile[place] = (
            fields.get("start", start) + (head if fields.get("near") else 0),
            fields.get("grade", grade), fields.get("curve", curve), fields.get("spare", spare))
    return spoil


def outside_targets(place, location, speed, near):
    """One record of a list of four is changed."""
    def spoil(feed, head):
        feed.targets = [(head, 10000), (head + 100, 0), (head + 5000, 500), (LAST_FOOT, 10000)]
        feed.targets[place] = (location + (head if near else 0), speed)
    return spoil


def outside_records(records):
    def spoil(feed, head):
        first = head - feed.consist["length"]
        feed.profile = [(first + i, 0, 0, 0) for i in range(records - 1)]
        feed.profile.append((head + REACH, 0, 0, 0))
    return spoil


def outside_count(profile_count, target_count):
    def spoil(feed, head):
        feed.profile_count, feed.target_count = profile_count, target_count
    return spoil


def outside_list(feed, head):
    """Nine targets."""
    feed.targets = [(head + i, 0) for i in range(9)]


def too_light(feed, head):
    """One ton under ten tons a car."""
    cars = feed.consist["cars"] = max(2, feed.consist["cars"])
    feed.consist["weight"] = 10 * cars - 1


# Each rule of consist, blocks, profile and targets broken by as little as can be.
OUTSIDE = [outside_consist(name, least - 1) for name, _, least, _ in CONSIST if least > 0]
OUTSIDE += [outside_consist(name, greatest + 1) for name, _, _, greatest in CONSIST]
# A length and a weight of 0 with the sums right, spare bits, sums one off.
OUTSIDE += [outside_blocks(*changes) for changes in (
    ((-1, 0, 0), (1, 0, 0)),
    ((0, 0, 0), (1, 0, 0), (-1, 0, 0)),
    ((0, -1, 0), (0, 1, 0)),
    ((0, 0, 0), (0, 1, 0), (0, -1, 0)),
    ((0, 0, 1),),
    ((0, 0, 0), (0, 0, 0), (0, 0, 2)),
    ((0, 0, 0), (1, 0, 0)),
    ((0, 0, 0), (-1, 0, 0)),
    ((0, 0, 0), (0, 1, 0)),
    ((0, 0, 0), (0, -1, 0)),
)]
OUTSIDE += [
    too_many_blocks,
    outside_block_count(2),
    outside_block_count(4),
    outside_block_count(MOST_BLOCKS + 1),
    outside_block_count(255),
    outside_profile(3, start=LAST_FOOT + 1),
    outside_profile(1, grade=-501),
    outside_profile(2, grade=501),
    outside_profile(1, curve=2001),
    outside_profile(0, spare=1),
    outside_profile(3, spare=2),
    outside_profile(2, start=0, near=True),
    outside_profile(2, start=-1, near=True),
    outside_profile(3, grade=-1),
    outside_profile(3, curve=1),
    outside_records(1),
    outside_records(258),
    outside_count(0, None),
    outside_targets(3, LAST_FOOT + 1, 0, False),
    outside_targets(2, 5000, 10001, True),
    outside_targets(1, 0, 0, True),
    outside_targets(2, 99, 0, True),
    outside_list,
    outside_count(None, 255),
]
# In strides, so that the parts take turns.
OUTSIDE = [OUTSIDE[11 * i % len(OUTSIDE)] for i in range(len(OUTSIDE))]


# -------------------------------------------------------------------- the kind

def no_blocks(draw, train):
    return []


def inside(draw, feed, head):
    """Blocks, profile and targets right, at the very edge of a rule."""
    train = feed.consist
    first, last = head - train["length"], head + REACH
    feed.blocks = draw.pick((no_blocks, no_blocks, least, most))(draw, train)
    which = draw.below(5)
    if which == 0:
        # The most records there may be.
        feed.profile = [(first + i, draw.between(-500, 500), draw.between(0, 2000), 0)
                        for i in range(256)] + [(last, 0, 0, 0)]
    elif which == 1:
        feed.profile = [(first, -500, 2000, 0), (head, 500, 0, 0), (LAST_FOOT, 0, 0, 0)]
        feed.targets = [(head + i, 10000) for i in range(7)] + [(LAST_FOOT, 10000)]
    elif which < 4:
        # A grade without a stop, and a target at the reach or at the head.
        train["rated"] //= 100
        feed.profile = [(first, draw.pick((-500, -500, 500)), draw.pick((0, 2000)), 0),
                        (last, 0, 0, 0)]
        target = head + draw.pick((0, REACH, REACH, REACH + 1, -1))
        feed.targets = [(min(target, LAST_FOOT), draw.pick((0, 100, 9999, 10000)))]


def edge_train(draw):
    train = {}
    for name, _, least, greatest in CONSIST:
        train[name] = draw.pick((least, greatest, draw.between(least, greatest)))
    if draw.chance(15):
        train["cars"], train["weight"] = 250, draw.pick((2500, 2501))
    elif train["weight"] < 10 * train["cars"]:
        train["cars"] = max(1, train["weight"] // 10)
    return train


def odd_fields(length, head):
    """By number: a field of a sample, what it may be, at its edge or past it, and whether the sample
    counts as refused, so that the next time is counted from the one before it.  A mark has its spare
    bits beside it."""
    return (
        ("speed", (0, 1, MINUS, FASTEST, FASTEST - 1, FASTEST), False),
        ("speed", (FASTEST + 1, MINUS + 1, INFINITE, INFINITE - 1, nearest_bits(101)), True),
        ("front", (HIGHEST, HIGHEST - 1, 0, 1, MINUS), False),
        ("front", (HIGHEST + 1, MINUS + 1, MINUS + INFINITE, 0x7FC00000), True),
        ("rear", (HIGHEST, HIGHEST - 1, 0, 1, MINUS, None), False),
        ("rear", (HIGHEST + 1, 0xC2B40000, INFINITE + 1, MINUS + 1), True),
        ("head", (length - 1, length, head - 1, head + 1, 0, (1 << 24) - 1), True),
        ("gap", (5, 6, 0, -1, 4), False),
        ("mark", ((0x52, 0), (0x53, 1), (0x53, 64), (0x44, 0), (0xD3, 0)), True),
    )


def edge_samples(draw, set_pressure, length, head):
    normal = nearest_bits(set_pressure, 100)
    odd = odd_fields(length, head)
    time = draw.pick((0, 100, LAST_TIME - 12))
    samples = []
    for _ in range(draw.between(1, 14)):
        fields = {"speed": nearest_bits(draw.between(0, 1500), 100), "front": normal,
                  "rear": normal, "head": head, "gap": 1, "mark": (SAMPLE_MARK, 0)}
        which = draw.below(14)
        refused = False
        if which < len(odd):
            name, values, refused = odd[which]
            fields[name] = draw.pick(values)
        gap, (mark, spare) = fields.pop("gap"), fields.pop("mark")
        samples.append(pack_sample(min(LAST_TIME, max(0, time + gap)), **fields, mark=mark,
                                   spare=spare))
        if gap in (1, 4, 5) and not refused:
            time += gap
    return samples


def edges(draw, number):
    """Every field at its least and greatest and just outside."""
    train = edge_train(draw)
    feed = Feed(train)
    length = train["length"]
    head = draw.pick((length, length + 1, 4 * length, LAST_FOOT - REACH))
    feed.profile = [(head - length, 0, 0, 0), (head + REACH, 0, 0, 0)]
    if number % 12 == 0:
        too_light(feed, head)
        if number % 24 == 0:
            # refused 5 all the same
            outside_block_count(MOST_BLOCKS + 1)(feed, head)
    elif number % 3 == 0:
        inside(draw, feed, head)
    else:
        OUTSIDE[(2 * (number // 3) + number % 3 - 1) % len(OUTSIDE)](feed, head)
    feed.samples = edge_samples(draw, train["set"], length, head)
    return feed.bytes()
