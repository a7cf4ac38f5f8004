"""Trips, and those of light trains."""

from .loads import ANY, now_and_then
from .motion import Run
from .records import LAST_TIME, REACH, Feed
from .trains import draw_count, draw_profile, draw_records, draw_targets, draw_train


def trip(draw, number):
    """Real trips: service and emergency applications, release, recharge, lost
    rear readings, speeds and heads that follow from motion, targets coming up."""
    return make_trip(draw, draw_count(draw), number % 9)


def make_trip(draw, count, place, blocks=False):
    """A trip of so many samples; the target at that place should call.  Where there are to be
    blocks there are some, else now and then."""
    train = draw_train(draw)
    feed = Feed(train)
    feed.blocks = draw.pick(ANY)(draw, train) if blocks else now_and_then(draw, train)
    fast = draw.between(500, 4500) if draw.chance(85) else draw.between(4500, 9000)
    first = draw.pick((0, draw.between(0, 1000000)))
    head = first + train["length"] + draw.between(0, 3000)
    time = draw.pick((0, draw.between(0, 86400), draw.between(0, LAST_TIME - 2500)))
    run = Run(draw, train, head, fast if draw.chance(70) else 0, time)
    run.cruise = fast
    feed.samples = run.samples(count)
    last = run.head + REACH + draw.between(0, 5000)
    steepest = draw.pick((0, 50, 100, 150))
    feed.profile = draw_profile(draw, first, last, steepest, draw_records(draw))
    feed.targets = draw_targets(draw, head, run.head + 1500, fast, place)
    return feed.bytes()


def draw_light_train(draw):
    """At the ten tons a car that there must be, a little above, or a ton under."""
    cars = draw.pick((1, 1, 1, 2, 3, 7, 20, 90, 250))
    weight = 10 * cars
    more = draw.below(100)
    if more < 25:
        weight += draw.between(0, 9)
    elif more < 35 and cars > 1:
        weight -= 1
    train = draw_train(draw)
    train.update({
        "cars": cars, "weight": weight,
        "axles": draw.pick((2, 4, max(2, 2 * cars), max(2, 4 * cars), 100)),
        "length": draw.pick((50, 51, 100, max(50, 40 * cars))),
        "rated": draw.pick((0, 100, 777, 150 * weight, draw.between(0, 300 * weight))),
    })
    return train


def light(draw, number):
    """Light trains: exactly ten tons a car, weights down to ten tons."""
    train = draw_light_train(draw)
    feed = Feed(train)
    feed.blocks = now_and_then(draw, train)
    first = draw.below(5000)
    head = first + train["length"] + draw.below(100)
    count = draw.between(5, 40)
    fast = draw.between(50, 3000) if draw.chance(80) else draw.between(3000, 10000)
    run = Run(draw, train, head, fast, draw.below(10000))
    feed.samples = run.samples(count)
    feed.profile = draw_profile(draw, first, run.head + REACH + draw.below(100),
                                draw.pick((0, 3, 20, 100)), draw_records(draw))
    feed.targets = draw_targets(draw, head, run.head, fast, draw.between(0, 8))
    return feed.bytes()
