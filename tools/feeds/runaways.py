"""Trains that run away, and how often a comparison meets one."""

import re

from .answers import places
from .loads import now_and_then
from .records import REACH, Feed
from .trains import SURE, draw_targets, draw_train, sample

FAST = 90                          # mph
STEEP = -400                       # hundredths of a percent
NO_STOP = re.compile(r"\d+ \d \d \d 16777215", re.ASCII)


# --- the kind

def draw_heavy(draw):
    """A hundred tons a car or more, and brakes that don't hold a quarter of what the grade pulls."""
    cars = draw.between(1, 120)
    weight = draw.between(max(5000, 100 * cars), 30000)
    train = draw_train(draw)
    train.update({"cars": cars, "weight": weight, "axles": draw.pick((2, 4 * cars)),
                  "rated": draw.pick((0, weight * draw.between(1, 12)))})
    return train


def draw_descent(draw, first, last):
    """Nothing less steep, from first to last."""
    starts = sorted({first} | {draw.between(first, last - 1) for _ in range(draw.below(6))})
    return [(start, draw.pick((-500, draw.between(-500, STEEP))), draw.pick((0, draw.between(0, 200))), 0)
            for start in starts]


def runaway(draw, number):
    """Heavy trains with weak brakes, fast on a long steep descent: no stop, and
    each step of the walk gains.  Every third is the train, the ground and the
    speed that come nearest to the greatest speed of all walks."""
    train = draw_heavy(draw)
    nearest = number % 3 == 0
    if nearest:
        train.update({"cars": 1, "weight": 30000, "axles": 2, "rated": 0})
    first = draw.below(2000)
    head = first + train["length"] + draw.below(100)
    time = draw.below(10000)
    speed = 10000 if nearest else draw.between(100 * FAST, 10000)
    front = train["set"]
    feed = Feed(train)
    feed.blocks = now_and_then(draw, train)
    feed.targets = draw_targets(draw, head, head + 3000, speed, draw.between(0, 8))
    for _ in range(draw.between(2, 8)):
        feed.samples.append(sample(draw, time, head, speed, front, front, SURE))
        seconds = draw.between(1, 3)
        time += seconds
        head += 22 * speed * seconds // 1500
        speed = min(10000, speed + seconds * draw.below(100))
        front -= draw.pick((0, 0, 300)) * seconds
    last = head + REACH + draw.below(1000)
    ground = [(first, -500, 0, 0)] if nearest else draw_descent(draw, first, last)
    feed.profile = ground + [(last, 0, 0, 0)]
    return feed.bytes()


# --- the count

def grades_between(profile, first, last):
    """The grades of the records that hold somewhere there."""
    return [grade for (start, grade, *_), (end, *_) in zip(profile, profile[1:]) if start < last and end > first]


def runaways(feed, output):
    """How many of a feed's samples were accepted without a stop by penalty air, at 90 mph or
    more, on -4 % or steeper all the way from the rear to the end of the reach.
    The output may be any program's, right or not."""
    return sum(speed >= FAST and max(grades_between(profile, rear, head + REACH), default=0) <= STEEP
               for profile, rear, head, speed in places(feed, output, NO_STOP))
