"""Targets, stops and reaches at the very brink."""

from .loads import now_and_then
from .records import REACH, Feed
from .trains import SURE, draw_train, sample
from .walks import Walk


def fastest_coasting(train):
    """The greatest speed that stops within the steps, unbraked on level, straight track."""
    unbraked, length = dict(train, rated=0), train["length"]
    level = [(0, 0, 0, 0), (length + REACH, 0, 0, 0)]
    low, high = 1, 10000
    while low < high:
        middle = (low + high + 1) // 2
        if Walk(unbraked, level, length, middle).stops():
            low = middle
        else:
            high = middle - 1
    return low


class Approach:
    """A train before its targets: where it is, when, and on what track."""

    def __init__(self, draw):
        self.draw = draw
        self.train = draw_train(draw)
        self.feed = Feed(self.train)
        self.head = self.end = self.train["length"] + draw.below(500)
        self.time = draw.below(1000)
        self.grade = draw.pick((0, 0, draw.between(-20, 100)))
        self.curve = draw.pick((0, 0, draw.between(0, 300)))

    def sample(self, speed):
        """The brakes are charged throughout."""
        pressure = self.train["set"]
        self.feed.samples.append(
            sample(self.draw, self.time, self.end, speed, pressure, pressure, SURE))

    def bytes(self):
        first = self.head - self.train["length"]
        self.feed.blocks = now_and_then(self.draw, self.train)
        self.feed.profile = [(first, self.grade, self.curve, 0),
                             (self.end + REACH + self.draw.below(2), 0, 0, 0)]
        return self.feed.bytes()


def faster(draw, approach):
    """The same head, the speed rising by hundredths from standing."""
    train = approach.train
    train["offset"] = draw.between(0, 4000)
    limit = draw.pick((0, 0, 0, draw.between(0, 300)))
    if limit:
        train["offset"] = 0
    approach.feed.targets = [(approach.head + train["offset"] + 16 * draw.between(0, 7), limit)]
    speed, pace = limit, draw.between(2, 12)
    for _ in range(draw.between(60, 120)):
        approach.sample(speed)
        approach.time += 1
        speed += draw.between(1, pace)


def nearer(draw, approach):
    """The same speed, the head a foot further each time."""
    train = approach.train
    speed = draw.between(50, 900)
    limit = draw.pick((0, draw.between(0, speed), draw.between(speed // 2, speed)))
    train["offset"] = draw.between(0, 4000)
    short = -(-train["offset"] * (speed * speed - limit * limit) // (speed * speed))
    before = draw.between(0, 7)
    target = approach.head + short + draw.between(60, 200)
    approach.feed.targets = [(target - i, 10000) for i in range(before, 0, -1) if target - i > 0]
    approach.feed.targets.append((target, limit))
    for _ in range(draw.between(100, 260)):
        approach.sample(speed)
        approach.time += 1
        approach.end += 1 if draw.chance(90) else draw.between(0, 3)


def at_board(draw, approach):
    """The same, so near that the stop by emergency air passes through a board; a foot or more of offset calls the
    penalty before."""
    speed = draw.between(50, 900)
    approach.train["offset"] = draw.between(1, 30)
    approach.feed.targets = [(approach.head + draw.between(60, 200), 0)]
    for _ in range(draw.between(150, 220)):
        approach.sample(speed)
        approach.time += 1
        approach.end += 1


def last_step(draw, approach):
    """A coasting train that stops at step 2,048 or just does not."""
    train = approach.train
    train["rated"] = approach.grade = approach.curve = 0
    fastest = fastest_coasting(train)
    train["offset"] = draw.pick((0, 0, 1, 17))
    beyond = draw.pick((REACH, REACH, REACH - 16, REACH - 1, REACH - 17))
    approach.feed.targets = [(approach.head + beyond, 0)]
    for speed in range(fastest - 5, fastest + 4):
        if 0 <= speed <= 10000:
            approach.sample(speed)
            approach.time += draw.between(1, 5)


def into_reach(draw, approach):
    """No stop at all, and a target coming into reach foot by foot."""
    approach.train["rated"] = 0
    approach.grade = -draw.between(100, 500)
    speed = draw.between(1, 3000)
    approach.feed.targets = [(approach.head + REACH + draw.between(0, 4),
                              draw.pick((0, speed - 1, speed)))]
    for _ in range(6):
        approach.sample(speed)
        approach.time += 1
        approach.end += 1


BRINKS = (faster, faster, nearer, nearer, last_step, into_reach, at_board, at_board)


def brink(draw, number):
    """Targets at the very brink: the train comes up foot by foot or hundredth by
    hundredth, so that location plus offset, or the stop by emergency air, passes
    through the target; stops at the walk's last step; targets at the head and at
    the reach."""
    approach = Approach(draw)
    BRINKS[number % len(BRINKS)](draw, approach)
    return approach.bytes()
