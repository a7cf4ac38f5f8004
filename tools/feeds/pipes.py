"""Brake pipe pressures at the edges of the brake rules, the train standing or at any speed."""

from .loads import now_and_then
from .records import REACH, Feed
from .trains import SURE, draw_count, draw_train, sample

MOODS = ("settle", "settle", "edge", "slow", "apply", "release", "emergency", "depth")
# One hundredth before, at and past each rule's rate.
EDGE_RATES = (-1501, -1500, -1499, -101, -100, -99, 99, 100, 101)


def brakes(draw, number):
    """Pipe pressures at the edges of every brake rule: rates of 1.00 and 15.00
    psi a second and one hundredth past them, 3.00 psi below the hold and one
    past it, uneven clocks, rear far below, above and lost, emergencies after a
    full service application."""
    train = draw_train(draw)
    train["application"] = draw.between(1000, 30000)
    train["recharge"] = draw.between(1, 400)
    deep = number % 4 == 1
    pipe = deep_pipe(draw, train) if deep else edge_pipe(draw, train)
    feed = Feed(train)
    feed.blocks = now_and_then(draw, train)
    head = train["length"] + draw.between(0, 500)
    feed.profile = [(0, draw.between(-40, 40), 0, 0), (head + REACH, 0, 0, 0)]
    speeds = tuple(draw.between(0, 4000) for _ in range(draw.pick((1, 10))))
    if draw.chance(15):
        speeds = (0,)
    time = draw.below(1000)
    for wait, front, rear in pipe:
        time += wait
        feed.samples.append(sample(draw, time, head, draw.pick(speeds), front, rear, SURE))
    if deep:
        # a board so near that the penalty stands soon, and emergency is predicted all the way
        feed.targets = [(head + draw.between(0, 500), 0)]
    elif draw.chance(30):
        feed.targets = [(head + draw.between(0, 4000), draw.between(0, 2000))]
    return feed.bytes()


def edge_pipe(draw, train):
    """Seconds since the last sample, front and rear, mood after mood."""
    pipe = []
    front = train["set"] + draw.pick((0, 0, 0, 0, -300, -301, 50, -1600))
    hold = max(front, train["set"])
    mood = "settle"
    for number in range(draw_count(draw)):
        wait = draw.between(1, 5)
        change = 0
        if number > 0:
            if draw.chance(35):
                mood = draw.pick(MOODS)
            if mood == "depth":
                # So slowly that only the depth below the hold tells.
                wait = 5
                change = hold - draw.pick((299, 300, 301)) - front
            else:
                change = mood_change(draw, mood, wait)
        if not 0 <= front + change <= 16000:
            change = draw.between(0, 700)
        front = min(16000, front + change)
        # About what the brakes hold: it rises with the front, and a release or a held
        # application begins it anew.
        hold = front if mood in ("release", "apply") else max(hold, front)
        rear = front - draw.pick((0, 0, 1, 2, -200, 500, draw.between(0, 9000)))
        pipe.append((wait, front, None if draw.chance(10) else max(0, min(16000, rear))))
    return pipe


def mood_change(draw, mood, wait):
    """By how much the front changes in so many seconds."""
    if mood == "settle":
        return draw.between(-3, 3) if draw.chance(30) else 0
    if mood == "edge":
        rate = draw.pick(EDGE_RATES)
        change = rate * wait + draw.below(wait)
        return rate * wait - 1 if draw.chance(30) else change
    if mood == "slow":
        return -draw.between(0, 100) * wait
    if mood == "apply":
        return -draw.between(101, 900) * wait
    if mood == "release":
        return draw.between(101, 700) * wait
    return -draw.between(1500, 3000) * wait


class Pipe:
    """A pipe that goes at a rate for some samples, then at another."""

    def __init__(self, draw, front, far):
        self.draw = draw
        self.front = front
        self.far = far             # how far below it the rear stands
        self.samples = []

    def go(self, count, rate, wait):
        for _ in range(count):
            seconds = self.draw.between(1, wait)
            self.front = max(0, min(16000, self.front + rate * seconds))
            self.samples.append((seconds, self.front, max(0, self.front - self.far)))


def deep_pipe(draw, train):
    """A service application, the pipe then rising too slowly for a release, an
    emergency with rear far below front, a release.  After the full application,
    down to equalization, A combined with a low nominal is below B; a pipe far
    above a low set pressure leaves nominal at 0."""
    pipe = Pipe(draw, train["set"], draw.pick((0, 2000, 16000, 16000)))
    which = draw.below(3)
    if which == 0:
        train["set"] = draw.between(7000, 7200)
        pipe.front = 16000
    elif which == 1:
        train["application"] = draw.between(1000, 10000)
        pipe.go(2, 0, 5)
        pipe.go(3, -1400, 1)
        pipe.go(10, 0, 5)
        pipe.go(draw.between(5, 22), 100, 5)
    else:
        pipe.go(2, 0, 5)
        pipe.go(draw.between(1, 4), -draw.between(101, 700), 1)
        pipe.go(draw.between(2, 9), 0, 5)
        pipe.go(draw.between(0, 22), draw.pick((100, 99, 50)), 5)
    pipe.go(1, 0, 5)
    pipe.go(draw.between(1, 2), -draw.pick((1500, 1500, 1501, 2000, 3000)), 1)
    pipe.go(draw.between(2, 14), draw.pick((0, 0, 300)), 2)
    pipe.go(draw.between(1, 10), draw.between(101, 600), 3)
    pipe.go(draw.between(0, 20), 0, 5)
    return pipe.samples
