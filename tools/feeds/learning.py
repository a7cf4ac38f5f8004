"""Rears that fall behind a service application and level off, so that the application time is learnt."""

from .lessons import FALL, LONGEST, MOST_POINTS
from .loads import now_and_then
from .quiet import draw_samples
from .records import REACH, Feed
from .trains import draw_train
from .walks import Walk


class Pipe:
    """Seconds since the last sample, front, and rear, which is None where it is lost."""

    def __init__(self, draw, full):
        self.draw, self.full = draw, full
        self.front = self.rear = full
        self.since = 0             # the last application, in seconds
        self.silent, self.rising = draw.pick((0, 0, 25)), draw.pick((0, 0, 20))    # percent of the samples of a falling rear
        self.samples = []

    def go(self, wait, front=None, rear=None, lost=False):
        """A sample; what is not told stays."""
        self.front = self.front if front is None else front
        self.rear = self.rear if rear is None else max(0, rear)
        self.since += wait
        self.samples.append((wait, self.front, None if lost else self.rear))

    def hold(self, seconds, lost=False):
        """Nothing changes for so long."""
        while seconds > 0:
            wait = self.draw.between(1, min(5, seconds))
            self.go(wait, lost=lost)
            seconds -= wait

    def charge(self):
        """A release, and the train charged again."""
        self.go(self.draw.between(1, 5), self.full, self.full)
        self.hold(self.draw.between(15, 30))

    def apply(self, depth):
        """The front falls by so much in one sample, of service; the rear is silent there at times, and for some seconds after."""
        self.hold(self.draw.between(1, 4))
        self.go(max(self.draw.between(1, 5), depth // 1400 + 1), self.front - depth, lost=self.draw.chance(25))
        self.since = 0
        if self.samples[-1][2] is None:
            self.hold(self.draw.below(8), lost=True)
            self.go(1)

    def fall(self, count, rate):
        """The rear falls by a rate in hundredths a second, for so many samples that hear it fall; others are silent, or hear it
        rise for a moment."""
        while count > 0:
            before, seconds = self.rear, self.draw.between(1, 2)
            if self.draw.chance(self.rising):
                self.go(1, rear=before + self.draw.below(50))
                seconds += 1
            lost = self.draw.chance(self.silent)
            self.go(seconds, rear=before - seconds * rate, lost=lost)
            count -= not lost

    def begin(self, rate):
        """The rear has fallen by three psi, and a few points more."""
        self.hold(self.draw.below(15))
        self.go(self.draw.between(1, 5), rear=self.rear - FALL - self.draw.pick((0, 1, self.draw.below(300))))
        self.fall(self.draw.between(2, 9), rate)

    def level(self, rate):
        """The rear falls at less than half of the rate, and then stays."""
        wait = self.draw.between(1, 3)
        self.go(wait, rear=self.rear - max(1, wait * rate * self.draw.between(5, 40) // 100))
        self.hold(self.draw.below(10))


# Each of these goes through an application from a charged train on.

def plain(draw, pipe):
    """A rear that falls and levels off; then at times a deeper reduction, which teaches nothing."""
    rate = draw.between(15, 150)
    pipe.apply(draw.between(500, 2500))
    pipe.begin(rate)
    pipe.level(rate)
    if draw.chance(30):
        pipe.go(draw.between(1, 3), max(0, pipe.front - draw.between(310, 900)))
        pipe.begin(rate)
        pipe.level(rate)


def half(draw, pipe):
    """Falls of 3, 2 and 1 parts, at the last of which the slope is half of the line's."""
    part = draw.between(5, 60)
    pipe.apply(draw.between(500, 2500))
    pipe.go(draw.between(1, 5), rear=pipe.rear - FALL)
    for parts in (3, 2, 1, 1):
        pipe.go(1, rear=pipe.rear - parts * part)
    pipe.level(part)


def crept(draw, pipe):
    """A front that creeps up past three psi below the set pressure, no release, and falls again: learnt anew."""
    rate = draw.between(15, 150)
    for depth in (draw.between(500, 900), draw.between(500, 1200)):
        pipe.apply(depth)
        pipe.begin(rate)
        pipe.level(rate)
        while pipe.front <= pipe.full - FALL:
            pipe.go(5, pipe.front + 500, pipe.full)


def deep(draw, pipe):
    """A full service application: the last point is below equalization, often the only one."""
    level, rate = 5 * pipe.full // 7, draw.between(200, 500)
    pipe.apply(pipe.full - level + draw.between(200, 900))
    pipe.go(draw.between(1, 5), rear=pipe.rear - draw.between(FALL, 600))
    while pipe.rear >= level + 2 * rate:
        pipe.go(1, rear=pipe.rear - rate)
    pipe.go(1, rear=level + draw.below(rate // 4))
    if draw.chance(50):
        pipe.go(1, rear=pipe.rear - rate)
    pipe.go(1, rear=min(level, pipe.rear) - draw.between(1, rate // 8))
    pipe.hold(draw.below(10))


def sudden(draw, pipe):
    """A rear that is below equalization at its first point already."""
    rate = draw.between(5, 30)
    pipe.apply(pipe.full * 2 // 7 + draw.between(1000, 2000))
    pipe.go(draw.between(1, 5), rear=5 * pipe.full // 7 - draw.pick((draw.between(1, 900), draw.between(500, 900))))
    pipe.fall(draw.between(2, 5), rate)
    pipe.level(rate)


def faint(draw, pipe):
    """A rear that hardly falls, long after the front."""
    pipe.apply(draw.between(400, 900))
    pipe.hold(draw.between(10, 80))
    pipe.go(draw.between(1, 5), rear=pipe.rear - FALL)
    for _ in range(draw.between(3, 6)):
        pipe.go(1, rear=pipe.rear - 2)
    pipe.go(draw.between(2, 5), rear=pipe.rear - 1)


def levels_off_after(draw, pipe, seconds):
    """A rear that levels off so long after the front fell; what it does then teaches nothing."""
    rate = draw.between(15, 100)
    pipe.apply(draw.between(500, 2500))
    while pipe.since < seconds - 12:
        pipe.go(min(5, seconds - 12 - pipe.since))
    pipe.go(4, rear=pipe.rear - FALL)
    for _ in range(3):
        pipe.go(2, rear=pipe.rear - 2 * rate)
    pipe.go(2, rear=pipe.rear - rate // 4)
    pipe.begin(rate)
    pipe.level(rate)


def in_time(draw, pipe):
    """The last second that teaches."""
    levels_off_after(draw, pipe, LONGEST - 1)


def too_late(draw, pipe):
    levels_off_after(draw, pipe, LONGEST + draw.pick((0, 0, 1, 4)))


def falls_evenly(draw, pipe, points):
    """A rear that falls evenly for so many points, and then levels off."""
    rate = draw.between(1, 8)
    pipe.apply(draw.between(500, 2500))
    pipe.go(draw.between(1, 5), rear=pipe.rear - FALL)
    for _ in range(points - 1):
        wait = draw.pick((1, 1, 2))
        pipe.go(wait, rear=pipe.rear - wait * rate)
    pipe.go(5, rear=pipe.rear - 1)
    pipe.hold(5)


def most_points(draw, pipe):
    """The last point that is kept is the one that levels off."""
    falls_evenly(draw, pipe, MOST_POINTS - 1)


def too_many_points(draw, pipe):
    falls_evenly(draw, pipe, MOST_POINTS + draw.pick((0, 1, 4)))


def released(draw, pipe):
    """A release while it falls."""
    rate = draw.between(15, 150)
    pipe.apply(draw.between(600, 2500))
    pipe.begin(rate)
    pipe.go(draw.between(1, 3), pipe.full)


def emptied(draw, pipe):
    """An emergency while it falls."""
    rate = draw.between(15, 150)
    pipe.apply(draw.between(500, 2500))
    pipe.begin(rate)
    pipe.go(1, max(0, pipe.front - draw.between(1500, 4000)))
    pipe.hold(draw.between(8, 20))


LESSONS = (plain, too_many_points, released, half, deep, too_late, emptied, sudden, crept, faint, in_time, most_points)


def near_the_brink(draw, feed, head, speed):
    """A target that a train with the typed time comes to call for in its last samples."""
    walk = Walk(feed.consist, feed.profile, head - draw.below(400), speed, feed.blocks)
    limit = draw.pick((0, 0, speed // 3))
    return walk.uncalled(limit) - 1, limit


def learning(draw, number):
    """Service applications whose rear falls and levels off, so that the time is
    learnt, and learnt anew, and often changes a call; with silences, releases and
    emergencies, 600 seconds, more points than are kept, slopes of one half."""
    train = draw_train(draw)
    train.update({"application": draw.pick((draw.between(5000, 30000), draw.between(20000, 120000))),
                  "recharge": draw.between(200, 1000)})
    pipe = Pipe(draw, train["set"])
    for lesson in (LESSONS[number % len(LESSONS)], plain):
        lesson(draw, pipe)
        pipe.charge()
    feed = Feed(train)
    feed.blocks = now_and_then(draw, train)
    head, speed = train["length"] + draw.between(400, 900), draw.between(500, 5500)
    feed.samples, head = draw_samples(draw, pipe.samples, head, speed)
    feed.profile = [(0, draw.between(-40, 60), draw.pick((0, draw.below(300))), 0), (head + REACH + draw.below(2), 0, 0, 0)]
    if draw.chance(75):
        feed.targets = [near_the_brink(draw, feed, head, speed)]
    return feed.bytes()
