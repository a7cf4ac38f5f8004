"""Rear devices that go quiet, for about as long as their last value is kept."""

from .damage import BAD_READINGS
from .loads import now_and_then
from .records import LAST_TIME, REACH, SAMPLE_WIDTHS, Feed, pack, unpack
from .trains import SURE, draw_train, sample


def draw_waits(draw, seconds):
    """From sample to sample one to five seconds, so many together."""
    waits = []
    while seconds > 0:
        waits.append(draw.between(1, min(5, seconds)))
        seconds -= waits[-1]
    return waits


class Pipe:
    """Seconds since the last sample, front, and rear, which is None where it is lost."""

    def __init__(self, draw, full):
        self.draw, self.full = draw, full
        self.samples = []

    def heard(self, seconds, front, far=0):
        """The rear stands so far below the front."""
        self.samples += [(wait, front, max(0, front - far)) for wait in draw_waits(self.draw, seconds)]

    def quiet(self, seconds, front):
        self.samples += [(wait, front, None) for wait in draw_waits(self.draw, seconds)]

    def far_below(self, front):
        """The rear's last value before it goes quiet."""
        self.heard(1, front, self.draw.pick((0, self.draw.between(1, 1500), self.draw.between(1, 8000))))


def draw_silence(draw):
    """About the seconds for which a value is kept."""
    return draw.between(4, 7)


# Each of these goes through a silence.  A rise or fall of 600 in 5 s is a release or an application.

def recharging(draw, pipe):
    """It begins before a release or with it: what the rear counts as is what is recharged to."""
    low, seconds = pipe.full - draw.between(600, 2500), draw_silence(draw)
    before = draw.below(seconds)
    pipe.heard(draw.between(1, 5), pipe.full)
    pipe.heard(draw.between(2, 12), low)
    pipe.far_below(low)
    pipe.quiet(before, low)
    pipe.quiet(seconds - before, pipe.full)
    pipe.quiet(draw.pick((0, draw.between(1, 12))), pipe.full)


def applying(draw, pipe):
    """An application at its end, often emergency's, which is combined with what the rear counts as."""
    low = pipe.full - draw.pick((600, draw.between(1500, 4000)))
    pipe.heard(draw.pick((0, 0, 0, 2)), pipe.full)
    pipe.far_below(pipe.full)
    pipe.quiet(draw_silence(draw) - 1, pipe.full)
    pipe.quiet(1, low)
    pipe.quiet(draw.below(12), low)


def from_the_first(draw, pipe):
    """At a low front, which is released while there is none yet, and then often falls into emergency.  Where the rear was heard
    before, it is a longer silence."""
    low = pipe.full - (draw.between(600, 4000) if draw.chance(75) else 250)
    pipe.quiet(draw.between(2, 7), low)
    pipe.quiet(draw_silence(draw) + draw.below(9), pipe.full)
    if draw.chance(40):
        pipe.quiet(1, pipe.full - 1500)
        pipe.quiet(draw.below(20), pipe.full - 1500)
    pipe.heard(draw.below(2), pipe.full, draw.below(3000))


SILENCES = (recharging, from_the_first, applying, from_the_first)


def refused(draw, record):
    """The same sample, refused 8, and often with a rear, which is not heard so."""
    mark, time, _, spare, head, _, front, _ = unpack(record, SAMPLE_WIDTHS)
    present = draw.below(2)
    return pack((mark, time, present, spare, head, draw.pick(BAD_READINGS), front, front * present), SAMPLE_WIDTHS)


def draw_samples(draw, pipe, head, speed):
    """A train that moves a little from sample to sample, often from time 0 or up to the last; and where its head is then."""
    first, whole = pipe[0][0], sum(wait for wait, _, _ in pipe)
    time = draw.pick((-first, -first, draw.below(86400), LAST_TIME - whole))
    samples = []
    for wait, front, rear in pipe:
        time, head = time + wait, head + draw.below(60)
        record = sample(draw, time, head, speed, front, rear, SURE)
        if draw.chance(10):
            samples.append(refused(draw, record))
        samples.append(record)
    return samples, head


def quiet(draw, number):
    """Rear devices that go quiet for 4 to 7 seconds and longer: from the first
    sample on, before a release and while recharging, up to an application; with
    refused samples that bring a rear; often a board so near that emergency is
    predicted all the way."""
    train = draw_train(draw)
    train.update({"application": draw.between(1000, 12000), "recharge": draw.pick((train["recharge"], draw.between(100, 400)))})
    pipe = Pipe(draw, train["set"])
    for turn in range(draw.between(2, 4)):
        SILENCES[(number + turn) % len(SILENCES)](draw, pipe)
    feed = Feed(train)
    feed.blocks = now_and_then(draw, train)
    head = train["length"] + draw.below(500)
    if draw.chance(85):
        feed.targets = [(head + draw.below(1500), 0)]
    speed = draw.between(1, 5000) if draw.chance(75) else 0
    feed.samples, head = draw_samples(draw, pipe.samples, head, speed)
    feed.profile = [(0, draw.between(-60, 60), draw.pick((0, draw.below(300))), 0), (head + REACH + draw.below(2), 0, 0, 0)]
    return feed.bytes()
