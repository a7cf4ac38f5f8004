"""What the tests of learning share (02, R-3): sessions that hear a pipe, and pipes that teach.

A pipe is (time, front, rear) in h, rear None where it is lost.  The train is that of 01's case: set 9,000, so that a front of
8,700 is 3 psi off, E 6,428 by the first application, and 30,000 ms typed.
"""

import ctypes

import built
from here import feeds
from second_program import Learning, Session, made

LEVEL = "profile 0\nprofile 60000"
WAITING, FRONT_FELL, REAR_KNOWN, REAR_FALLS, DONE = range(5)
NO_SUMS = (0, 0, 0, 0, 0)
NOTHING = (0, 0, 0, 0, NO_SUMS)


def sums_of(points):
    return (len(points), sum(t for t, _ in points), sum(t * t for t, _ in points), sum(p for _, p in points),
            sum(t * p for t, p in points))


class Trip:
    """A session that hears a pipe, its train standing at 5,000 unless it is told otherwise."""

    CONSIST, PROFILE = feeds.split(made([], profile=LEVEL))[:2]

    def __init__(self, *pipe, build=(), choice=0):
        self.core = built.core(*build)
        self.session = Session()
        self.open(choice=choice)
        self.hear(*pipe)

    def open(self, consist=CONSIST[:16], choice=0):
        return self.core.second_open_with(ctypes.byref(self.session), consist, ctypes.c_size_t(len(consist)), choice)

    def judge(self, time, front, rear, head=5000, speed=0, room=16, mark=0x53):
        # half a hundredth more, which is rounded down
        readings = [None if one is None else feeds.nearest_bits(2 * one + 1, 200) for one in (front, rear)]
        sample = bytes([mark]) + feeds.pack_sample(time, head, speed, *readings)[1:]
        return self.core.second_judge(
            ctypes.byref(self.session), sample, ctypes.c_size_t(20), self.PROFILE[2:], ctypes.c_size_t(12), b"",
            ctypes.c_size_t(0), ctypes.create_string_buffer(16), ctypes.c_size_t(room))

    def hear(self, *pipe):
        for one in pipe:
            if self.judge(*one) != 0:
                raise AssertionError("%r is refused" % (one,))
        return self

    @property
    def time(self):
        """The application time in force."""
        return self.session.train.application

    @property
    def learning(self):
        """Stage, when the front fell, t_INIT, the last t, p0 or the last p, and the sums."""
        call = self.core.second_learning_of
        call.restype = Learning
        told = call(ctypes.byref(self.session.learner))
        return told.stage, told.fell_at, told.t_init, told.last_t, told.pressure, tuple(
            getattr(told.sums, name) for name in ("n", "t", "tt", "p", "tp"))

    @property
    def stage(self):
        return self.learning[0]


def until(time, pipe):
    """The pipe goes on unchanged, so that a sample at that time is not refused."""
    while time - pipe[-1][0] > 5:
        pipe.append((pipe[-1][0] + 5, *pipe[-1][1:]))
    return pipe


def fall(points, t_init=10, front=8700, start=0, lost=0):
    """A front that falls a second after `start`, and a rear that falls by points of (t, p), or is lost for so long at first."""
    pipe = [(start, 9000, 9000), (start + 1, front, None if lost else 9000)]
    if lost:
        pipe.append((start + 1 + lost, front, 9000))
    for t, p in points:
        time = start + 1 + t_init + t
        until(time, pipe).append((time, front, p))
    return pipe


# 100 h a second from 8,700: (8,700 - 6,428) / (110 + 9.33) is 19.0396.. s, so that 30,040 ms are learnt at the fourth.
SHORT = ((0, 8700), (1, 8600), (2, 8500), (3, 8490))
