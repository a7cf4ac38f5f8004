"""What the tests of lessons share (02, R-3): feeds by their pipe, and outputs by their states.

A pipe is (time, front, rear) in hundredths, rear None where it is lost.  The train is that of 01's case: a front of 8,700 is 3 psi
down, and equalization is 6,428 by the first application.
"""

from feed_texts import TRAIN
from here import feeds
from second_program import psi

REFUSED = "x 8\n"
FALLING = ((11, 8700), (12, 8625), (13, 8550), (14, 8475), (15, 8400))
# A front that falls at 1 s, and a rear that levels off at 16.
PIPE = ((0, 9000, 9000), (1, 8000, 9000), *((time, 8000, rear) for time, rear in FALLING), (16, 8000, 8375))
STATES = (0, 1, 1, 1, 1, 1, 2, 2)
# A rear that is below equalization, 6,428, at its first point.
SUDDEN = ((0, 9000, 9000), (1, 6000, 9000), (2, 6000, 6000), (3, 6000, 5990), (4, 6000, 5980), (5, 6000, 5978))


def feed(*samples, full=9000):
    """A standing train's, by its pipe."""
    lines = ("sample %d head 5000 speed 0.0 front %s rear %s" % (time, psi(front), "lost" if rear is None else psi(rear))
             for time, front, rear in samples)
    return feeds.make(TRAIN.replace("set 9000", "set %d" % full) + "profile 0\nprofile 40000\n" + "\n".join(lines) + "\n")


def said(*states):
    """An output: by a sample its state, or a refusal."""
    return "".join(state if state == REFUSED else "%d %d 0 0 7\n%d %d 0 0 0\n" % (time, state, time, state)
                   for time, state in enumerate(states)).encode()
