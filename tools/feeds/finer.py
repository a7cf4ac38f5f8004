"""What R-11's finer averages change in the answers to a feed, against averages in hundredths of a percent; and descents so
slight that only rounding down makes them."""

from .answers import DECISION, UNLIKE, differences, places
from .records import block_count

# What a feed shows: the first of these that any of its samples does.  Neither: they part by cause or emergency alone.
FINER = ("not called", "nearer", "neither")


def grade_feet(profile, rear, head):
    """The sum of grade x feet from rear to head."""
    return sum(grade * max(0, min(end, head) - max(start, rear))
               for (start, grade, *_), (end, *_) in zip(profile, profile[1:]))


def slight_descents(feed, output):
    """How many of a feed's samples were accepted with the train moving and its average, as the walk begins, between -1 and 0 in
    ten-thousandths of a percent, neither included.  None of a train with two blocks or more: each share is rounded there.  The
    output may be any program's, right or not."""
    if block_count(feed) > 1:
        return 0
    return sum(speed > 0 and rear - head < 100 * grade_feet(profile, rear, head) < 0
               for profile, rear, head, speed in places(feed, output, DECISION))


def show(calls, farther):
    """What a sample shows that the two answer otherwise.  Averages in hundredths are never further up: the stop is no nearer, and
    what calls the penalty calls it there too.  Emergency waits on each program's own penalty."""
    if calls > 0 or farther > 0:
        return UNLIKE
    if calls < 0:
        return "not called"
    return "nearer" if farther else "neither"


def finer(output, coarse):
    """How many samples a program answers otherwise than one by averages in hundredths, and what they show."""
    return differences(output, coarse, show, FINER)
