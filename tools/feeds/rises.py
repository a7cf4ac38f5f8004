"""What R-2's location changes in the answers to a feed, against document 01's first crossing."""

import re

from .answers import UNLIKE, first_lines
from .binary32 import value_of
from .records import SAMPLE_WIDTHS, TARGET_BYTES, TARGET_WIDTHS, split, unpack

# How a train's speed stands to that of the target that calls, and whether its walk is cut.
RISES = ("above", "below", "cut, above", "cut, below")
DECISION = re.compile(r"(\d+ \d) \d (\d) (\d+)", re.ASCII)
NO_STOP = "16777215"


def differ_by_call(pair):
    """Whether two lines are decisions with the same time, state and stop."""
    one, other = (DECISION.fullmatch(line) for line in pair)
    return bool(one and other) and one.group(1, 3) == other.group(1, 3)


def already_below(feed, place, cause):
    """Whether the target allows no less than the train's speed at the sample of that place.  A wrong program may name what the
    feed has not: IndexError or ValueError."""
    _, _, targets, samples = split(feed)
    limit = unpack(targets[1:][TARGET_BYTES * (cause - 1):TARGET_BYTES * cause], TARGET_WIDTHS)[1]
    return 100 * value_of(unpack(samples[place], SAMPLE_WIDTHS)[5]) <= limit


def rise(feed, output, crossing):
    """How many samples a program answers otherwise than one by the first crossing, judged by the penalty's lines; and what the
    first of them shows, None where the outputs are the same.  They may be any programs', right or not."""
    lines, others = first_lines(output), first_lines(crossing)
    pairs = {place: pair for place, pair in enumerate(zip(lines, others)) if pair[0] != pair[1]}
    if output == crossing:
        return 0, None
    if not pairs or len(lines) != len(others) or not all(differ_by_call(pair) for pair in pairs.values()):
        return len(pairs), UNLIKE
    return len(pairs), first_rise(feed, *min(pairs.items()))


def first_rise(feed, place, pair):
    """What the sample at that place shows, no penalty standing before it.  R-2 calls wherever the first crossing does: its own
    call is the only one, or by an earlier target."""
    (_, cause, stop), (_, other, _) = (DECISION.fullmatch(line).groups() for line in pair)
    if cause == "0" or "0" < other <= cause:
        return UNLIKE
    try:
        return RISES[2 * (stop == NO_STOP) + already_below(feed, place, int(cause))]
    except (IndexError, ValueError):
        return UNLIKE
