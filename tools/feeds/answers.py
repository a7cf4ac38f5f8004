"""What a session program prints, sample by sample.  Output that is bytes may be any program's, right or not."""

import re
from collections import namedtuple

from .binary32 import value_of
from .records import SAMPLE_BYTES, SAMPLE_WIDTHS, consist_of, profile_of, split, unpack

# Of two outputs: they part in something that the rule in question does not change.
UNLIKE = "unlike"
# Time and state, bit and cause, stop; no stop is the greatest number.
DECISION = re.compile(r"(\d{1,8} [0-5]) (0 0|1 [1-8]) (\d{1,8})", re.ASCII)
# What a feed shows of a rule that moves stops and calls either way: the first of these that any of its samples does.  Neither:
# the two part by state, cause or emergency alone.
EITHER_WAY = ("call more", "call less", "farther", "nearer", "neither")

# An accepted sample: its place in the feed, the brake state that was answered, its time, and its pressures as they count; rear is
# None where it is lost.
Accepted = namedtuple("Accepted", "place state time front rear")


def answers(lines):
    """A pair for each sample: its two lines, the penalty's and emergency's, or the line of its refusal
    and None.  Where the lines end early, the last pair has None, too."""
    pairs, left = [], list(lines)
    while left:
        first = left.pop(0)
        pairs.append((first, None if first.startswith("x") or not left else left.pop(0)))
    return pairs


def answers_of(output):
    """The pairs of an output."""
    return answers(output.decode("ascii", "replace").splitlines())


def first_lines(output):
    """The penalty's line of each sample, or its refusal's."""
    return [first for first, _ in answers_of(output)]


def accepted(feed, output):
    """Each of a feed's accepted samples.  The output may be any program's, right or not."""
    try:
        samples = split(feed)[3]
    except IndexError:             # it ends before its samples
        return
    for place, (line, record) in enumerate(zip(first_lines(output), samples)):
        decision = DECISION.fullmatch(line)
        if decision and len(record) == SAMPLE_BYTES:
            _, time, present, _, _, _, front, rear = unpack(record, SAMPLE_WIDTHS)
            yield Accepted(place, decision[1][-1], time, hundredths(front), hundredths(rear) if present else None)


def hundredths(bits):
    """A pressure as it counts."""
    return 100 * value_of(bits) // 1


def time_alone(same):
    """Of a decision's time and state, the time."""
    return same.split()[0]


def parted(pair, other, same=str):
    """How much two answers to a sample part: 1 where the first alone calls the penalty, -1 where the other alone does, else 0;
    and by how many feet the first's stop is farther.  None where they are not decisions that have the same of time and state."""
    lines = [DECISION.fullmatch(line or "") for line in (*pair, *other)]
    if not all(lines):
        return None
    penalty, emergency, other_penalty, other_emergency = (line.groups() for line in lines)
    if same(penalty[0]) != same(other_penalty[0]) or same(emergency[0]) != same(other_emergency[0]):
        return None
    calls, other_calls = (decision[1] != "0 0" for decision in (penalty, other_penalty))
    return calls - other_calls, int(penalty[2]) - int(other_penalty[2])


def either_way(calls, farther):
    """What a sample shows that the two answer otherwise: a call comes or does not, a stop is nearer or farther."""
    if calls:
        return "call more" if calls > 0 else "call less"
    if farther:
        return "farther" if farther > 0 else "nearer"
    return "neither"


def differences(output, other, show, shows, same=str):
    """How many samples another program answers otherwise, by any line; and what they show, None where the outputs are the same:
    the first of `shows` that `show` makes of what any of them parts by.  They may be any programs', right or not."""
    if output == other:
        return 0, None
    pairs, others = answers_of(output), answers_of(other)
    found = [parted(*both, same) for both in zip(pairs, others) if both[0] != both[1]]
    if not found or None in found or len(pairs) != len(others):
        return len(found), UNLIKE
    shown = {show(*one) for one in found}
    return len(found), next(one for one in (UNLIKE, *shows) if one in shown)


def places(feed, output, like):
    """The profile, the train's rear and head and its speed in mph, for each whole sample of which the first line is like that."""
    try:
        consist, profile, _, samples = split(feed)
    except IndexError:             # it ends before its samples
        return
    length, profile = consist_of(consist)["length"], profile_of(profile)
    for line, record in zip(first_lines(output), samples):
        if like.fullmatch(line) and len(record) == SAMPLE_BYTES:
            _, _, _, _, head, speed, _, _ = unpack(record, SAMPLE_WIDTHS)
            yield profile, head - length, head, value_of(speed)
