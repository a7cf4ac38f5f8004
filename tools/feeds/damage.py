"""Trips with damaged records, and trips that are cut."""

from .binary32 import INFINITE, MINUS
from .records import (CONSIST_BYTES, LAST_FOOT, LAST_TIME, REACH, SAMPLE_BYTES, SAMPLE_WIDTHS, consist_of, pack, split,
                      unpack)
from .trips import make_trip

TOO_FAST = 0x42C80001              # the binary32 after 100.0; no wrong pressure
BAD_READINGS = (0x7FC00000, INFINITE + 1, 0xFFC00000, 0x7FFFFFFF, INFINITE, MINUS + INFINITE,
                0xBF800000, MINUS + 1, 0x807FFFFF, 0x80800000, 0xC2C80000,
                TOO_FAST, 0x43200001, 0x43800000, 0x7F7FFFFF)
BAD_PRESSURES = tuple(bits for bits in BAD_READINGS if bits != TOO_FAST)
ODD_READINGS = (MINUS, 0x00000001, 0x007FFFFF, 0x00800000, 0x3F333333, 0x3C23D70A,
                0x3C23D70B, 0x42C80000, 0x42C7FFFF)


def flip(draw, data):
    """One bit changed."""
    bit = draw.below(8 * len(data))
    return (int.from_bytes(data, "big") ^ 1 << bit).to_bytes(len(data), "big")


def damage_sample(draw, data, train):
    """A sample with something wrong, or at least odd, in it; sometimes two
    things at once, where the lowest number counts."""
    if draw.chance(15):
        return flip(draw, data)
    mark, time, present, spare, head, speed, front, rear = unpack(data, SAMPLE_WIDTHS)
    for _ in range(draw.between(1, 2)):
        which = draw.below(10)
        if which == 0:
            mark = draw.pick((0x00, 0x44, 0x52, 0x54, 0xFF))
        elif which == 1:
            spare = draw.between(1, 127)
        elif which == 2:
            present, rear = 0, draw.pick((MINUS, 1, 0x42B40000, 0x7FC00000))
        elif which == 3:
            speed = draw.pick(BAD_READINGS)
        elif which == 4:
            front = draw.pick(BAD_PRESSURES)
        elif which == 5:
            present, rear = 1, draw.pick(BAD_PRESSURES)
        elif which == 6:
            time = time + draw.pick((-5, -4, -1, 1, 5, 6, 6, 300, -300)) & LAST_TIME
        elif which == 7:
            head = draw.pick((0, train["length"] - 1, LAST_FOOT, (1 << 24) - 1, head + REACH))
        elif which == 8:
            speed = draw.pick(ODD_READINGS)
        else:
            present, rear = 1, draw.pick(ODD_READINGS)
    return pack((mark, time, present, spare, head, speed, front, rear), SAMPLE_WIDTHS)


def damaged(draw, number):
    """Damaged records: single bits flipped, fields out of range, readings that
    are no numbers or below zero or just above the limits, wrong marks and spare
    bits, wrong times, heads outside the profile."""
    where = number % 10
    data = make_trip(draw, draw.between(5, 80), draw.between(0, 8), blocks=where == 1)
    opening, profile, targets, samples = split(data)
    consist, blocks = data[:CONSIST_BYTES], data[CONSIST_BYTES:len(opening) + 1]
    train = consist_of(consist)
    if where in (1, 8):
        # the count, too; mostly it is the only byte of 8
        blocks = flip(draw, blocks)
    elif where == 3:
        consist = flip(draw, consist)
    elif where == 6:
        profile = flip(draw, profile)
    elif where == 9:
        targets = flip(draw, targets)
    share = draw.pick((5, 15, 30))
    out = []
    for place, data in enumerate(samples):
        if draw.chance(share) and place > 0:
            out.append(damage_sample(draw, data, train))
        out.append(data)
    return consist + blocks + profile + targets + b"".join(out)


def cut(draw, number):
    """Feeds cut anywhere."""
    where = number % 9
    data = make_trip(draw, draw.between(1, 30), draw.between(0, 8), blocks=where == 1)
    opening, profile, targets, samples = split(data)
    first = len(opening) + 1
    before = first + len(profile) + len(targets)
    if where == 0:
        end = draw.below(CONSIST_BYTES)
    elif where == 1:
        # the blocks' count missing, or bytes of theirs
        end = draw.pick((CONSIST_BYTES, draw.between(CONSIST_BYTES + 1, first - 1)))
    elif where == 2:
        end = draw.between(first, first + 2)
    elif where == 3:
        end = draw.between(first + 2, first + len(profile))
    elif where == 4:
        end = draw.between(first + len(profile), before)
    elif where == 5:
        end = before + SAMPLE_BYTES * draw.between(0, len(samples))
    else:
        end = draw.between(before, len(data))
    return data[:end]
