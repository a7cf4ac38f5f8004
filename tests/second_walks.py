"""What the tests of the second program's walks share: its averages and its walks over a ground, and the same from the papers.

A ground is records of start and grade, or of start, grade and curvature, as a profile has them: grades in hundredths of a
percent.  The last record only ends it.
"""

import ctypes
import math

from built import core
from second_program import Air, Profile, Sample, TRAIN, train_of, whole

NONE = 16777215


def profile_of(ground):
    profile = Profile(records=len(ground))
    for i, (start, grade, *curve) in enumerate(ground):
        profile.start[i], profile.grade[i], profile.curve[i] = start, grade, *(curve or [0])
    return profile


class Ground(ctypes.Structure):
    """Averages as averages.c has them."""

    _fields_ = [(name, ctypes.c_int64) for name in ("grade", "curve")]


def averages(ground, head, length, *build, blocks=(), weight=None):
    """G and C under a train of that length, its weight spread evenly or by blocks."""
    call = core(*build).second_averages
    call.restype = Ground
    weight = sum(tons for _, tons in blocks) if weight is None else weight
    under = call(ctypes.byref(profile_of(ground)), *whole(head),
                 ctypes.byref(train_of(blocks, length=length, weight=weight)))
    return under.grade, under.curve


def walk(limit, speed, ground, *build, head=5000, **train):
    """Where second_walk ends for that limit, with A 9,000 and B 0."""
    return core(*build).second_walk(
        ctypes.byref(train_of(**dict(TRAIN, **train))), ctypes.byref(Air(a=9000)),
        ctypes.byref(Sample(head=head, speed=speed)), ctypes.byref(profile_of(ground)), *whole(limit))


def average(ground, head, length, units=100):
    """G by 02, R-11: 100 x the sum of grade x feet / the length, down.  With 1 in the place of 100, by document 01."""
    feet = sum(grade * max(0, min(end, head) - max(start, head - length))
               for (start, grade), (end, _) in zip(ground, ground[1:]))
    return units * feet // length


def model(speed, ground, head=5000, length=600, rated=200000, units=100):
    """Heads and q's of a walk, of 01's train but for length and rated, with A 9,000 and B 0."""
    q, t, heads = speed * speed, 0, [(head, speed * speed)]
    while q > 0 and len(heads) <= 2048:
        s = math.isqrt(q)
        # 2 x 9,000 t / (7 x 30,000), and not more than 9,000 - 6,428
        force = rated * (5 * min(18000 * t // 210000, 2572) // 2) // 6400
        pull = 200000000 // units * average(ground, head, length, units)
        q -= 1449 * (1000000 * force + 1400000000 + 100000 * s + 70 * q + pull) // 605000000
        t += 12000000 // (11 * s)
        head += 16
        heads.append((head, q))
    return heads


def stays(heads, limit):
    """R-2's location, by its letter."""
    if heads[-1][1] > 0:
        return NONE
    return next(head for i, (head, _) in enumerate(heads) if max(q for _, q in heads[i:]) <= limit * limit)


def crosses(heads, limit):
    """Document 01's."""
    return next((head for head, q in heads if q <= limit * limit), NONE)


def rolling(draw):
    """Ground up and down, and a train before it: speed, ground, and length and rated force."""
    lean = draw.choice((-60, -10, 30))
    ground = [(0, lean)]
    while ground[-1][0] < 40000:
        ground.append((ground[-1][0] + draw.choice((300, 700, 1500)), lean + draw.randint(-200, 200)))
    ground[-1] = (60000, 0)
    more = {"length": draw.choice((64, 600, 3000)), "rated": draw.choice((0, 10000, 20000, 200000))}
    return draw.choice((300, 1000, 2500, 4000)), ground, more
