"""A model of document 01's walk, with R-11's average of the grade and R-1's blocks, to find the places that matter ahead of a
train."""

from bisect import bisect
from itertools import accumulate
from math import isqrt

from .records import REACH

STEP_FEET = 16
STEPS = REACH // STEP_FEET


class Sums:
    """The sums of grade x feet and curvature x feet from a profile's first foot to any other."""

    def __init__(self, profile):
        self.starts = [start for start, *_ in profile]
        self.values = [(grade, curve) for _, grade, curve, *_ in profile]
        feet = [end - start for start, end in zip(self.starts, self.starts[1:])]
        self.sums = list(zip(*([0, *accumulate(value * length for value, length in zip(values, feet))]
                               for values in zip(*self.values))))

    def to(self, foot):
        record = bisect(self.starts, foot) - 1
        feet = foot - self.starts[record]
        (grades, curves), (grade, curve) = self.sums[record], self.values[record]
        return grades + grade * feet, curves + curve * feet


def averages(sums, head, blocks):
    """G and C under a train with its head there, by the weights of its blocks."""
    grades, curves = sums.to(head)
    grade_shares = curve_shares = whole = 0
    for length, weight in blocks:
        head -= length
        grades_behind, curves_behind = sums.to(head)
        grade_shares += weight * 100 * (grades - grades_behind) // length
        curve_shares += weight * (curves - curves_behind) // length
        grades, curves, whole = grades_behind, curves_behind, whole + weight
    return grade_shares // whole, curve_shares // whole


class Walk:
    """q at each head of the walk, 16 ft apart.  The brakes are charged as it begins.  Without blocks the train is one."""

    def __init__(self, train, profile, head, speed, blocks=()):
        self.train, self.head, self.speed = train, head, speed
        self.squares = squares = [speed * speed]
        weight, full = train["weight"], train["set"]
        level = 600000 * weight + 20000000 * train["axles"]
        blocks = blocks or [(train["length"], weight)]
        sums, time, square = Sums(profile), 0, speed * speed
        while square > 0 and len(squares) <= STEPS:
            root = isqrt(square)
            grade, curve = averages(sums, head, blocks)
            drop = min(2 * full * time // (7 * train["application"]), full - 5 * full // 7)
            force = train["rated"] * (5 * drop // 2) // 6400
            opposing = (1000000 * force + level + 100 * weight * root + 7 * train["cars"] * square
                        + 2000 * weight * grade + 8000 * weight * curve)
            square -= 1449 * opposing // (605000 * weight)
            time += 12000000 // (11 * root)
            head += STEP_FEET
            squares.append(square)

    def stops(self):
        """Whether it comes to rest before it is cut."""
        return self.squares[-1] <= 0

    def first_crossing(self, limit):
        """Document 01's location for that speed; None for none."""
        return next((self.head + STEP_FEET * step for step, square in enumerate(self.squares) if square <= limit * limit), None)

    def location(self, limit):
        """R-2's: the first head from which the speed stays at or below that one; None for a walk that is cut."""
        above = [step for step, square in enumerate(self.squares) if square > limit * limit]
        return self.head + STEP_FEET * (above[-1] + 1 if above else 0) if self.stops() else None

    def offset(self, limit):
        """Of a target of that speed."""
        fast = self.speed ** 2
        return max(0, -(-self.train["offset"] * (fast - limit ** 2) // fast))

    def uncalled(self, limit):
        """The least place for a target of that speed from which on it is not called for."""
        location, unjudged = self.location(limit), self.head + REACH + 1
        return unjudged if location is None else min(unjudged, location + self.offset(limit))
