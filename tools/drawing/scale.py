"""Where numbers are on the picture's axes."""

import math

from .looks import LABEL_GAP


class Scale:
    """Numbers from low to high on pixels from first to last."""

    def __init__(self, low, high, first, last):
        self.low, self.high = low, max(high, low + 1)
        self.first, self.last = first, last

    def at(self, number):
        share = (number - self.low) / (self.high - self.low)
        return self.first + share * (self.last - self.first)

    def ticks(self, most):
        """Round numbers inside, at most that many steps."""
        step = 10 ** math.floor(math.log10((self.high - self.low) / most))
        for factor in (1, 2, 5, 10):
            if (self.high - self.low) / (step * factor) <= most:
                break
        step = max(1, round(step * factor))
        return range(math.ceil(self.low / step) * step, math.floor(self.high) + 1, step)


def location_range(run):
    """From the lowest head to the highest stop, and the targets that are not far beyond."""
    places = [sample.head for sample in run.accepted]
    places += [stop for _, stop in run.stops() + run.emergency_stops() if stop is not None]
    low, high = min(places), max(places)
    causes = [call.cause for call in (run.call(), run.emergency_call()) if call]
    for number, (location, _) in enumerate(run.targets, 1):
        near = low <= location <= high + (high - low) / 2 + 200
        if near or number in causes:
            low, high = min(low, location), max(high, location)
    pad = max(20, (high - low) / 20)
    return low - pad, high + pad


def spread(places, first, last):
    """The places, moved apart so that a label fits at each and all stay from first to last."""
    order = sorted(range(len(places)), key=lambda i: places[i])
    moved = list(places)
    lowest = first
    for i in order:
        moved[i] = max(moved[i], lowest)
        lowest = moved[i] + LABEL_GAP
    highest = last
    for i in reversed(order):
        moved[i] = min(moved[i], highest)
        highest = moved[i] - LABEL_GAP
    return moved
