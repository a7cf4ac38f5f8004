"""What the kinds of random feeds draw alike: trains, profiles, targets, samples."""

from .binary32 import nearest_bits
from .records import pack_sample

# How a reading is written.
SURE, NEAREST, TENTHS = range(3)


def reading(draw, hundredths, style, up):
    """Bits of a reading.  SURE: it surely counts as that many hundredths (up: for a speed, which is
    rounded up); NEAREST: the binary32 nearest to the decimal, which may count as one off; TENTHS: a
    whole tenth."""
    if hundredths <= 0:
        return 0
    if style == NEAREST:
        return nearest_bits(hundredths, 100)
    if style == TENTHS:
        return nearest_bits(hundredths // 10, 10)
    spread = draw.between(2, 998)
    return nearest_bits(1000 * hundredths + (spread - 1000 if up else spread), 100000)


def sample(draw, time, head, speed, front, rear, style):
    """A sample from hundredths; rear is None where it is lost."""
    def pressure(hundredths):
        return nearest_bits(160) if hundredths >= 16000 \
            else reading(draw, hundredths, style, False)

    return pack_sample(
        time, head,
        nearest_bits(100) if speed >= 10000 else reading(draw, speed, style, True),
        pressure(front), None if rear is None else pressure(rear))


def draw_count(draw):
    """How many samples a feed has: from none to some hundreds."""
    share = draw.below(100)
    if share < 2:
        return 0
    if share < 10:
        return draw.between(1, 9)
    if share < 70:
        return draw.between(10, 60)
    if share < 95:
        return draw.between(61, 120)
    return draw.between(121, 400)


def draw_train(draw):
    """A freight train as they run."""
    cars = draw.between(3, 40) if draw.chance(60) else draw.between(40, 150)
    weight = min(30000, cars * draw.between(28, 140))
    # A full service application gives about 1 to 10 hundredths of the weight.
    rated = min(10000000, 20 * weight * draw.between(1, 10))
    return {
        "cars": cars,
        "axles": min(2000, 4 * cars + 6 * draw.between(0, 4)),
        "weight": weight,
        "length": max(50, min(20000, cars * draw.between(40, 75) + draw.between(0, 60))),
        "rated": rated,
        "application": draw.between(5000, 60000) if draw.chance(80)
                       else draw.between(1000, 240000),
        "recharge": draw.between(5, 120),
        "set": 9000 if draw.chance(50) else draw.between(7000, 11000),
        "offset": draw.pick((0, 100, 200, 500, 1000)) if draw.chance(60)
                  else draw.between(0, 4000),
    }


def draw_records(draw):
    """How many records a profile has."""
    if draw.chance(3):
        return draw.between(100, 257)
    return draw.between(2, 30)


def draw_profile(draw, first, last, steepest, records):
    """About that many records from first to last (last included)."""
    starts = {first}
    for _ in range(records - 2):
        starts.add(draw.between(first, last - 1))
    profile = []
    for start in sorted(starts):
        grade = draw.between(-steepest, steepest) if draw.chance(70) else 0
        curve = draw.between(0, 600) if draw.chance(30) else 0
        profile.append((start, grade, curve, 0))
    return profile + [(last, 0, 0, 0)]


def draw_targets(draw, head, last, fast, place):
    """A list where that place is the first to call: those before it lie behind
    the train or allow more than its speed.  Place 0 is an empty list."""
    if place == 0:
        return []
    near = draw.between(head + 500, max(head + 600, last))
    locations = set()
    while len(locations) < place - 1:
        locations.add(draw.between(max(0, head - 3000), near - 1))
    targets = [(location, min(10000, fast + draw.between(0, 3000)))
               for location in sorted(locations)]
    targets.append((near, draw.pick((0, 0, fast // 4, fast // 2, draw.between(0, fast)))))
    while len(targets) < 8 and draw.chance(60):
        location = targets[-1][0] + draw.between(1, 6000)
        targets.append((location, draw.pick((0, draw.between(0, 10000), fast))))
    return targets
