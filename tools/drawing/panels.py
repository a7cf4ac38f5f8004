"""The parts of the picture: locations, speed, blocks, brake states, refused samples, the calls, the keys."""

from .looks import (BAND, BLOCKS, CALLS, CLOCK, EMERGENCY, FAINT, FAST, HEAD, INK, KEY, LABEL_GAP, LEFT, LOST, PENALTY, REFUSED,
                    RIGHT, SPEED, STATE_KEY, STATES, STOP, TARGET, TONS, TRAIN, WHERE)
from .scale import Scale, location_range, spread
from .svg import show


def draw_frame(picture, scale, times, name, most):
    """A panel with its ticks; the name is the axis'."""
    low, high = scale.first, scale.last
    for tick in scale.ticks(most):
        y = scale.at(tick)
        picture.line(LEFT, y, RIGHT, y, FAINT)
        picture.text(LEFT - 8, y + 4.5, "{:,}".format(tick), "end", class_="tick")
    for tick in times.ticks(12):
        x = times.at(tick)
        picture.line(x, high, x, low, FAINT)
    picture.add("rect", x=LEFT, y=high, width=RIGHT - LEFT, height=low - high, fill="none",
                stroke="#999999")
    middle = (low + high) / 2
    picture.text(22, middle, name, "middle", transform="rotate(-90 22 %s)" % show(middle))


def draw_targets(picture, run, scale):
    """A dashed line and a label each; one outside the panel has a label alone, below."""
    inside = [(number, location, speed) for number, (location, speed) in enumerate(run.targets, 1)
              if scale.low <= location <= scale.high]
    ys = [scale.at(location) for _, location, _ in inside]
    for (number, location, speed), y, label in zip(
            inside, ys, spread(ys, scale.last + 6, scale.first - 2)):
        picture.line(LEFT, y, RIGHT, y, TARGET, 1.5, stroke_dasharray="7 4", class_="target",
                     data_place=number)
        picture.line(RIGHT, y, RIGHT + 12, label, TARGET)
        limit = "{:g} mph".format(speed / 100) if speed else "stop"
        picture.text(RIGHT + 16, label + 4.5, "%d: %s ft, %s" % (
            number, "{:,}".format(location), limit), fill=TARGET)
    missing = len(run.targets) - len(inside)
    if missing:
        picture.text(RIGHT + 16, scale.first + LABEL_GAP + 4,
                     "%d more, out of sight" % missing, fill=TARGET, class_="unseen")


def draw_stops(picture, stops, times, scale, colour, name, top):
    """A line through the stops, with a mark near the top where there is none."""
    stretch = []
    for time, stop in stops + [(None, None)]:
        if stop is not None:
            stretch.append((times.at(time), scale.at(stop)))
            continue
        if stretch:
            picture.path(stretch * 2 if len(stretch) == 1 else stretch, colour, class_=name,
                         stroke_linecap="round")
        stretch = []
        if time is not None:
            picture.add("path", d="M%s,%s l4,-8 l4,8 z" % (show(times.at(time) - 4), show(top)),
                        fill=colour, class_="no-" + name)


def draw_locations(picture, run, times):
    scale = Scale(*location_range(run), WHERE[1], WHERE[0])
    draw_frame(picture, scale, times, "location, ft", 6)
    draw_targets(picture, run, scale)
    draw_stops(picture, run.stops(), times, scale, STOP, "stop", WHERE[0] + 10)
    draw_stops(picture, run.emergency_stops(), times, scale, EMERGENCY, "emergency-stop", WHERE[0] + 20)
    picture.path([(times.at(sample.time), scale.at(sample.head)) for sample in run.accepted],
                 HEAD, class_="head")


def draw_speeds(picture, run, times):
    fastest = max(sample.speed for sample in run.accepted)
    scale = Scale(0, max(5, fastest * 1.08), FAST[1], FAST[0])
    draw_frame(picture, scale, times, "speed, mph", 5)
    picture.path([(times.at(sample.time), scale.at(sample.speed)) for sample in run.accepted],
                 SPEED, class_="speed")


def draw_blocks(picture, run):
    """The train, if it has blocks, each as high as its tons a foot; the dashed line is the weight spread evenly."""
    if not run.blocks:
        return
    length, weight = run.consist["length"], run.consist["weight"]
    heaviest, even = max(tons / feet for feet, tons in run.blocks), weight / length
    across, high = Scale(0, length, *reversed(TRAIN)), lambda tons: TONS[0] + (TONS[1] - TONS[0]) * tons / heaviest
    behind = 0
    for place, (feet, tons) in enumerate(run.blocks, 1):
        begin, end, top = across.at(behind), across.at(behind + feet), high(tons / feet)
        # a foot is to be seen, too
        picture.add("rect", x=end, y=top, width=max(0.5, begin - end), height=TONS[0] - top, fill=BLOCKS[place % 2],
                    class_="block", data_place=place)
        behind += feet
    picture.line(TRAIN[0], high(even), TRAIN[1], high(even), INK, stroke_dasharray="3 3", class_="even")
    picture.line(TRAIN[0], TONS[0], TRAIN[1], TONS[0], INK)
    picture.text(TRAIN[0], TONS[1] - 26, "%d block%s, tons a foot:" % (len(run.blocks), "s" * (len(run.blocks) > 1)))
    picture.text(TRAIN[0], TONS[1] - 9, "{:,.2f} at most, {:,.2f} even".format(heaviest, even), class_="tick")
    picture.text(TRAIN[0], TONS[0] + 16, "rear")
    picture.text(TRAIN[1], TONS[0] + 16, "head", "end")


def draw_band(picture, run, times):
    """The brake states, and the clock below."""
    for state, begin, end in run.states():
        picture.add("rect", x=times.at(begin), y=BAND[0], width=times.at(end) - times.at(begin),
                    height=BAND[1] - BAND[0], fill=STATES[state][1], class_="state",
                    data_state=state)
    picture.text(LEFT - 8, BAND[1] - 6, "brakes", "end")
    for tick in times.ticks(12):
        x = times.at(tick)
        picture.line(x, CLOCK - 6, x, CLOCK - 1, INK)
        picture.text(x, CLOCK + 13, "{:,}".format(tick), "middle", class_="tick")
    picture.line(LEFT, CLOCK - 6, RIGHT, CLOCK - 6, INK)
    picture.text((LEFT + RIGHT) / 2, CLOCK + 32, "time, s", "middle")


def draw_refused(picture, run, times):
    """A cross each, and the numbers at each time; those that would run into others are left out."""
    free = 0.0
    for time in sorted({sample.time for sample in run.refused}):
        x = times.at(time)
        numbers = [sample.number for sample in run.refused if sample.time == time]
        for number in numbers:
            picture.cross(x, LOST - 4, class_="refused", data_number=number, data_time=time)
        words = ",".join("%d" % number for number in sorted(set(numbers)))
        if x >= free:
            picture.text(x + 6, LOST + 1, words, fill=REFUSED, font_size=12)
            free = x + 20 + 7 * len(words)
    if run.refused:
        picture.text(LEFT - 8, LOST + 1, "refused", "end", fill=REFUSED)


def draw_call(picture, times, call, name, colour, top):
    """A line at the sample that called, down to the brake states, and its label at that height."""
    if call is None:
        return
    x = times.at(call.time)
    picture.line(x, WHERE[0] - 8, x, BAND[1], colour, 2, class_=name, data_time=call.time, data_cause=call.cause)
    anchor = "start" if x < LEFT + 120 else "end" if x > RIGHT - 120 else "middle"
    picture.text(x, top, "%s at %s s, target %d" % (name, "{:,}".format(call.time), call.cause), anchor, fill=colour)


def draw_calls(picture, run, times):
    """Emergency's line first: where both are called at once, the penalty's stands over it, and its label tells."""
    draw_call(picture, times, run.emergency_call(), "emergency", EMERGENCY, CALLS[1])
    draw_call(picture, times, run.call(), "penalty", PENALTY, CALLS[0])


def draw_keys(picture, run):
    """The title and both legends: the lines above, the states that occur below."""
    picture.text(LEFT, 26, "{cars} cars, {weight:,} tons, {length:,} ft".format(**run.consist),
                 font_size=16)
    x = LEFT
    lines = [("head", HEAD, ""), ("predicted stop", STOP, "")]
    if run.emergency_stops():
        lines.append(("emergency stop", EMERGENCY, ""))
    if run.targets:
        lines.append(("target", TARGET, "7 4"))
    for name, colour, dashes in lines:
        picture.line(x, KEY - 4, x + 26, KEY - 4, colour, 2, stroke_dasharray=dashes or "none")
        picture.text(x + 32, KEY, name)
        x += 62 + 7 * len(name)
    if any(stop is None for _, stop in run.stops() + run.emergency_stops()):
        picture.add("path", d="M%d,%d l4,-8 l4,8 z" % (x, KEY), fill=STOP)
        picture.text(x + 14, KEY, "no stop within 32,768 ft")
        x += 190
    if run.refused:
        picture.cross(x + 4, KEY - 4)
        picture.text(x + 14, KEY, "refused, with its number")
    x = LEFT
    for state in sorted({sample.state for sample in run.accepted}):
        name, colour = STATES[state]
        picture.add("rect", x=x, y=STATE_KEY - 11, width=16, height=13, fill=colour)
        picture.text(x + 22, STATE_KEY, "%d %s" % (state, name), class_="state-key")
        x += 52 + 7 * len(name)
