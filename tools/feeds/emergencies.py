"""Boards that are run past: emergency called behind the penalty."""

from .loads import now_and_then
from .records import REACH, Feed
from .trains import SURE, draw_profile, draw_train, sample

STATES, PLACES = 6, 8
SLOW = 300                         # hundredths of a mph: a stop within 1,000 ft, unless it is downhill


def draw_quick(draw):
    """A train whose brakes go from state to state within seconds; often with an offset by which the penalty comes early."""
    train = draw_train(draw)
    train.update({"application": draw.between(1000, 8000), "recharge": draw.between(800, 1000),
                  "rated": draw.pick((0, train["rated"], train["rated"], train["rated"])),
                  "offset": draw.pick((0, train["offset"], draw.between(0, 4000), 4000))})
    return train


def draw_rounds(draw, train, rounds):
    """Seconds since the last sample, front, rear and the brake state that follows, so many times through all six states: a
    service application, held, an emergency out of it, held, a release and the recharge."""
    full = train["set"]
    for _ in range(rounds):
        front = full - draw.between(500, 1200)
        low = front - draw.between(1500, 3000)
        rise = low + draw.between(101, 900)
        yield from ((draw.between(1, 5), full, draw_rear(draw, full), 0),
                    (1, front, draw_rear(draw, front), 1),
                    (5, front, draw_rear(draw, front), 2),
                    (1, low, draw_rear(draw, low), 3),
                    (5, low, draw_rear(draw, low), None),
                    (5, low, draw_rear(draw, low), 4),
                    (1, rise, draw_rear(draw, rise), 5),
                    (5, full, full, None),
                    (draw.between(1, 5), full, full, 0))


def draw_rear(draw, front):
    """Mostly near the front; sometimes far below or above it, or lost."""
    return draw.pick((front, max(0, front - draw.between(0, 600)), max(0, front - draw.between(0, 9000)),
                      min(16000, front + draw.between(0, 500)), None))


def draw_boards(draw, before, board, place):
    """A list whose board at that place is the first ahead of a train that comes from `before`: what stands before it in the list
    lies behind the train, or has a speed and may call the penalty."""
    targets = {}
    while len(targets) < place - 1:
        ahead = draw.chance(50)
        location = draw.between(before + 1, board - 1) if ahead else draw.between(0, before - 1)
        targets[location] = draw.between(1, draw.pick((SLOW, 10000))) if ahead else draw.pick((0, draw.between(0, 10000)))
    targets[board] = 0
    location = board
    while len(targets) < PLACES and draw.chance(60):
        location += draw.between(1, 4000)
        targets[location] = draw.pick((0, draw.between(0, 10000)))
    return sorted(targets.items())


def emergency(draw, number):
    """Boards run past: a slow train is suddenly at a board and fast, so that
    emergency is called, with the penalty or after it, by the target at each
    place and in each brake state; then it stands through all six states."""
    place, state = number % PLACES + 1, (number - number // 24) % STATES
    train = draw_quick(draw)
    feed = Feed(train)
    feed.blocks = now_and_then(draw, train)
    first = draw.below(3000)
    before = first + train["length"] + draw.between(1, 500)
    board = before + draw.between(1100, 6000)
    feed.targets = draw_boards(draw, before, board, place)
    time, head, called = draw.below(10000), before, False
    for wait, front, rear, follows in draw_rounds(draw, train, 2):
        time += wait
        if not called and follows == state:
            called, head, speed = True, board - draw.below(16), draw.between(1, 4000)
        elif called:
            head, speed = head + draw.below(60), draw.pick((0, draw.between(0, 4000)))
        else:
            speed = draw.between(0, SLOW)
        feed.samples.append(sample(draw, time, head, speed, front, rear, SURE))
    # not downhill before the board: a slow train stops short of it
    last = head + REACH + draw.below(1000)
    beyond = draw_profile(draw, board + 1, last, draw.pick((0, 50, 200)), draw.between(2, 8))
    feed.profile = [(first, draw.below(60), draw.pick((0, draw.below(300))), 0)] + beyond
    return feed.bytes()
