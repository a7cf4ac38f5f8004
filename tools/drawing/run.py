"""A run: a feed's samples beside the lines printed for them."""

import feeds

from .looks import STATES

NO_STOP = 16777215


class Unfit(Exception):
    """Why there is no picture."""


class Decision:
    """What a line says: whether it calls, why, and the stop, None for none."""

    def __init__(self, line):
        self.time, self.state, self.called, self.cause, stop = (int(word) for word in line.split(" "))
        self.stop = None if stop == NO_STOP else stop


class Accepted:
    """A sample and what was decided at it.  `emergency` is None before the penalty: nothing is predicted then."""

    def __init__(self, sample, lines):
        _, self.time, _, _, self.head, speed, _, _ = feeds.unpack(sample, feeds.SAMPLE_WIDTHS)
        self.speed = float(feeds.value_of(speed))
        if None in lines:
            raise Unfit("the lines end after the first of a sample's two")
        self.penalty, emergency = (Decision(line) for line in lines)
        self.state, self.stop = self.penalty.state, self.penalty.stop
        if {self.penalty.time, emergency.time} != {self.time} or emergency.state != self.state or self.state >= len(STATES):
            raise Unfit("the lines are not this feed's: %d where the sample has time %d"
                        % (self.penalty.time, self.time))
        self.emergency = emergency if self.penalty.called else None


class Refused:
    """A refused sample's number, and the time to mark it at: its own may be wrong."""

    def __init__(self, sample, number, last):
        self.number = number
        whole = len(sample) == feeds.SAMPLE_BYTES
        own = feeds.unpack(sample, feeds.SAMPLE_WIDTHS)[1] if whole else last
        self.time = own if last <= own <= last + 5 else last


class Run:
    """The consist, its blocks, the targets, and the samples of both kinds."""

    def __init__(self, data, lines):
        self.consist = feeds.consist_of(data)
        self.blocks, self.targets, samples = split(data)
        answers = feeds.answers(lines)
        if len(answers) != len(samples):
            raise Unfit("there are lines for %d samples, and the feed has %d" % (len(answers), len(samples)))
        self.accepted, self.refused = [], []
        waiting = []                        # refused before the first accepted one
        for sample, pair in zip(samples, answers):
            words = pair[0].split(" ")
            if words[0] == "x":
                waiting.append((sample, int(words[1])))
            else:
                self.accepted.append(Accepted(sample, pair))
            if self.accepted:
                last = self.accepted[-1].time
                self.refused += [Refused(bad, number, last) for bad, number in waiting]
                waiting = []
        if not self.accepted:
            raise Unfit("no sample was accepted")

    def call(self):
        """The decision that called the penalty; None without one."""
        return next((sample.penalty for sample in self.accepted if sample.penalty.called), None)

    def emergency_call(self):
        """The same of emergency."""
        return next((sample.emergency for sample in self.accepted if sample.emergency and sample.emergency.called), None)

    def stops(self):
        """(time, stop) of each accepted sample by the penalty's air."""
        return [(sample.time, sample.stop) for sample in self.accepted]

    def emergency_stops(self):
        """The same by emergency air, from the penalty on."""
        return [(sample.time, sample.emergency.stop) for sample in self.accepted if sample.emergency]

    def states(self):
        """(state, from, to) for each stretch of one brake state."""
        stretches = []
        for sample in self.accepted:
            if stretches and stretches[-1][0] == sample.state:
                continue
            if stretches:
                stretches[-1][2] = sample.time
            stretches.append([sample.state, sample.time, None])
        stretches[-1][2] = self.end()
        return stretches

    def end(self):
        """The last decision holds for a second at least."""
        return self.accepted[-1].time + 1


def split(data):
    """The blocks as (length, weight), the targets as (location, speed) and the samples' bytes; the last may be short."""
    try:
        consist, _, targets, samples = feeds.split(data)
    except IndexError:
        raise Unfit("the feed has no whole profile") from None
    blocks = [(length, weight) for length, weight, _ in feeds.blocks_of(consist)]
    if not all(length for length, _ in blocks):
        raise Unfit("the feed has a block of no length")
    size = feeds.TARGET_BYTES
    if len(targets) <= size * targets[0]:
        raise Unfit("the feed has no whole list of targets")
    targets = [tuple(feeds.unpack(targets[place:place + size], feeds.TARGET_WIDTHS)) for place in range(1, len(targets), size)]
    return blocks, targets, samples
