"""What R-7's choice changes in the answers to a feed: where a lost rear counts otherwise by default than under the everlasting
choice; and the silences that a comparison meets."""

from collections import Counter, namedtuple

from .answers import DECISION, UNLIKE, accepted, answers_of

KEPT_FOR = 5                       # seconds
CHARGING = "5"                     # the brake state
# What the default does with a lost rear.  Of a feed: at the first sample that the choices answer otherwise, or at the last one
# before it at which they count the rear otherwise.
KEPT, GIVEN_UP, NONE_YET = "kept", "given up", "none yet"
CHOICES = (GIVEN_UP, NONE_YET)

# Of a lost rear: its sample's place, what the default does, seconds since it was heard (None for never), whether the choices count
# it as different values, and the brake state that was answered.
Silence = namedtuple("Silence", "place does seconds otherwise state")


class Rear:
    """What is held of the rear, from accepted sample to accepted sample, under either choice."""

    def __init__(self):
        self.heard = self.last = None   # when it was, and the last rear under the everlasting choice

    def lost(self, time, front):
        """What the default does with a lost one, after how many seconds, and whether the choices count it otherwise."""
        if self.last is None:
            self.last = front
        if self.heard is None:
            return NONE_YET, None, front != self.last
        seconds = time - self.heard
        return (KEPT, seconds, False) if seconds <= KEPT_FOR else (GIVEN_UP, seconds, front != self.last)


def silences(feed, output):
    """A Silence for each accepted sample without a rear.  The output may be any program's, right or not."""
    rear = Rear()
    for one in accepted(feed, output):
        if one.rear is None:
            yield Silence(one.place, *rear.lost(one.time, one.front), one.state)
        else:
            rear.heard, rear.last = one.time, one.rear


def same_time(pair, other):
    """Whether two answers are the same refusal, or decisions of one time."""
    lines = [DECISION.fullmatch(line or "") for line in (*pair, *other)]
    return pair == other or all(lines) and len({line[1].split()[0] for line in lines}) == 1


def parting(feed, output, everlasting):
    """How many samples a program answers otherwise under the everlasting choice than by default, and what tells the first of
    them; None where the outputs are the same.  They may be any programs', right or not."""
    if output == everlasting:
        return 0, None
    pairs, others = answers_of(output), answers_of(everlasting)
    parted = [place for place, both in enumerate(zip(pairs, others)) if both[0] != both[1]]
    if not parted or len(pairs) != len(others) or not all(same_time(pairs[place], others[place]) for place in parted):
        return len(parted), UNLIKE
    before = [one.does for one in silences(feed, output) if one.place <= parted[0] and one.otherwise]
    return len(parted), before[-1] if before else UNLIKE


def names_of(silence):
    """What a silence is counted as."""
    if silence.does == NONE_YET:
        yield "none yet"
    elif silence.seconds in (KEPT_FOR, KEPT_FOR + 1):
        yield "%s at %d s" % (silence.does, silence.seconds)
    if silence.state == CHARGING:
        yield "recharging, kept" if silence.does == KEPT else "recharging, as front"


class SilencesSeen:
    """Accepted samples without a rear, by what they are counted as."""

    # and what that is called where it never occurred
    WANTED = {"kept at 5 s": "a silence kept at 5 s", "given up at 6 s": "a silence given up at 6 s",
              "none yet": "a silence with none yet", "recharging, kept": "a silence kept while recharging",
              "recharging, as front": "a silence that counts as front while recharging"}

    def __init__(self):
        self.samples = Counter()

    def add(self, feed, output):
        self.samples.update(name for silence in silences(feed, output) for name in names_of(silence))

    def missing(self):
        return [called for name, called in self.WANTED.items() if not self.samples[name]]

    def row(self):
        return "silences  " + "  ".join("%s:%d" % (name, self.samples[name]) for name in self.WANTED)
