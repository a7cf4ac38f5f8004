"""What R-3's learnt time changes in the answers to a feed, against the typed one."""

from .answers import EITHER_WAY, UNLIKE, answers_of, differences, either_way, time_alone
from .lessons import LEARNT, lessons


def typed(feed, output, unlearnt):
    """How many samples a program answers otherwise than one that learns nothing, and what they show.  What is learnt serves from
    the next sample, and another fall may change the state."""
    samples, shown = differences(output, unlearnt, either_way, EITHER_WAY, time_alone)
    if shown is None:
        return samples, shown
    first = next((place for place, both in enumerate(zip(answers_of(output), answers_of(unlearnt))) if both[0] != both[1]), 0)
    taught = any(one.shows == LEARNT and one.place < first for one in lessons(feed, output))
    return samples, shown if taught else UNLIKE
