"""What R-1's blocks change in the answers to a feed, against the same weight spread evenly; and how many blocks a comparison
meets."""

from collections import Counter

from .answers import EITHER_WAY, UNLIKE, differences, either_way
from .records import MOST_BLOCKS, block_count

# How many blocks accepted samples have: what that is called, the least and the most.
SIZES = (("1", 1, 1), ("2 to 63", 2, MOST_BLOCKS - 1), ("64", MOST_BLOCKS, MOST_BLOCKS))


def weighed(feed, output, even):
    """How many samples a program answers otherwise than one that spreads the weight evenly, and what they show.  Without blocks
    it is spread evenly, and one block answers as none."""
    samples, shown = differences(output, even, either_way, EITHER_WAY)
    return samples, UNLIKE if shown and block_count(feed) < 2 else shown


class BlocksSeen:
    """The feeds with blocks, and their accepted samples by how many there are."""

    def __init__(self):
        self.feeds, self.samples = 0, Counter()

    def add(self, feed, accepted):
        count = block_count(feed)
        self.feeds += count > 0
        for name, least, greatest in SIZES:
            if least <= count <= greatest:
                self.samples[name] += accepted

    def missing(self):
        return ["a sample with %s block%s" % (name, "s" * (name != "1")) for name, _, _ in SIZES if not self.samples[name]]

    def row(self):
        return "blocks    %d feeds; accepted samples with " % self.feeds + "  ".join(
            "%s:%d" % (name, self.samples[name]) for name, _, _ in SIZES)
