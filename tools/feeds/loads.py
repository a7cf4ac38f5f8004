"""How the weight lies in a train: its blocks, each a length and a weight, head end first."""

from .records import MOST_BLOCKS

# One random train in so many has blocks, in the kinds that are not about them.
ONE_IN = 5


def most_blocks(train):
    """How many it may have: a block has a foot and a ton at least."""
    return min(MOST_BLOCKS, train["length"], train["weight"])


def draw_parts(draw, total, count):
    """So many whole numbers from 1 on whose sum is the total."""
    bounds = {0, total}
    while len(bounds) <= count:
        bounds.add(draw.between(1, total - 1))
    bounds = sorted(bounds)
    return [end - start for start, end in zip(bounds, bounds[1:])]


def loaded(lengths, loads, weight):
    """Blocks of those lengths with that weight together; the loads are their tons a foot against each other, about, for each has
    a ton at least."""
    shares = [length * load for length, load in zip(lengths, loads)]
    tons = [1 + (weight - len(shares)) * share // sum(shares) for share in shares]
    heaviest = tons.index(max(tons))
    tons[heaviest] += weight - sum(tons)
    return list(zip(lengths, tons))


# Each of these makes a train's blocks.

def one(draw, train):
    return [(train["length"], train["weight"])]


def halves(draw, train):
    """Equal where length and weight are even."""
    length, weight = train["length"] // 2, train["weight"] // 2
    return [(length, weight), (train["length"] - length, train["weight"] - weight)]


def empties_first(draw, train):
    """Empties in front, loads behind."""
    count = min(draw.pick((2, 2, 3, draw.between(4, MOST_BLOCKS - 1))), most_blocks(train))
    empty = draw.between(1, count - 1)
    loads = [draw.between(1, 2) for _ in range(empty)] + [draw.between(8, 30) for _ in range(count - empty)]
    return loaded(draw_parts(draw, train["length"], count), loads, train["weight"])


def loads_first(draw, train):
    """The reverse."""
    return empties_first(draw, train)[::-1]


def mixed(draw, train, count=None):
    """Empties and loads in any order."""
    count = count or min(draw.between(2, MOST_BLOCKS - 1), most_blocks(train))
    loads = [draw.pick((1, 2, 20, 40)) for _ in range(count)]
    return loaded(draw_parts(draw, train["length"], count), loads, train["weight"])


def most(draw, train):
    """As many as there may be."""
    return mixed(draw, train, most_blocks(train))


def feet(draw, train):
    """All but one of them are of 1 ft."""
    count = draw.between(2, most_blocks(train))
    lengths = [1] * count
    lengths[draw.below(count)] += train["length"] - count
    return list(zip(lengths, draw_parts(draw, train["weight"], count)))


def least(draw, train):
    """As many as there may be, all but one of them of 1 ft and 1 ton."""
    count = most_blocks(train)
    blocks = [(1, 1)] * count
    blocks[draw.pick((0, count - 1, draw.below(count)))] = (train["length"] - count + 1, train["weight"] - count + 1)
    return blocks


def tons(draw, train):
    """As many as there may be, of any weights; a light train has many of a ton."""
    count = most_blocks(train)
    return list(zip(draw_parts(draw, train["length"], count), draw_parts(draw, train["weight"], count)))


def few(draw, train):
    """Two or three, far from even."""
    count = draw.between(2, 3)
    loads = [draw.pick((1, 2, 20, 40)) for _ in range(count)]
    return loaded(draw_parts(draw, train["length"], count), loads, train["weight"])


ANY = (one, halves, empties_first, loads_first, mixed, most, feet, least, tons, few)


def now_and_then(draw, train, loads=ANY):
    """Blocks for some trains, none for the others."""
    return draw.pick(loads)(draw, train) if draw.below(ONE_IN) == 0 else []
