"""The kinds of random feeds, and the feed of a seed."""

from .brinks import brink
from .chance import Draw
from .damage import cut, damaged
from .edges import edges
from .emergencies import emergency
from .grades import grades
from .learning import learning
from .manifests import manifest
from .pipes import brakes
from .quiet import quiet
from .runaways import runaway
from .trips import light, trip
from .undulations import undulating

# Their order is part of what a seed means.
KINDS = {"trip": trip, "brakes": brakes, "edges": edges, "light": light, "grades": grades,
         "brink": brink, "damaged": damaged, "cut": cut, "runaway": runaway, "emergency": emergency,
         "undulating": undulating, "manifest": manifest, "quiet": quiet, "learning": learning}
KIND_NAMES = tuple(KINDS)

# Where no kind is named the seeds go round this list, so that any few hundred
# seeds in a row hold each kind in its share.
ROUND = ("trip", "brakes", "light", "edges", "manifest", "damaged", "trip", "quiet", "grades", "undulating",
         "learning", "trip", "brink", "manifest", "brakes", "cut", "edges", "quiet", "light", "undulating", "manifest",
         "learning", "damaged", "edges", "grades", "trip", "brink", "runaway", "emergency", "undulating")


def kind_of(seed):
    """The kind that a seed picks."""
    return ROUND[seed % len(ROUND)]


def random_feed(seed, kind=None):
    """The feed of a seed.  A kind goes round its cases by a number: the feeds
    that a row of seeds picks for a kind are numbered on from each other; a seed
    that is told to be of another kind is its own number."""
    kind = kind or kind_of(seed)
    number = seed
    if kind == kind_of(seed):
        number = seed // len(ROUND) * ROUND.count(kind) + ROUND[:seed % len(ROUND)].count(kind)
    return KINDS[kind](Draw(seed * len(KINDS) + KIND_NAMES.index(kind)), number)
