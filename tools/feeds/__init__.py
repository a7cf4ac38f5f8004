"""feeds - the feeds of the session program: their records, their readable text, and random ones.

`tools/feed` is the command over it.  What the other tools take from it stands here; the modules
hold one topic each: records, answers (what is printed for them), rises, finer, weighing, silences and typed
(what R-2, R-11, R-1, R-7 and R-3 change in that), lessons (what is learnt), pairs (of trips that differ
in speed alone, for R-13), tally (what a comparison has seen), binary32, words and making (text to a feed), showing
(a feed to text), chance, trains, loads, motion and walks (what random feeds are made of), a module for each few
kinds of random feeds, and kinds, which knows them all.
"""

from .answers import EITHER_WAY, UNLIKE, answers
from .binary32 import nearest_bits, value_of
from .finer import FINER, finer, slight_descents
from .kinds import KIND_NAMES, kind_of, random_feed
from .lessons import lessons
from .making import make
from .pairs import slowed, wrong_pair
from .records import (CONSIST, SAMPLE_BYTES, SAMPLE_WIDTHS, TARGET_BYTES, TARGET_WIDTHS,
                      Feed, blocks_of, consist_of, pack_block, pack_sample, pack_target, split, unpack)
from .rises import RISES, rise
from .runaways import runaways
from .showing import show, show_reading
from .silences import parting, silences
from .tally import Tally, evenly, first_crossing, hundredths, unlearnt
from .typed import typed
from .weighing import weighed
from .words import BadText

__all__ = ["BadText", "CONSIST", "EITHER_WAY", "FINER", "Feed", "KIND_NAMES", "RISES", "SAMPLE_BYTES", "SAMPLE_WIDTHS",
           "TARGET_BYTES", "TARGET_WIDTHS", "Tally", "UNLIKE", "answers", "blocks_of", "consist_of", "evenly", "finer",
           "first_crossing", "hundredths", "kind_of", "lessons", "make", "nearest_bits", "pack_block", "pack_sample",
           "pack_target", "parting", "random_feed", "rise", "runaways", "show", "show_reading", "silences",
           "slight_descents", "slowed", "split", "typed", "unlearnt", "unpack", "value_of", "weighed", "wrong_pair"]
