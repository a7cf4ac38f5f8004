"""feed - makes, writes and shows feeds for the session program.

    feed random SEED [KIND]   a feed made from the seed alone, to standard output
    feed slower SEED [KIND]   the same but for its speeds, of which none is higher
    feed kinds                the kinds of random feeds
    feed make TEXT            the feed that a text states, to standard output
    feed show FEED            the text of a feed
    feed help                 this page

TEXT and FEED are file names; - is standard input.

The text states one fact a line.  # begins a comment.  The parts stand in the
order of the feed: consist, blocks, profile, targets, samples.  Numbers are whole
and in the units of the records (feet, tons, lb, ms, hundredths of a percent,
degree, psi and mph), decimal or 0x hexadecimal.  Only a sample's readings are in
mph and psi with a decimal point; they become the nearest binary32.

    cars 10                 the consist: these nine, each once, in any order
    axles 40
    weight 1000
    length 600
    rated 200000            rated brake force
    application 30000       application time
    recharge 50             recharge per second
    set 9000                set pressure
    offset 500              target offset

    block 75 225            a block's length and weight, head end first; no block
    block 525 775           line at all spreads the weight evenly

    profile 0 grade -50 curve 100
    profile 40000           a record; grade and curve are 0 where not stated
    target 5531 speed 0     a record; no target line at all is an empty list
    sample 7 head 5000 speed 40.0 front 90.0 rear 88.5
    sample 8 head 5058 speed 39.8 front 90.0 rear lost

For damaged feeds:

    bits 0x7fc00000         in place of any reading: its 32 bits
    lost bits 0x80000000    a rear said to be lost, with bits that are not zero
    spare 1                 at the end of a block, profile or sample line
    mark 0x54               at the end of a sample line
    profile-count 3         the count, where it is not the number of lines
    block-count 65
    target-count 9
    raw 53 00ff             bytes as they are, at this place in the feed
    cut                     the feed ends here, with no further count (last line)

Every number that fits its bits is taken, in range or not.
"""

import os
import sys

from .kinds import KIND_NAMES, KINDS, random_feed
from .making import make
from .pairs import slowed
from .showing import show
from .words import BadText


def usage(problem):
    sys.stderr.write("feed: %s; `feed help` tells more\n" % problem)
    return 2


def read_file(name):
    if name == "-":
        return sys.stdin.buffer.read()
    with open(name, "rb") as file:
        return file.read()


def write_bytes(data):
    sys.stdout.buffer.write(data)
    sys.stdout.buffer.flush()
    return 0


def write_text(text):
    sys.stdout.write(text)
    sys.stdout.flush()
    return 0


def random_command(verb, words):
    if len(words) not in (1, 2):
        return usage("%s needs SEED [KIND]" % verb)
    if not (words[0].isascii() and words[0].isdigit()):
        return usage("the seed is not a whole number: %s" % words[0])
    if len(words) == 2 and words[1] not in KIND_NAMES:
        return usage("no kind %s; the kinds are %s" % (words[1], ", ".join(KIND_NAMES)))
    seed = int(words[0])
    feed = random_feed(seed, *words[1:])
    return write_bytes(slowed(feed, seed) if verb == "slower" else feed)


def make_command(data):
    try:
        made = make(data.decode("utf-8", "replace"))
    except BadText as error:
        sys.stderr.write("%s\n" % error)
        return 1
    return write_bytes(made)


def command(words):
    if not words:
        return usage("say random, slower, kinds, make, show or help")
    verb, words = words[0], words[1:]
    if verb in ("help", "--help", "-h"):
        return write_text(__doc__)
    if verb == "kinds":
        return write_text("".join("%-10s %s\n" % (name, " ".join(kind.__doc__.split()))
                                  for name, kind in KINDS.items()))
    if verb in ("random", "slower"):
        return random_command(verb, words)
    if verb not in ("make", "show"):
        return usage("unknown verb %s" % verb)
    if len(words) != 1:
        return usage("%s needs one file" % verb)
    try:
        data = read_file(words[0])
    except OSError as error:
        return usage("cannot read %s: %s" % (words[0], error.strerror))
    if verb == "show":
        return write_text("".join(line + "\n" for line in show(data)))
    return make_command(data)


def main():
    try:
        return command(sys.argv[1:])
    except BrokenPipeError:
        # The reader went away; keep the interpreter from complaining about it.
        os.dup2(os.open(os.devnull, os.O_WRONLY), sys.stdout.fileno())
        return 1
