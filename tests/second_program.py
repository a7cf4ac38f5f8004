"""What the tests of second/ share: feeds in few words, what the program prints for them, and the core's structs.

The expected values of those tests are worked by hand from document 01; the comments give the arithmetic.  h is a hundredth,
and "decision 15" is a point of docs/DECISIONS.md.
"""

import ctypes
import subprocess

import built
from here import feeds

# The choice of the everlasting value, on the command line.
EVERLASTING = ("everlasting",)
TRAIN = {"cars": 10, "axles": 40, "weight": 1000, "length": 600, "rated": 200000,
         "application": 30000, "recharge": 50, "set": 9000, "offset": 500}
LEVEL = "profile 0\nprofile 40000\n"
# The samples of 01's case: time, head, mph, front, rear.
CASE = ((0, 5000, "0.0", "90.0", "90.0"), (1, 5000, "1.0", "90.0", "90.0"),
        (2, 5001, "0.0", "90.0", "90.0"))


def run(data, *build, words=()):
    """What the program prints for a feed, or a build of it; with words on its command line."""
    done = subprocess.run([built.second(*build), *words], input=data, stdout=subprocess.PIPE,
                          stderr=subprocess.PIPE, check=False)
    if done.returncode != 0 or done.stderr:
        raise AssertionError("status %d: %s" % (done.returncode, done.stderr.decode()))
    return done.stdout.decode()


def psi(hundredths):
    """A decimal that counts as so many hundredths of a psi, rounded down."""
    return "%d.%02d5" % divmod(hundredths, 100)


def mph(hundredths):
    """A decimal that counts as so many hundredths of a mph, rounded up."""
    if hundredths == 0:
        return "0.0"
    return "%d.%02d5" % divmod(hundredths - 1, 100)


def made(samples, profile=LEVEL, targets="", blocks=(), **train):
    """A whole feed; samples are (time, head, mph, front, rear) words or lines, blocks (length, weight)."""
    values = dict(TRAIN, **train)
    lines = ["%s %d" % item for item in values.items()] + ["block %d %d" % block for block in blocks] + [profile, targets]
    for one in samples:
        if not isinstance(one, str):
            one = "sample %s head %s speed %s front %s rear %s" % one
        lines.append(one)
    return feeds.make("\n".join(lines) + "\n")


def told(lines):
    """A pair for each sample, the second line held to what is so for all: time and state are the first's, the bit is
    1 exactly with a cause, and before the penalty bit, cause and location are 0."""
    pairs = feeds.answers(lines)
    for first, second in pairs:
        if first.startswith("x"):
            continue
        time, state, penalty, _, _ = first.split(" ")
        called, cause, stop = second.split(" ")[2:]
        right = second.startswith("%s %s " % (time, state)) and called == str(int(cause != "0"))
        if not right or penalty == "0" and (called, cause, stop) != ("0", "0", "0"):
            raise AssertionError("%s after %s" % (second, first))
    return pairs


def both(samples, build=(), words=(), **more):
    """The pairs of lines for such a feed."""
    return told(run(made(samples, **more), *build, words=words).splitlines())


def printed(samples, **more):
    """The first lines for such a feed, the penalty's."""
    return [first for first, _ in both(samples, **more)]


def one_line(head="5000", speed="0.0", front="90.0", rear="90.0", **more):
    """The first line for one sample, standing unless it is told otherwise."""
    return printed([(0, head, speed, front, rear)], **more)[0]


# ------------------------------------------------------- second.h, for calls of the core

class Blocks(ctypes.Structure):
    _fields_ = [("records", ctypes.c_int64)] + [(name, ctypes.c_int64 * 64) for name in ("length", "weight")]


class Consist(ctypes.Structure):
    _fields_ = [(name, ctypes.c_int64) for name in (
        "cars", "axles", "weight", "length", "rated", "application", "recharge", "set", "offset")] + [("blocks", Blocks)]


CONSIST = Consist(**TRAIN)


def train_of(blocks=(), **train):
    """A consist for the core, with those blocks."""
    consist = Consist(**train)
    consist.blocks.records = len(blocks)
    for i, (length, weight) in enumerate(blocks):
        consist.blocks.length[i], consist.blocks.weight[i] = length, weight
    return consist


class Brakes(ctypes.Structure):
    _fields_ = [(name, ctypes.c_int64) for name in (
        "state", "hold", "a", "b", "equalization", "fall", "last_front", "last_rear",
        "last_time")] + [(name, ctypes.c_int) for name in ("choice", "heard")] + [("heard_at", ctypes.c_int64)]


class Learner(ctypes.Structure):
    _fields_ = [("stage", ctypes.c_int)] + [(name, ctypes.c_int64) for name in ("fell_at", "p0", "t_init", "points")] \
        + [(name, ctypes.c_int64 * 256) for name in ("t", "p")]


class PointSums(ctypes.Structure):
    _fields_ = [(name, ctypes.c_int64) for name in ("n", "t", "tt", "p", "tp")]


class Learning(ctypes.Structure):
    _fields_ = [("stage", ctypes.c_int)] + [(name, ctypes.c_int64) for name in ("fell_at", "t_init", "last_t", "pressure")] \
        + [("sums", PointSums)]


class Session(ctypes.Structure):
    _fields_ = [("open", ctypes.c_int), ("begun", ctypes.c_int), ("train", Consist), ("brakes", Brakes),
                ("cause", ctypes.c_int64), ("emergency", ctypes.c_int64), ("learner", Learner)]


class Profile(ctypes.Structure):
    _fields_ = [("records", ctypes.c_int64)] + [
        (name, ctypes.c_int64 * 257) for name in ("start", "grade", "curve")]


class Decision(ctypes.Structure):
    _fields_ = [("emergency", ctypes.c_int)] + [
        (name, ctypes.c_int64) for name in ("time", "state", "penalty", "cause", "stop")]


class Sample(ctypes.Structure):
    _fields_ = [(name, ctypes.c_int64) for name in ("time", "head", "speed", "front", "rear")] \
        + [("rear_present", ctypes.c_int)]


class Targets(ctypes.Structure):
    _fields_ = [("records", ctypes.c_int64)] + [(name, ctypes.c_int64 * 8) for name in ("location", "speed")]


class Air(ctypes.Structure):
    _fields_ = [(name, ctypes.c_int64) for name in ("a", "b", "equalization")] + [("emergency", ctypes.c_int)]


class Prediction(ctypes.Structure):
    _fields_ = [(name, ctypes.c_int64) for name in ("stop", "cause")]


def held(state=0, a=9000, b=0, front=9000, rear=9000, equalization=0, **train):
    """A session after an update that left its brakes so, charged unless it is told otherwise."""
    return Session(open=1, begun=1, train=train_of(**dict(TRAIN, **train)), cause=1, brakes=Brakes(
        state=state, hold=9000, a=a, b=b, equalization=equalization, last_front=front, last_rear=rear))


def started(session):
    """The air that emergency starts from: A, B and equalization."""
    call = built.core().second_emergency_air
    call.restype = Air
    air = call(ctypes.byref(session))
    if air.emergency != 1:
        raise AssertionError("not the curve of emergency")
    return air.a, air.b, air.equalization


def parts(draw, count, total):
    """So many numbers of at least 1 that sum to the total."""
    ends = sorted(draw.sample(range(1, total), count - 1))
    return [end - start for start, end in zip([0, *ends], [*ends, total])]


def whole(*numbers):
    """Numbers as arguments."""
    return [ctypes.c_int64(number) for number in numbers]
