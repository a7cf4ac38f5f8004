"""Tests of bench/plain.c and its parts, what the archive is timed against: it answers as the second program does."""

import ctypes
import os
import random
import shutil
import unittest

import built
from feed_texts import WHOLE
from here import ROOT, example, examples, feeds

PLAIN = os.path.join(ROOT, "bench", "plain.c")
GROUND = os.path.join(ROOT, "tests", "ground.c")
# More than either program's session.
SESSION_BYTES = 8192


def parts(data):
    """Consist, profile, targets and samples of a feed; None where it has no whole ones."""
    try:
        consist, profile, targets, samples = feeds.split(data)
    except IndexError:
        return None
    if len(targets) <= feeds.TARGET_BYTES * targets[0]:
        return None
    return consist, profile[2:], targets[1:], samples


def answers(opened, judged, data):
    """Every answer and decision of a session over the feed."""
    consist, profile, targets, samples = parts(data)
    session = ctypes.create_string_buffer(SESSION_BYTES)
    said = [opened(session, consist, ctypes.c_size_t(len(consist)))]
    for sample in samples:
        out = ctypes.create_string_buffer(b"\xa5" * 17, 17)
        said.append((judged(session, sample, ctypes.c_size_t(len(sample)),
                            profile, ctypes.c_size_t(len(profile)),
                            targets, ctypes.c_size_t(len(targets)),
                            out, ctypes.c_size_t(16 if sample[3:4] != b"\x07" else 15)), out.raw))
    return said


def slipped(case, name, old, new, source, part="walk.c"):
    """A library of plain C with one of its lines changed, of the walk or of another part."""
    folder = os.path.join(built.place(), name)
    shutil.copytree(os.path.join(ROOT, "bench"), os.path.join(folder, "bench"))
    shutil.copytree(os.path.join(ROOT, "tests"), os.path.join(folder, "tests"))
    path = os.path.join(folder, "bench", "plain", part)
    with open(path) as file:
        words = file.read()
    case.assertEqual(words.count(old), 1)
    with open(path, "w") as file:
        file.write(words.replace(old, new))
    return built.library(name + ".so", os.path.join(folder, source))


class Plain(unittest.TestCase):
    """Plain C beside the second program."""

    @classmethod
    def setUpClass(cls):
        cls.second = built.core()
        cls.plain = built.library("plain.so", PLAIN)

    def difference(self, plain, data):
        return (answers(plain.plain_open, plain.plain_sample, data)
                != answers(self.second.second_open, self.second.second_judge, data))


class Alike(Plain):

    def test_random_feeds(self):
        made = [feeds.random_feed(seed) for seed in range(400)] + [feeds.random_feed(seed, "manifest") for seed in range(60)]
        given = [data for data in made if parts(data)]
        self.assertGreater(len(given), 260)
        for place, data in enumerate(given):
            with self.subTest(place=place):
                self.assertFalse(self.difference(self.plain, data))

    def test_examples(self):
        for name in examples():
            with self.subTest(name=name):
                self.assertFalse(self.difference(self.plain, feeds.make(example(name))))

    def test_figures(self):
        for name in examples("figures"):
            data = feeds.make(example("figures/" + name))
            if parts(data):
                with self.subTest(name=name):
                    self.assertFalse(self.difference(self.plain, data))

    def test_a_slip_is_seen(self):
        """The comparison can fail: a penalty at equality, on the case of document 01; emergency past its board alone, and
        with 10 in place of 12; the first crossing kept, and a cut walk with locations, on R-2's vectors."""
        for number, (old, new, name) in enumerate((
                ("found->location[i] + offset > target", "found->location[i] + offset >= target", "case-5532"),
                ("stop >= targets->location[i]", "stop > targets->location[i]", "figures/emergency-at-the-board"),
                ("applied.b, 12, most", "applied.b, 10, most", "figures/emergency-at-the-board"),
                ("if (q > speed * speed)", "if (q > speed * speed && location == NO_STOP)", "figures/rise-past-target"),
                ("q > 0 && i < targets->records", "false && i < targets->records", "figures/cut-below-target"))):
            with self.subTest(new=new):
                slip = slipped(self, "slip-%d" % number, old, new, "bench/plain.c")
                self.assertTrue(self.difference(slip, feeds.make(example(name))))


def quiet(*samples):
    """A train at rest; of each sample the time, the front and the rear, which may be lost."""
    return feeds.make(WHOLE + "".join("sample %d head 5000 speed 0.0 front %s rear %s\n" % sample for sample in samples))


def silent(seconds):
    """The last rear, 80 psi, so long before the end: the reservoirs are at 85, and charged where it still counts there."""
    return quiet((0, "90.0", "90.0"), (1, "85.0", "85.0"), (6, "85.0", "85.0"), (8, "85.0", "80.0"), (6 + seconds, "85.0", "lost"),
                 (7 + seconds, "90.0", "lost"), (8 + seconds, "90.0", "lost"))


# No rear yet, and an application from the first sample on.
UNHEARD = quiet((0, "85.0", "lost"), (1, "85.0", "lost"), (2, "90.0", "lost"), (3, "90.0", "lost"))


class Quiet(Plain):
    """What a lost rear counts as."""

    def last_state(self, data):
        return answers(self.plain.plain_open, self.plain.plain_sample, data)[-1][1][4] >> 5

    def test_silences(self):
        for seconds, state in ((3, 0), (4, 0), (5, 0), (6, 5), (7, 5)):
            with self.subTest(seconds=seconds):
                self.assertEqual(self.last_state(silent(seconds)), state)
                self.assertFalse(self.difference(self.plain, silent(seconds)))

    def test_none_yet(self):
        self.assertEqual(self.last_state(UNHEARD), 5)
        self.assertFalse(self.difference(self.plain, UNHEARD))

    def test_a_slip_is_seen(self):
        """5 seconds given up, 6 kept, a lost rear heard, none yet kept."""
        for number, (part, old, new, data) in enumerate((
                ("brakes.c", "last_heard <= KEPT_SECONDS", "last_heard < KEPT_SECONDS", silent(5)),
                ("brakes.c", "last_heard <= KEPT_SECONDS", "last_heard <= KEPT_SECONDS + 1", silent(6)),
                ("brakes.c", "if (sample->rear_present)\n        brakes->last_heard", "brakes->last_heard", silent(6)),
                ("session.c", ".last_heard = NEVER", ".last_heard = 0", UNHEARD))):
            with self.subTest(new=new):
                slip = slipped(self, "quiet-%d" % number, old, new, "bench/plain.c", part)
                self.assertTrue(self.difference(slip, data))


def average(blocks, weight, sums, times):
    """By weight: each block's share rounded down, and their total over the weight."""
    shares = sum(load * times * feet // length for (length, load), feet in zip(blocks, sums))
    return shares // weight


class Train:
    """A train in blocks, or in none, on its ground; what lies under it foot by foot."""

    def __init__(self, blocks, ground, head, in_blocks=True):
        self.blocks, self.ground, self.head = blocks, ground, head
        self.length, self.weight = (sum(numbers) for numbers in zip(*blocks))
        self.in_blocks = in_blocks

    def sums(self, place):
        """Of grades or curvatures under each block."""
        at, found = self.head, []
        for length, _ in self.blocks:
            found.append(sum(self.under(foot)[place] for foot in range(at - length, at)))
            at -= length
        return found

    def under(self, foot):
        return [record for record in self.ground if record[0] <= foot][-1]

    def expected(self):
        blocks = self.blocks if self.in_blocks else [(self.length, self.weight)]
        grades, curvatures = self.sums(1), self.sums(2)
        if not self.in_blocks:
            grades, curvatures = [sum(grades)], [sum(curvatures)]
        return average(blocks, self.weight, grades, 100), average(blocks, self.weight, curvatures, 1)

    def plain(self, library, near=0):
        made = feeds.Feed({"cars": 1, "axles": 4, "weight": self.weight, "length": self.length, "rated": 0, "application": 1000,
                           "recharge": 1, "set": 7000, "offset": 0})
        made.blocks = self.blocks if self.in_blocks else []
        made.profile = self.ground
        consist, profile, _, _ = feeds.split(made.bytes())
        averages = (ctypes.c_int64 * 2)()
        refused = library.ground_of(consist, ctypes.c_size_t(len(consist)), profile[2:], ctypes.c_size_t(len(profile) - 2),
                                    ctypes.c_int64(self.head), ctypes.c_int(near), averages)
        return None if refused else tuple(averages)


# Empties in front of loads, across a sag.
SAG = Train([(3000, 600), (3000, 5400)], [(0, -100, 30, 0), (10000, 100, 7, 0), (60000, 0, 0, 0)], 13000)
# A few feet of grade under each half, of which the shares keep nothing.
SPECKS = [(0, 0, 0, 0), (750, 1, 0, 0), (751, 0, 0, 0), (900, 1, 0, 0), (902, 0, 0, 0), (50000, 0, 0, 0)]
HALVES = Train([(150, 500), (150, 500)], SPECKS, 1000)
# A foot of descent under each block: shares of -20 and -10.5, whose total over the weight is -3.1.
DIPS = [(0, 0, 0, 0), (950, -1, 0, 0), (951, 0, 0, 0), (990, -1, 0, 0), (991, 0, 0, 0), (50000, 0, 0, 0)]
UNEVEN = Train([(30, 6), (38, 4)], DIPS, 1000)


def random_train(draw):
    count = draw.choice((1, 2, 3, 7, 64))
    blocks = [(draw.randint(1, draw.choice((3, 60))), draw.randint(1, draw.choice((3, 400)))) for _ in range(count)]
    # a consist has 50 ft and 10 tons at least
    blocks.append((50, 10))
    blocks = blocks[-64:]
    starts = sorted(draw.sample(range(1, 6000), draw.randint(1, 200)))
    ground = [(start, draw.randint(-500, 500), draw.randint(0, 2000), 0) for start in [0, *starts]] + [(60000, 0, 0, 0)]
    length = sum(feet for feet, _ in blocks)
    return Train(blocks, ground, length + draw.randint(0, 5000), draw.random() < 0.8)


class Averages(unittest.TestCase):
    """Grade and curvature under a train, to the last unit."""

    @classmethod
    def setUpClass(cls):
        cls.plain = built.library("ground.so", GROUND)

    def test_figures(self):
        self.assertEqual(SAG.plain(self.plain)[0], -8000)
        self.assertEqual(Train(SAG.blocks, SAG.ground, 13000, False).plain(self.plain)[0], 0)
        self.assertEqual(HALVES.plain(self.plain)[0], 0)
        for train in (Train(HALVES.blocks, SPECKS, 1000, False), Train([(300, 1000)], SPECKS, 1000)):
            self.assertEqual(train.plain(self.plain)[0], 1)

    def test_random_trains(self):
        draw = random.Random(1)
        for number in range(200):
            train = random_train(draw)
            with self.subTest(number=number):
                self.assertEqual(train.plain(self.plain, draw.randrange(256)), train.expected())

    def test_a_slip_is_seen(self):
        """Tail end first, a share toward zero, the total toward zero, the 100 behind the shares, the total over the length."""
        for number, (old, new, train) in enumerate((
                ("int64_t length = train->block_length[i], weight = train->block_weight[i];",
                 "int64_t length = train->block_length[train->blocks - 1 - i], weight = train->block_weight[train->blocks - 1 - i];",
                 SAG),
                ("down(100 * weight * (ahead.grade - behind.grade), length)",
                 "100 * weight * (ahead.grade - behind.grade) / length", UNEVEN),
                ("{ down(shares.grade, train->weight),", "{ shares.grade / train->weight,", UNEVEN),
                ("down(100 * weight * (ahead.grade - behind.grade), length)",
                 "100 * down(weight * (ahead.grade - behind.grade), length)", UNEVEN),
                ("{ down(shares.grade, train->weight),", "{ down(shares.grade, train->length),", UNEVEN))):
            with self.subTest(new=new):
                slip = slipped(self, "ground-%d" % number, old, new, "tests/ground.c")
                self.assertEqual(train.plain(self.plain), train.expected())
                self.assertNotEqual(train.plain(slip), train.expected())


if __name__ == "__main__":
    unittest.main()
