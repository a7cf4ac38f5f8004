"""Tests of tools/draw."""

import os
import subprocess
import unittest
import xml.etree.ElementTree as ElementTree

import built
from here import EXAMPLES, ROOT, TOOLS, example, feeds
from drawing import Unfit, draw, looks
from drawing.run import Run
from drawing.scale import Scale, spread

DRAW = os.path.join(TOOLS, "draw")


def run_of(name):
    """An example's feed, and what the second program prints for it."""
    data = feeds.make(example(name))
    done = subprocess.run([built.second()], input=data, stdout=subprocess.PIPE, check=True)
    return data, done.stdout.decode().splitlines()


class Svg:
    """A parsed picture: its marks by class."""

    def __init__(self, words):
        self.root = ElementTree.fromstring(words)

    def marks(self, name):
        return [mark for mark in self.root.iter() if mark.get("class") == name]

    def points(self, name):
        return [tuple(float(number) for number in point.split(","))
                for mark in self.marks(name) for point in mark.get("points").split()]

    def texts(self):
        return [mark.text for mark in self.root.iter() if mark.tag.endswith("text")]


class Drawn(unittest.TestCase):

    @classmethod
    def setUpClass(cls):
        cls.data, cls.lines = run_of("trip")
        cls.svg = Svg(draw(cls.data, cls.lines))
        pairs = [pair for pair in feeds.answers(cls.lines) if pair[0][0] != "x"]
        cls.decisions, cls.emergencies = ([[int(word) for word in line.split()] for line in lines] for lines in zip(*pairs))

    def test_a_point_each_accepted_sample(self):
        for name in ("head", "speed", "stop"):
            with self.subTest(name=name):
                self.assertEqual(len(self.svg.points(name)), len(self.decisions))

    def test_penalty_at_its_sample(self):
        called = next(place for place, one in enumerate(self.decisions) if one[2] == 1)
        line, = self.svg.marks("penalty")
        self.assertEqual(line.get("data-time"), str(self.decisions[called][0]))
        self.assertEqual(line.get("data-cause"), "2")
        for name in ("head", "speed", "stop"):
            self.assertAlmostEqual(float(line.get("x1")), self.svg.points(name)[called][0], 1)
        self.assertEqual(line.get("x1"), line.get("x2"))

    def test_no_penalty_no_mark(self):
        svg = Svg(draw(*run_of("case-5532")))
        for name in ("penalty", "emergency", "emergency-stop"):
            self.assertEqual(svg.marks(name), [])
        self.assertNotIn("emergency stop", svg.texts())

    def test_emergency_stop_from_the_penalty_on(self):
        called = next(place for place, one in enumerate(self.decisions) if one[2] == 1)
        points, stops = self.svg.points("emergency-stop"), self.svg.points("stop")
        self.assertEqual(len(points), len(self.decisions) - called)
        self.assertEqual([x for x, _ in points], [x for x, _ in stops[called:]])
        # on the scale of the other stops: heights differ where the feet do, the earlier stop lower
        for (_, y), (_, other), first, second in zip(points, stops[called:], self.decisions[called:], self.emergencies[called:]):
            self.assertEqual(y > other, second[4] < first[4])
        self.assertEqual(self.svg.marks("emergency"), [])
        self.assertIn("emergency stop", self.svg.texts())

    def test_emergency_at_its_sample(self):
        svg = Svg(draw(*run_of("figures/emergency-at-the-board")))
        lines = {name: svg.marks(name)[0] for name in ("penalty", "emergency")}
        self.assertEqual([(lines[name].get("data-time"), lines[name].get("data-cause")) for name in ("penalty", "emergency")],
                         [("1", "2"), ("3", "3")])
        points = svg.points("emergency-stop")
        self.assertEqual(len(points), 5)
        self.assertEqual(float(lines["emergency"].get("x1")), points[2][0])
        # the stop is at the board: target 3's line
        board, = [mark for mark in svg.marks("target") if mark.get("data-place") == "3"]
        self.assertAlmostEqual(points[2][1], float(board.get("y1")), delta=0.11)
        self.assertIn("emergency at 3 s, target 3", svg.texts())

    def test_both_called_at_once(self):
        svg = Svg(draw(*run_of("figures/emergency-no-stop")))
        lines = [svg.marks(name)[0] for name in ("emergency", "penalty")]
        self.assertEqual({line.get("data-time") for line in lines}, {"1"})
        self.assertEqual(lines[0].get("x1"), lines[1].get("x1"))
        heights = {mark.get("y") for mark in svg.root.iter() if (mark.text or "").endswith(" at 1 s, target 2")}
        self.assertEqual(len(heights), 2)

    def test_no_emergency_stop_is_marked(self):
        svg = Svg(draw(*run_of("figures/emergency-no-stop")))
        self.assertEqual((len(svg.marks("no-stop")), len(svg.marks("no-emergency-stop"))), (2, 1))
        self.assertEqual(len(set(svg.points("emergency-stop"))), 1)

    def test_states_as_printed(self):
        want = []
        for _, state, _, _, _ in self.decisions:
            if not want or want[-1] != state:
                want.append(state)
        bands = self.svg.marks("state")
        self.assertEqual([int(band.get("data-state")) for band in bands], want)
        for band in bands:
            self.assertEqual(band.get("fill"), looks.STATES[int(band.get("data-state"))][1])
        for band, following in zip(bands, bands[1:]):
            self.assertAlmostEqual(float(band.get("x")) + float(band.get("width")),
                                   float(following.get("x")), delta=0.11)
        self.assertEqual(len(self.svg.marks("state-key")), len(set(want)))

    def test_heights_follow_feet_and_mph(self):
        """Two points and the targets fix the location's scale, two the speed's; the rest must fit it."""
        samples = Run(self.data, self.lines).accepted
        for name, values in (("head", [one.head for one in samples]),
                             ("stop", [one.stop for one in samples]),
                             ("speed", [one.speed for one in samples])):
            ys = [y for _, y in self.svg.points(name)]
            low, high = values.index(min(values)), values.index(max(values))
            scale = (ys[high] - ys[low]) / (values[high] - values[low])
            self.assertLess(scale, 0)
            for value, y in zip(values, ys):
                self.assertAlmostEqual(y, ys[low] + scale * (value - values[low]), delta=0.3)
            if name == "head":
                for target, (location, _) in zip(self.svg.marks("target"),
                                                 Run(self.data, self.lines).targets):
                    self.assertAlmostEqual(float(target.get("y1")),
                                           ys[low] + scale * (location - values[low]), delta=0.3)

    def test_targets(self):
        self.assertEqual([mark.get("data-place") for mark in self.svg.marks("target")], ["1", "2"])
        self.assertIn("1: 16,900 ft, 25 mph", self.svg.texts())
        self.assertIn("2: 21,800 ft, stop", self.svg.texts())

    def test_refused_samples_are_marked(self):
        marks = [(mark.get("data-number"), mark.get("data-time"))
                 for mark in self.svg.marks("refused")]
        self.assertEqual(marks, [("8", "56"), ("9", "148")])
        many = Svg(draw(*run_of("refused")))
        self.assertEqual(sorted(int(mark.get("data-number")) for mark in many.marks("refused")),
                         [2, 3, 3, 8, 8, 9, 9, 10, 10])

    def test_refused_before_the_first(self):
        """Two samples with no right mark come first: they are marked where the run begins."""
        text = example("case-5532")
        bad = "sample 0 head 5000 speed 0.0 front 90.0 rear 90.0 mark 0x54\n"
        data = feeds.make(text.replace("sample 0", bad + bad + "sample 0", 1))
        svg = Svg(draw(data, ["x 3", "x 3", *run_of("case-5532")[1]]))
        self.assertEqual([mark.get("data-time") for mark in svg.marks("refused")], ["0", "0"])

    def test_no_stop_is_marked_and_not_drawn(self):
        svg = Svg(draw(*run_of("long-descent")))
        self.assertEqual(len(svg.marks("no-stop")), 3)
        self.assertEqual(len(set(svg.points("stop"))), 1)

    def test_axes_have_names_and_ticks(self):
        texts = self.svg.texts()
        for name in ("location, ft", "speed, mph", "time, s", "predicted stop", "0 charged"):
            self.assertIn(name, texts)
        self.assertGreaterEqual(len(self.svg.marks("tick")), 12)

    def test_all_is_inside(self):
        for name in ("trip", "refused", "several-targets", "long-descent", "emergency", "figures/emergency-at-the-board",
                     "figures/emergency-later-target", "figures/emergency-no-stop"):
            svg = Svg(draw(*run_of(name)))
            for mark in svg.root.iter():
                for key, limit in (("x", looks.WIDTH), ("x1", looks.WIDTH), ("y", looks.HEIGHT),
                                   ("y1", looks.HEIGHT), ("y2", looks.HEIGHT)):
                    if mark.get(key):
                        self.assertTrue(0 <= float(mark.get(key)) <= limit, (name, mark.attrib))
            for points in (svg.points(name) for name in ("head", "stop", "emergency-stop", "speed")):
                for x, y in points:
                    self.assertTrue(looks.LEFT <= x <= looks.RIGHT and looks.WHERE[0] <= y <= looks.FAST[1])


class Blocks(unittest.TestCase):
    """The train of a feed with blocks: 600 ft and 1,000 tons."""

    @classmethod
    def setUpClass(cls):
        cls.without, cls.lines = run_of("case-5532")

    def drawn(self, *blocks):
        """The picture; what is decided does not matter here."""
        text = "".join("block %d %d\n" % block for block in blocks)
        return draw(feeds.make(example("case-5532").replace("profile 0\n", text + "profile 0\n", 1)), self.lines)

    def box(self, mark):
        return [float(mark.get(name)) for name in ("x", "y", "width", "height")]

    def test_without_blocks_nothing_is_added(self):
        svg = Svg(draw(self.without, self.lines))
        self.assertEqual((svg.marks("block"), svg.marks("even")), ([], []))
        self.assertFalse([words for words in svg.texts() if "tons a foot" in words])

    def test_nothing_else_changes(self):
        before, after = draw(self.without, self.lines).splitlines(), self.drawn((100, 400), (500, 600)).splitlines()
        added = [line for line in after if line not in before]
        self.assertEqual([line for line in after if line not in added], before)
        self.assertEqual(len(added), 8)

    def test_as_long_as_its_feet_and_as_high_as_its_tons_a_foot(self):
        blocks = ((100, 400), (300, 300), (200, 300))
        marks = Svg(self.drawn(*blocks)).marks("block")
        self.assertEqual([mark.get("data-place") for mark in marks], ["1", "2", "3"])
        whole = looks.TRAIN[1] - looks.TRAIN[0]
        end = looks.TRAIN[1]
        for mark, (length, weight) in zip(marks, blocks):
            x, y, width, height = self.box(mark)
            # from the head, at the right, backward
            self.assertAlmostEqual(x + width, end, delta=0.11)
            self.assertAlmostEqual(width, whole * length / 600, delta=0.11)
            self.assertAlmostEqual(y + height, looks.TONS[0], delta=0.11)
            self.assertAlmostEqual(height, (looks.TONS[0] - looks.TONS[1]) * weight / length / 4, delta=0.11)
            end = x
        self.assertAlmostEqual(end, looks.TRAIN[0], delta=0.11)

    def test_what_is_said(self):
        svg = Svg(self.drawn((100, 400), (500, 600)))
        for words in ("2 blocks, tons a foot:", "4.00 at most, 1.67 even", "rear", "head"):
            self.assertIn(words, svg.texts())
        line, = svg.marks("even")
        self.assertAlmostEqual(float(line.get("y1")), looks.TONS[0] - (looks.TONS[0] - looks.TONS[1]) / 2.4, delta=0.11)

    def test_one_block_is_even(self):
        svg = Svg(self.drawn((600, 1000)))
        self.assertIn("1 block, tons a foot:", svg.texts())
        line, = svg.marks("even")
        self.assertAlmostEqual(float(line.get("y1")), looks.TONS[1], delta=0.11)

    def test_a_foot_is_seen_and_all_is_inside(self):
        svg = Svg(self.drawn(*[(1, 1)] * 63, (537, 937)))
        boxes = [self.box(mark) for mark in svg.marks("block")]
        self.assertEqual(len(boxes), 64)
        for x, y, width, height in boxes:
            self.assertGreaterEqual(width, 0.5)
            self.assertGreater(height, 1)
            self.assertTrue(looks.RIGHT < x and x + width < looks.WIDTH and looks.FAST[0] < y and y + height < looks.FAST[1])


class Labels(unittest.TestCase):

    def test_spread(self):
        gap = looks.LABEL_GAP
        self.assertEqual(spread([100.0, 200.0], 0, 300), [100.0, 200.0])
        moved = spread([100.0, 101.0, 102.0], 0, 300)
        self.assertEqual(moved, [100.0, 100.0 + gap, 100.0 + 2 * gap])
        moved = spread([299.0, 298.0, 297.0], 0, 300)
        self.assertEqual(sorted(moved)[-1], 300)
        self.assertEqual({round(b - a) for a, b in zip(sorted(moved), sorted(moved)[1:])}, {gap})

    def test_ticks(self):
        self.assertEqual(list(Scale(0, 42, 0, 1).ticks(5)), [0, 10, 20, 30, 40])
        self.assertEqual(list(Scale(4980, 5020, 0, 1).ticks(4)), [4980, 4990, 5000, 5010, 5020])
        self.assertEqual(list(Scale(0, 1, 0, 1).ticks(12)), [0, 1])


class Refused(unittest.TestCase):
    """No picture of what does not belong together."""

    def assert_unfit(self, data, lines, words):
        with self.assertRaises(Unfit) as caught:
            draw(data, lines)
        self.assertIn(words, str(caught.exception))

    def test_unfit(self):
        data, lines = run_of("trip")
        self.assert_unfit(data, lines[:-2], "lines for")
        self.assert_unfit(data, lines[:-1], "the first of a sample's two")
        self.assert_unfit(data, lines[1:] + lines[:1], "not this feed's")
        self.assert_unfit(data, lines[2:] + lines[:2], "not this feed's")
        other_state = [lines[0], lines[1].replace("0 0 ", "0 1 ", 1)] + lines[2:]
        self.assert_unfit(data, other_state, "not this feed's")
        self.assert_unfit(data, ["x 8"] * len(feeds.answers(lines)), "no sample was accepted")
        self.assert_unfit(data[:20], ["x 6"], "no whole profile")
        self.assert_unfit(data[:16] + b"\1" + feeds.pack_block(0, 6000) + data[17:], lines, "a block of no length")

    def test_command(self):
        done = subprocess.run([DRAW, os.path.join(EXAMPLES, "trip.txt"), "-"], input=b"x 6\n",
                              stdout=subprocess.PIPE, stderr=subprocess.PIPE, check=False)
        self.assertEqual((done.returncode, done.stdout), (1, b""))
        self.assertEqual(subprocess.run([DRAW], stderr=subprocess.DEVNULL, check=False).returncode, 2)


class Stored(unittest.TestCase):

    def test_the_papers_picture_is_todays(self):
        _, lines = run_of("trip")
        done = subprocess.run([DRAW, os.path.join(EXAMPLES, "trip.txt"), "-"],
                              input=("\n".join(lines) + "\n").encode(), stdout=subprocess.PIPE,
                              check=True)
        with open(os.path.join(ROOT, "docs", "run.svg"), "rb") as file:
            self.assertEqual(file.read(), done.stdout, "docs/run.svg is old: README says how it is made")


if __name__ == "__main__":
    unittest.main()
