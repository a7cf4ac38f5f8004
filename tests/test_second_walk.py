"""Tests of the second program: the functions of a step, what a step gains at most, and whole walks on one grade."""

import ctypes
import math
import os
import random
import subprocess
import unittest

import built
from built import core
from second_program import CONSIST, Consist, mph, one_line, printed, whole
from second_walks import averages


class Step(unittest.TestCase):
    """The figures of 01, those of the grade by 02, R-11."""

    def test_cylinder_and_force(self):
        train = ctypes.byref(CONSIST)
        self.assertEqual(core().second_cylinder(train, *whole(9000, 0, 1090)), 232)
        self.assertEqual(core().second_brake_force(train, *whole(232)), 7250)
        # The cap: 9,000 - 6,428 = 2,572, and 5/2 of that.
        self.assertEqual(core().second_cylinder(train, *whole(9000, 0, 10 ** 9)), 6430)
        # A cap below zero is a drop of 0: 6,032 - 43,018 / 7 = -113.
        self.assertEqual(core().second_cylinder(train, *whole(6032, 6429, 10 ** 9)), 6429)

    def test_averages(self):
        crest = [(0, 50, 10), (51, -53, 0), (1000, 0, 0)]
        self.assertEqual(averages(crest, 100, 100), (-47, 5))           # -47 x 100 / 100; 510 / 100
        self.assertEqual(averages(crest, 51, 51), (5000, 10))
        self.assertEqual(averages(crest, 151, 100), (-5300, 0))
        self.assertEqual(averages([(0, -1, 1), (1, 0, 0), (9, 0, 0)], 9, 9), (-12, 0))      # -100 / 9; 1 / 9
        # A sum of -1 hundredth foot is no exact average: -100 / 201 = -0.498 and -100 / 3 = -33.3.
        slight, short = [(0, 1), (100, -1), (1000, 0)], [(0, 1), (2, -3), (1000, 0)]
        self.assertEqual(averages(slight, 201, 201), (-1, 0))
        self.assertEqual(averages(short, 3, 3), (-34, 0))
        # The other way round it is rounded down as well: 0.498 and 33.3.
        self.assertEqual(averages([(0, -1), (100, 1), (1000, 0)], 201, 201), (0, 0))
        self.assertEqual(averages([(0, -1), (2, 3), (1000, 0)], 3, 3), (33, 0))

    def test_loss(self):
        # Force 0, s 1,000, q 1,000,000, grade, curve 0.
        train = ctypes.byref(CONSIST)
        self.assertEqual(core().loss_of(train, *whole(0, 1000, 1000000, 0, 0)), 3760)
        self.assertEqual(core().loss_of(train, *whole(0, 1000, 1000000, -10000, 0)), -44141)
        # 2,000 x 1,000 x -100 = -200,000,000: 1,370,000,000 gives 3,281; with -1, 1,568,000,000 gives 3,755.
        self.assertEqual(core().loss_of(train, *whole(0, 1000, 1000000, -100, 0)), 3281)
        self.assertEqual(core().loss_of(train, *whole(0, 1000, 1000000, -1, 0)), 3755)
        # Curve 100: 8,000 x 1,000 x 100 = 800,000,000 more: 2,370,000,000 gives 5,676.
        self.assertEqual(core().loss_of(train, *whole(0, 1000, 1000000, 0, 100)), 5676)
        # Force 7,250: 8,820,000,000 gives 21,124.
        self.assertEqual(core().loss_of(train, *whole(7250, 1000, 1000000, 0, 0)), 21124)

    def test_step_time(self):
        self.assertEqual(core().second_step_time(*whole(1)), 1090909)
        self.assertEqual(core().second_step_time(*whole(10000)), 109)

    def test_root(self):
        draw = random.Random(3)
        for q in [0, 1, 2, 3, 4, 587555072, 2 ** 32 - 1] + [draw.randrange(2 ** 32) for _ in range(999)]:
            root = core().second_root(*whole(q))
            self.assertTrue(root * root <= q < (root + 1) * (root + 1))


class Bound(unittest.TestCase):
    """What stands in the place of 11 (02, R-10): within 01's limits q gains at most 238,064 a step."""

    GAIN, MOST = 238064, 587555072
    STEEPEST = {"cars": 1, "axles": 2, "weight": 30000, "length": 50, "rated": 0}
    DOWN = "profile 0 grade -500\nprofile 40000"

    def test_greatest_gain(self):
        # 600,000 W + 20,000,000 n + 100 W s + 7 N q + 2,000 W G is -2,981,956,999,993, of which
        # 1,449 / (605,000 W) are -238,063.7, down -238,064.
        train = Consist(**self.STEEPEST)
        self.assertEqual(core().loss_of(ctypes.byref(train), *whole(0, 1, 1, -50000, 0)), -self.GAIN)
        self.assertEqual(10000 ** 2 + 2048 * self.GAIN, self.MOST)
        self.assertLess(self.MOST, 10 ** 9)

    def test_no_train_gains_more(self):
        draw = random.Random(10)

        def drawn(least, most):
            return draw.choice((least, most, draw.randint(least, most)))

        for _ in range(3000):
            cars = drawn(1, 250)
            train = Consist(cars=cars, axles=drawn(2, 2000), weight=drawn(10 * cars, 30000))
            q = drawn(1, draw.choice((100, 10 ** 6, self.MOST)))
            loss = core().loss_of(ctypes.byref(train), *whole(draw.choice((0, drawn(0, 10 ** 7))), math.isqrt(q), q,
                                                              drawn(-50000, 50000), drawn(0, 2000)))
            self.assertGreaterEqual(loss, -self.GAIN)

    def test_nearest_walk(self):
        # W 30,000, N 1, n 2, G -50,000, F = C = 0, from 100 mph: by the formula, and by the program's functions.
        train = Consist(**self.STEEPEST)
        q = stepped = 10000 ** 2
        for step in range(1, 2049):
            q -= 1449 * (600000 * 30000 + 20000000 * 2 + 100 * 30000 * math.isqrt(q) + 7 * q
                         - 2000 * 30000 * 50000) // (605000 * 30000)
            root = core().second_root(*whole(stepped))
            stepped -= core().loss_of(ctypes.byref(train), *whole(0, root, stepped, -50000, 0))
            self.assertEqual(stepped, q)
            self.assertLessEqual(q, 10000 ** 2 + self.GAIN * step)
        self.assertEqual(q, 578336321)
        self.assertEqual(one_line(speed="100.0", profile=self.DOWN, **self.STEEPEST), "0 0 0 0 16777215")

    def walked(self, program, speed, grade):
        done = subprocess.run([program, str(speed), str(grade)], stdout=subprocess.PIPE, stderr=subprocess.PIPE, check=False,
                              env=dict(os.environ, ASAN_OPTIONS="detect_leaks=0"))
        return done.returncode, done.stdout, done.stderr

    def test_checked_build_holds_to_it(self):
        program = built.beyond(True)
        for speed in (1, 10000):
            self.assertEqual(self.walked(program, speed, -500), (0, b"16777215\n", b""))
        # -5.01 % gains more in the first step from the lowest speed, -90 % from any; 655.35 mph on the level loses speed, but is
        # past what any walk reaches.
        for speed, grade, fact in ((1, -501, b"start + "), (10000, -9000, b"start + "), (65535, 0, b"SECOND_SQUARE_MOST")):
            with self.subTest(speed=speed, grade=grade):
                status, out, err = self.walked(program, speed, grade)
                self.assertLess(status, 0)
                self.assertEqual(out, b"")
                self.assertRegex(err, b"Assertion .*" + fact.replace(b"+", b"[+]"))

    def test_plain_build_has_no_test(self):
        for speed, grade in ((1, -501), (10000, -9000), (65535, 0)):
            self.assertEqual(self.walked(built.beyond(False), speed, grade), (0, b"16777215\n", b""))


class Walk(unittest.TestCase):

    def test_standing_train_downhill(self):
        # Decision 25: no step.
        self.assertEqual(one_line(speed=mph(0), profile="profile 0 grade -500\nprofile 40000"),
                         "0 0 0 0 5000")

    def test_last_step(self):
        # The train of the case without brakes, on the level: it loses 1449 x
        # (1,400,000,000 + 100,000 s + 70 q) / 605,000,000 a step.  The greatest speed that
        # stops within 2,048 steps is found by trying; a hundredth more finds no stop.
        def steps(speed):
            q, count = speed * speed, 0
            while q > 0 and count < 2049:
                q -= 1449 * (1400000000 + 100000 * math.isqrt(q) + 70 * q) // 605000000
                count += 1
            return count

        low, high = 2000, 4000
        self.assertTrue(steps(low) <= 2048 < steps(high))
        while high - low > 1:
            middle = (low + high) // 2
            low, high = (middle, high) if steps(middle) <= 2048 else (low, middle)
        stop = 5000 + 16 * steps(low)
        self.assertEqual(one_line(speed=mph(low), rated=0), "0 0 0 0 %d" % stop)
        self.assertEqual(one_line(speed=mph(high), rated=0), "0 0 0 0 16777215")
        # The missing location calls a target at the very reach; the found one does not.
        more = {"rated": 0, "offset": 0, "targets": "target 37768 speed 0"}
        self.assertEqual(one_line(speed=mph(low), **more), "0 0 0 0 %d" % stop)
        self.assertEqual(one_line(speed=mph(high), **more), "0 0 1 1 16777215")

    def test_stop_at_the_last_step(self):
        # The same, but for a weight where some speed stops at step 2,048 exactly: there
        # the location is the head plus 32,768.
        def steps(weight, speed):
            q, count = speed * speed, 0
            level = 600000 * weight + 800000000
            while q > 0 and count < 2049:
                q -= 1449 * (level + 100 * weight * math.isqrt(q) + 70 * q) // (605000 * weight)
                count += 1
            return count

        for weight in range(1000, 1100):
            low, high = 2000, 4000
            while high - low > 1:
                middle = (low + high) // 2
                low, high = (middle, high) if steps(weight, middle) <= 2048 else (low, middle)
            if steps(weight, low) == 2048:
                break
        self.assertEqual(steps(weight, low), 2048)
        more = {"rated": 0, "weight": weight, "offset": 0, "targets": "target 37768 speed 0"}
        self.assertEqual(one_line(speed=mph(low), **more), "0 0 0 0 37768")
        self.assertEqual(one_line(speed=mph(high), **more), "0 0 1 1 16777215")
        # It is no cut: a train that loses speed all the way is at the location for its own speed
        # from the first head on.  A hundredth more is one, for every speed (02, R-2).
        for allowed in (low, high, 10000):
            more["targets"] = "target 5000 speed %d" % allowed
            self.assertEqual(one_line(speed=mph(low), **more), "0 0 0 0 37768")
            self.assertEqual(one_line(speed=mph(high), **more), "0 0 1 1 16777215")
        more.update(offset=1, targets="target 37768 speed 0")
        self.assertEqual(one_line(speed=mph(low), **more), "0 0 1 1 37768")

    def test_brakes_already_applied(self):
        # Held at A 8,500 and B 1,247 (HELD of test_second_states), 10.00 mph, q 1,000,000.  The loss
        # is (1,000,000 F + 1,400,000,000 + 100,000 s + 70 q) x 1,449 / 605,000,000.
        #        s    drop     p       F     loss        q       t
        # 1  1,000       0  1,247  38,968   97,090  902,910   1,090
        # 2    950      93  1,479  46,218  114,425  788,485   2,238
        # 3    887     191  1,724  53,875  132,730  655,755   3,467
        # 4    809     297  1,989  62,156  152,522  503,233   4,815
        # 5    709     412  2,277  71,156  174,028  329,205   6,353
        # 6    573     544  2,607  81,468  198,664  130,541   8,256
        # 7    361     707  3,014  94,187  229,043 stops it: 7 x 16 = 112 ft.
        samples = [(0, 5000, "0.0", "90.0", "90.0"), (1, 5000, "0.0", "85.0", "85.0"),
                   (6, 5000, "0.0", "85.0", "85.0"), (7, 5000, mph(1000), "85.0", "85.0")]
        samples[2:2] = [(i, 5000, "0.0", "85.0", "85.0") for i in range(2, 6)]
        self.assertEqual(printed(samples)[-1], "7 2 0 0 5112")
        # Charged, with A 9,000 and B 0:
        #  1  1,000       0      0       0    3,760  996,240   1,090
        #  2    998      93    232   7,250   21,123  975,117   2,183
        #  3    987     187    467  14,593   38,703  936,414   3,288
        #  4    967     281    702  21,937   56,281  880,133   4,416
        #  5    938     378    945  29,531   74,453  805,680   5,579
        #  6    897     478  1,195  37,343   93,140  712,540   6,795
        #  7    844     582  1,455  45,468  112,572  599,968   8,087
        #  8    774     693  1,732  54,125  133,270  466,698   9,496
        #  9    683     813  2,032  63,500  155,680  311,018  11,093
        # 10    557     950  2,375  74,218  181,293  129,725  13,051
        # 11    360   1,118  2,795  87,343  212,651 stops it: 176 ft.
        self.assertEqual(one_line(speed=mph(1000)), "0 0 0 0 5176")


if __name__ == "__main__":
    unittest.main()
