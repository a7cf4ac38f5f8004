"""Tests of the second program: R-5 of 02, emergency behind the penalty: its stop and its call.

The train is that of 01's case on the level, and most walks start at head 5,000 with 10.00 mph.  The loss of a step is then
(1,000,000 F + 1,400,000,000 + 100,000 s + 70 q) x 1,449 / 605,000,000, and F is 200,000 p / 6,400.
"""

import ctypes
import math
import random
import unittest

from built import core
from second_program import Prediction, Sample, TRAIN, Targets, held, started
from second_walks import NONE, average, profile_of

DOWN = ((0, -500), (60000, 0))      # 5 % downhill: without brakes no train stops there
LEVEL = ((0, 0), (60000, 0))


def predicted(session, targets=(), speed=1000, head=5000, ground=LEVEL, call="second_predict_emergency"):
    """The stop and the cause of a prediction; a target is its location and speed."""
    lent = Targets(records=len(targets))
    for i, (location, allowed) in enumerate(targets):
        lent.location[i], lent.speed[i] = location, allowed
    function = getattr(core(), call)
    function.restype = Prediction
    found = function(ctypes.byref(session), ctypes.byref(Sample(head=head, speed=speed)), ctypes.byref(profile_of(ground)),
                     ctypes.byref(lent))
    return found.stop, found.cause


class Stop(unittest.TestCase):
    """The walk by emergency air."""

    def test_charged(self):
        # A 9,000, equalization 7,714.
        #       s   drop      p        F     loss        q      t
        # 1  1,000      0      0        0    3,760  996,240  1,090
        # 2    998    140    840   26,250   66,628  929,612  2,183
        # 3    964    280  1,680   52,500  129,479  800,133  3,314
        # 4    894    426  2,556   79,875  195,005  605,128  4,534
        # 5    777    583  3,498  109,312  265,447  339,681  5,938
        # 6    582    763  4,578  143,062  346,188 stops it: 96 ft.
        self.assertEqual(predicted(held(0)), (5096, 0))
        # The service needs 176 (test_second_walk).
        self.assertEqual(predicted(held(0), call="second_predict"), (5176, 0))

    def test_low_nominal(self):
        # Front 9,000 and rear 5,000: nominal 7,000.  94,000 / 14 = 6,714, 94,000 / 12 = 7,833.
        # 1  1,000      0      0        0    3,760  996,240  1,090
        # 2    998    121    726   22,687   58,095  938,145  2,183
        # 3    968    244  1,464   45,750  113,315  824,830  3,309
        # 4    908    370  2,220   69,375  169,864  654,966  4,510
        # 5    809    504  3,024   94,500  229,988  424,978  5,858
        # 6    651    655  3,930  122,812  297,720  127,258  7,533
        # 7    356    842  5,052  157,875  381,576 stops it: 112 ft.
        self.assertEqual(predicted(held(0, front=9000, rear=5000)), (5112, 0))
        # The other way round the difference is 0.
        self.assertEqual(predicted(held(0, front=5000, rear=9000)), (5096, 0))

    def test_applying_service(self):
        # A and B are those of a charged train yet, and so is the stop: not by the held 6,428.
        self.assertEqual(predicted(held(1, equalization=6428)), (5096, 0))

    def test_holding_service(self):
        # A 8,500, B 1,247, nominal 9,000: (42,500 + 2,494 + 63,000) / 14 = 7,713, 105,500 / 12 = 8,791.
        # 1  1,000      0  1,247   38,968   97,090  902,910  1,090
        # 2    950    117  1,949   60,906  149,604  753,306  2,238
        # 3    867    241  2,693   84,156  205,244  548,062  3,496
        # 4    740    376  3,503  109,468  265,802  282,260  4,970
        # 5    531    535  4,457  139,281  337,111 stops it: 80 ft.
        # Equalization from A combined, 7,817, would need 96.
        self.assertEqual(predicted(held(2, 8500, 1247, equalization=6428)), (5080, 0))

    def test_applying_emergency(self):
        # One second into an emergency from 9,000 to 7,714 by 129 a second: A 8,871, B 774.
        # 1  1,000      0    774   24,187   61,689  938,311  1,090
        # 2    968    126  1,530   47,812  118,253  820,058  2,216
        # 3    905    256  2,310   72,187  176,598  643,460  3,421
        # 4    802    395  3,144   98,250  238,965  404,495  4,781
        # 5    635    553  4,092  127,875  309,838   94,657  6,498
        # 6    307    751  5,280  165,000  398,624 stops it: 96 ft.
        # A rear of 0, nominal 4,500, is of no account: combined once more it would need 112.
        for rear in (9000, 0):
            self.assertEqual(predicted(held(3, 8871, 774, rear=rear, equalization=7714)), (5096, 0))

    def test_holding_emergency(self):
        # No drop: p is 7,716 throughout, F 241,125.
        # 1  1,000   loss 581,264   q 418,736
        # 2    647        581,082 stops it: 32 ft.
        self.assertEqual(predicted(held(4, 7714, 7716, equalization=7714)), (5032, 0))
        # From 40.00 mph 448 ft (by the model below); combined once more it would be 432.
        self.assertEqual(self.model(4000, 7714, 7716, 7714), 5448)
        self.assertEqual(predicted(held(4, 7714, 7716, equalization=7714), speed=4000), (5448, 0))

    def test_charging(self):
        # A 8,500, B 0, nominal 9,000: 105,500 / 14 = 7,535, 105,500 / 12 = 8,791.
        # 1  1,000      0      0        0    3,760  996,240  1,090
        # 2    998    136    816   25,500   64,832  931,408  2,183
        # 3    965    274  1,644   51,375  126,785  804,623  3,313
        # 4    897    416  2,496   78,000  190,516  614,107  4,529
        # 5    783    568  3,408  106,500  258,715  355,392  5,922
        # 6    596    743  4,458  139,312  337,213   18,179  7,752
        # 7    134    973  5,838  182,437  440,332 stops it: 112 ft.
        self.assertEqual(predicted(held(5, 8500, 0, equalization=6427)), (5112, 0))

    def test_no_drop(self):
        # A 6,032 under 6,089: p is B, 6,429, throughout, F 200,906.
        # 1  1,000   loss 484,938   q 515,062
        # 2    717        484,789      30,273
        # 3    173        484,577 stops it: 48 ft.
        self.assertEqual(predicted(held(2, 6428, 6429, 6500, 0)), (5048, 0))

    def test_no_step_and_no_stop(self):
        self.assertEqual(predicted(held(0, rated=0), speed=0, ground=DOWN), (5000, 0))
        self.assertEqual(predicted(held(0, rated=0), speed=1, ground=DOWN), (NONE, 0))

    def test_nothing_says_that_it_stops_earlier(self):
        # Decision 110.  A 8,000, B 2,500, and nominal 1,000 by a front of 16,000 and a rear of 0: A is
        # 47,000 / 12 = 3,916 and equalization 52,000 / 14 = 3,714, so that p comes to 2,500 + 6 x 202 =
        # 3,712 at most; by the service to 2,500 + 5/2 x (8,000 - 6,428) = 6,430.
        session = held(2, 8000, 2500, 16000, 0)
        self.assertEqual(started(session), (3916, 2500, 3714))
        service, _ = predicted(session, speed=4000, call="second_predict")
        emergency, _ = predicted(session, speed=4000)
        self.assertLess(service, emergency)
        self.assertEqual(emergency, self.model(4000, 3916, 2500, 3714))

    def model(self, speed, a, b, equalization, ground=LEVEL, **train):
        """The stop once more, from the papers."""
        given = dict(TRAIN, **train)
        weight = given["weight"]
        q, t, head = speed * speed, 0, 5000
        while q > 0 and head < 5000 + 32768:
            s = math.isqrt(q)
            drop = max(0, min((a - equalization) * t // 10000, a - equalization))
            force = given["rated"] * (b + 6 * drop) // 6400
            q -= 1449 * (1000000 * force + 600000 * weight + 20000000 * given["axles"] + 100 * weight * s
                         + 7 * given["cars"] * q + 2000 * weight * average(ground, head, 600)) // (605000 * weight)
            t += 12000000 // (11 * s)
            head += 16
        return head if q <= 0 else NONE

    def test_many(self):
        draw = random.Random(5)
        none = 0
        for _ in range(400):
            state, a, b = draw.randrange(6), draw.randint(3000, 11000), draw.choice((0, draw.randint(0, 9434)))
            front, rear = draw.randint(0, 16000), draw.randint(0, 16000)
            equalization = draw.randint(3000, 9000)
            train = {"set": draw.randint(7000, 11000), "weight": draw.randint(100, 30000),
                     "rated": draw.choice((20000, 200000, draw.randint(0, 10 ** 7)))}
            speed = draw.choice((1, 300, 2500, 10000))
            # one grade, or another from somewhere under the train or ahead of it on
            grade = draw.choice((0, 0, -50, -150, 500))
            ground = ((0, grade), (draw.randint(4401, 6000), draw.choice((grade, draw.randint(-200, 200)))), (60000, 0))
            nominal = max(0, train["set"] - max(0, front - rear) // 2)
            if state in (3, 4):
                air = a, b, equalization
            else:
                air = (5 * a + 7 * nominal) // 12, b, (5 * a + 2 * b + 7 * nominal) // 14
            session = held(state, a, b, front, rear, equalization, **train)
            stop = self.model(speed, *air, ground, **train)
            self.assertEqual(started(session), air)
            self.assertEqual(predicted(session, speed=speed, ground=ground), (stop, 0))
            none += stop == NONE
        self.assertTrue(20 < none < 300)


class Called(unittest.TestCase):
    """ "Emergency is called if the stop is at or past a judged target of speed 0, with no offset." """

    def cause(self, *targets, **more):
        """By a charged train that stops at 5,096."""
        stop, cause = predicted(held(0, **more), targets)
        self.assertEqual(stop, 5096)
        return cause

    def test_at_or_past(self):
        self.assertEqual(self.cause((5095, 0)), 1)
        self.assertEqual(self.cause((5096, 0)), 1)
        self.assertEqual(self.cause((5097, 0)), 0)          # a foot short of it

    def test_no_offset(self):
        for offset in (0, 500, 4000):
            self.assertEqual(self.cause((5096, 0), offset=offset), 1)
            self.assertEqual(self.cause((5097, 0), offset=offset), 0)

    def test_speed_above_zero(self):
        for location in (5000, 5095, 5096, 5097):
            for speed in (1, 1000, 10000):
                self.assertEqual(self.cause((location, speed)), 0)

    def test_judged(self):
        self.assertEqual(self.cause((5000, 0)), 1)
        self.assertEqual(self.cause((4999, 0)), 0)          # behind the head
        self.assertEqual(self.cause((0, 0)), 0)

    def test_no_stop_is_past_every_judged_target(self):
        # 5,000 + 32,768 = 37,768.
        for target, called in (((4999, 0), 0), ((5000, 0), 1), ((37768, 0), 1), ((37769, 0), 0), ((4000000, 0), 0),
                               ((37768, 1), 0), ((5000, 10000), 0)):
            self.assertEqual(predicted(held(0, rated=0), [target], ground=DOWN), (NONE, called))

    def test_at_rest(self):
        # The stop is the head: the letter, "at or past".
        self.assertEqual(predicted(held(0), [(5000, 0)], speed=0), (5000, 1))
        self.assertEqual(predicted(held(0), [(5001, 0)], speed=0), (5000, 0))
        self.assertEqual(predicted(held(0), [(4999, 0)], speed=0), (5000, 0))

    def test_first_such_target(self):
        self.assertEqual(self.cause(), 0)
        # Behind; with a speed; past; at; short.
        self.assertEqual(self.cause((4999, 0), (5010, 1), (5050, 0), (5096, 0), (5097, 0)), 3)
        self.assertEqual(self.cause((4999, 0), (5010, 1), (5096, 0), (5097, 0)), 3)
        self.assertEqual(self.cause((4999, 0), (5010, 1), (5097, 0)), 0)
        # Each of the list's eight places.
        for place in range(1, 9):
            self.assertEqual(self.cause(*((5000 + i, int(i < place)) for i in range(1, 9))), place)

    def test_own_call(self):
        # Whatever stands already, the prediction's is this list's; and it changes nothing.
        for stood in (0, 3):
            session = held(0, front=9000, rear=5000)
            session.cause = session.emergency = stood
            before = bytes(session)
            self.assertEqual(predicted(session, [(5050, 1), (5060, 0)]), (5112, 2))
            self.assertEqual(bytes(session), before)


if __name__ == "__main__":
    unittest.main()
