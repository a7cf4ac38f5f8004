"""Tests of bench/plain/learn.c: plain C learns the application time as the second program does."""

import unittest

from feed_texts import WHOLE
from here import feeds
from test_plain import Plain, slipped


def lesson(*rears, front="88.0", step=1):
    """A train of 98 psi, which equalizes at 70, under way; its front falls at time 1, from when on these are its rears, a step
    apart, and after them a release and a second application tell the time that is in force."""
    samples = [(0, "98.0", rears[0])] + [(1 + step * place, front, rear) for place, rear in enumerate(rears)]
    last = samples[-1][0]
    samples += [(last + 1, front, "lost"), (last + 2, "98.0", "lost"), (last + 3, "88.0", "lost"), (last + 4, "88.0", "lost")]
    return feeds.make(WHOLE.replace("set 9000", "set 9800")
                      + "".join("sample %d head 5000 speed 60.0 front %s rear %s\n" % sample for sample in samples))


PARTLY = lesson(95.0, 95.0, 92.0, 89.0, 86.0, 85.5)
FULLY = lesson(95.0, 90.0, 83.0, 76.0, 69.0, 68.5)
TO_EQUALIZATION = lesson(81.25, *[78.25 - place for place in range(9)], 70.0)
GENTLY = lesson(98.0, 95.0, 94.75, 94.5, 94.25, 94.24)
BELOW = lesson(60.0, 56.5, 52.0, 47.5, 46.75)
HALF = lesson(90.0, 87.0, 82.75, 78.5, 76.75)
QUICK = lesson(60.0, 57.0, 50.0, 43.0, 42.0)
SLOW = lesson(98.0, *[98.0] * 40, *[95.0 - 0.25 * place for place in range(8)], 93.2, step=5)
LOST = lesson(95.0, "lost", 91.0, "lost", 88.0, "lost", "lost", 82.0, 81.75, step=4)
UNKNOWN = lesson("lost", "lost", 95.0, 92.0, 89.0, 86.0, 85.5)
AT_3_PSI = lesson(95.0, 92.0, 89.0, 86.0, 85.5, front="95.0")
LATE = lesson(98.0, *[98.0] * 116, 95.0, 94.0, 93.0, 92.75, step=5)
# The sample at time 7 is refused (answers): a point less than readings.
MANY = lesson(98.0, *[95.0 - 0.25 * place for place in range(257)], 30.99)
ONE_LESS = lesson(98.0, *[95.0 - 0.25 * place for place in range(256)], 31.24)


class Learning(Plain):
    """The application time, learnt."""

    def test_alike(self):
        for number, data in enumerate((PARTLY, FULLY, TO_EQUALIZATION, GENTLY, BELOW, HALF, QUICK, SLOW, LOST, UNKNOWN, AT_3_PSI,
                                       LATE, MANY, ONE_LESS)):
            with self.subTest(number=number):
                self.assertFalse(self.difference(self.plain, data))

    def test_a_slip_is_seen(self):
        """Each rule wrong by the least there is, on a train that shows it."""
        for number, (old, new, data) in enumerate((
                ("train->application = learnt_time", "train->application += 0 * learnt_time", PARTLY),
                ("rear >= equalization", "rear > equalization", TO_EQUALIZATION),
                ("933 * z - 110 * m", "933 * z - 100 * m", PARTLY),
                ("933 * z - 110 * m", "-110 * m", GENTLY),
                ("-100 * m;", "-110 * m;", FULLY),
                ("l->init + 1", "l->init", PARTLY),
                ("learnt_time(l,", "learnt_time(&more,", PARTLY),
                ("greatest(least(time, 240000), 1000)", "least(time, 240000)", QUICK),
                ("greatest(least(time, 240000), 1000)", "greatest(time, 1000)", SLOW),
                ("2 * fall * spread_of(l) <", "2 * fall * spread_of(l) <=", HALF),
                ("sample->rear <= l->pressure - THREE_PSI", "sample->rear < l->pressure - THREE_PSI", PARTLY),
                ("sample->front <= train->set - THREE_PSI", "sample->front < train->set - THREE_PSI", AT_3_PSI),
                ("l->fell >= LEARNING_SECONDS", "l->fell > LEARNING_SECONDS", LATE),
                ("l->n == POINTS", "l->n == POINTS + 1", MANY),
                ("l->n == POINTS", "l->n == POINTS - 1", ONE_LESS),
                ("if (sample->rear_present)", "", LOST))):
            with self.subTest(new=new):
                slip = slipped(self, "learning-%d" % number, old, new, "bench/plain.c", "learn.c")
                self.assertTrue(self.difference(slip, data))


if __name__ == "__main__":
    unittest.main()
