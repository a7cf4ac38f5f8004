"""Tests of the second program: how it reads standard input, and that it has no undefined behaviour."""

import os
import random
import select
import subprocess
import tempfile
import unittest

import built
from here import example, examples, feeds
from second_program import CASE, EVERLASTING, made, parts, run

# 16 consist, 1 for no blocks, 2 + 12 profile, 1 + 5 targets, samples from 37 on.
WHOLE = made(CASE[:2], targets="target 5531 speed 0")
LINES = ["0 0 0 0 5000\n0 0 0 0 0\n", "1 0 1 1 5032\n1 0 0 0 5032\n"]


class Program(unittest.TestCase):
    """The reading of standard input."""

    def test_cut_at_every_byte(self):
        for end in range(len(WHOLE) + 1):
            if end < 16:
                want = "x 2\n"
            elif end < 17:
                want = "x 13\n"
            elif end < 31:
                want = "x 6\n"
            elif end < 37:
                want = "x 7\n"
            else:
                want = "".join(LINES[:(end - 37) // 20])
                if (end - 37) % 20:
                    want += "x 2\n"
            with self.subTest(end=end):
                self.assertEqual(run(WHOLE[:end]), want)

    def test_refused_consist_ends(self):
        self.assertEqual(run(bytes(16) + WHOLE[16:]), "x 4\n")

    def test_broken_profile_ends(self):
        self.assertEqual(run(WHOLE[:30] + b"\1" + WHOLE[31:]), "x 6\n")

    def test_broken_targets_end(self):
        self.assertEqual(run(WHOLE[:32] + b"\xff" + WHOLE[33:]), "x 7\n")

    def test_refused_sample_does_not_end(self):
        data = WHOLE[:37] + b"\0" * 20 + WHOLE[37:]
        self.assertEqual(run(data), "x 3\n" + "".join(LINES))

    def test_nothing_is_read_on(self):
        # (feed, how many bytes are needed to know the answer)
        after = b"\0" * 5000
        for data, needed in (
                (bytes(16), 16),
                (WHOLE[:16] + b"\x41", 17),
                (WHOLE[:16] + b"\1\0\0\0\0", 21),
                (WHOLE[:17] + b"\0\1", 19),
                (WHOLE[:17] + b"\1\2", 19),
                (WHOLE[:31] + b"\x09", 32),
                (WHOLE[:32] + b"\xff" + WHOLE[33:37], 37)):
            with tempfile.TemporaryFile() as file:
                file.write(data + after)
                file.flush()
                os.lseek(file.fileno(), 0, os.SEEK_SET)
                subprocess.run([built.second()], stdin=file, stdout=subprocess.DEVNULL, check=True)
                self.assertEqual(os.lseek(file.fileno(), 0, os.SEEK_CUR), needed)

    def test_both_lines_as_soon_as_their_sample(self):
        with subprocess.Popen([built.second()], stdin=subprocess.PIPE, stdout=subprocess.PIPE,
                              bufsize=0) as child:
            child.stdin.write(WHOLE[:56])
            self.assertEqual(select.select([child.stdout], [], [], 0.1)[0], [])
            child.stdin.write(WHOLE[56:57])
            self.assertTrue(select.select([child.stdout], [], [], 10)[0])
            self.assertEqual(child.stdout.read(100), LINES[0].encode())
            child.stdin.write(WHOLE[57:])
            self.assertTrue(select.select([child.stdout], [], [], 10)[0])
            self.assertEqual(child.stdout.read(100), LINES[1].encode())
            child.stdin.close()
            self.assertEqual(child.stdout.read(100), b"")


class Sanitized(unittest.TestCase):
    """No undefined behaviour: the program built with sanitizers says the same."""

    def same(self, given, words=()):
        names = [os.path.join(built.place(), name) for name in ("feeds", "one")]
        with open(names[0], "wb") as file:
            for data in given:
                file.write(len(data).to_bytes(4, "big") + data)
        # the search for leaks takes seconds, and nothing is allocated
        done = subprocess.run([built.checked(), *names, *words], stdout=subprocess.PIPE, stderr=subprocess.PIPE, check=False,
                              env=dict(os.environ, ASAN_OPTIONS="detect_leaks=0"))
        self.assertEqual((done.returncode, done.stderr), (0, b""))
        self.assertEqual(done.stdout.decode(), "".join(run(data, words=words) + "end\n" for data in given))

    def test_random_feeds(self):
        given = [feeds.random_feed(seed) for seed in range(300)]
        self.same(given)
        self.same(given[:100], EVERLASTING)

    def test_examples_and_figures(self):
        names = examples() + ["figures/" + name for name in examples("figures")]
        self.assertIn("figures/steepest", names)
        self.same([feeds.make(example(name)) for name in names])

    def test_blocks(self):
        # Whole, with a bit of the count or of the blocks changed, and cut somewhere in them.
        draw = random.Random(6)
        given = []
        for number in range(150):
            count = draw.choice((1, 2, 3, 63, 64))
            data = bytearray(made(CASE, blocks=zip(parts(draw, count, 600), parts(draw, count, 1000)),
                                  profile="profile 0\nprofile 4500 grade -100\nprofile 4900 grade 100\nprofile 40000"))
            if number % 3 == 1:
                data[16 + draw.randrange(1 + 4 * count)] ^= 1 << draw.randrange(8)
            elif number % 3 == 2:
                del data[17 + draw.randrange(4 * count):]
            given.append(bytes(data))
        self.same(given)
        self.assertNotIn("x", "".join(run(data) for data in given[::3]))
        self.assertEqual({run(data) for data in given[2::3]}, {"x 13\n"})

    def test_garbage(self):
        draw = random.Random(5)
        given = []
        for number in range(600):
            data = bytes(draw.getrandbits(8) for _ in range(draw.getrandbits(7)))
            if number % 3:
                data = WHOLE[:draw.choice((16, 17, 19, 31, 32, 37, 57))] + data
            given.append(data)
        self.same(given)


if __name__ == "__main__":
    unittest.main()
