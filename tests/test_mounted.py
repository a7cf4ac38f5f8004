"""Tests of what a customer mounts, over a stand-in for the archive (standin.c): python3 -m unittest discover -s tests"""

import ctypes
import os
import re
import subprocess
import unittest

import built
from here import EXAMPLES, ROOT
from feeds import random_feed

FLAGS = ["-DSECOND_NO_MAIN", "-I" + os.path.join(ROOT, "include")]
HEADER = os.path.join(ROOT, "include", "buongilach.h")
STANDIN = [os.path.join(ROOT, "tests", name) for name in ("standin.c", "standin_consists.c", "standin_learning.c",
                                                          "standin_rears.c", "standin_sessions.c")]
LEARNT = os.path.join(ROOT, "tests", "learnt.c")
MANIFEST = os.path.join(ROOT, "tests", "manifest.c")
QUIET = os.path.join(ROOT, "tests", "quiet.c")
HOSTILE = sorted(os.path.join(EXAMPLES, "hostile", name) for name in os.listdir(os.path.join(EXAMPLES, "hostile"))
                 if name.endswith(".c"))
# The stand-in takes its answers from the rules that hostile expects.
EXPECTED = [os.path.join(EXAMPLES, "hostile", name) for name in ("expected.c", "expected_consist.c", "expected_held.c",
                                                                 "expected_learning.c")]
SESSION_BYTES = 326


def build(name, *sources):
    """A program over the stand-in, whose parts are compiled once for all."""
    parts = dict.fromkeys([*sources, *STANDIN, *EXPECTED, built.SECOND])
    return built.build(name, *[built.compiled(part, *FLAGS) if part.endswith(".c") else part for part in parts])


def page(name):
    with open(os.path.join(ROOT, "docs", name), encoding="utf-8") as file:
        return file.read()


def lines(program, given=b"", words=()):
    return subprocess.run([program, *words], input=given, stdout=subprocess.PIPE, check=True, timeout=60).stdout


def section_of(heading):
    """Of the page for whoever mounts it."""
    return page("MOUNTING.md").split("## %s\n" % heading)[1].split("\n## ")[0]


def shown(name, heading, source):
    """What a program prints with the lines that a section shows."""
    snippet, made = (os.path.join(built.place(), name + end) for end in (".h", ".o"))
    with open(snippet, "w", encoding="utf-8") as file:
        file.write("\n".join(re.findall(r"^    .*$", section_of(heading), re.M)) + "\n")
    subprocess.run([*built.COMPILE, *FLAGS, '-DSNIPPET="%s"' % snippet, "-c", "-o", made, source], check=True)
    return lines(build(name, made))


class Header(unittest.TestCase):

    def test_c_and_cpp(self):
        for words in (["gcc", "-std=c11", "-x", "c"], ["g++", "-std=c++11", "-x", "c++"], ["g++", "-std=c++20", "-x", "c++"]):
            with self.subTest(words=words):
                subprocess.run([*words, "-pedantic", "-Wall", "-Wextra", "-Werror", "-fsyntax-only", HEADER], check=True)


class Examples(unittest.TestCase):

    @classmethod
    def setUpClass(cls):
        cls.mounted = build("mounted", os.path.join(EXAMPLES, "mounted.c"))
        cls.case = build("case", os.path.join(EXAMPLES, "case.c"))
        cls.second = built.second()

    def test_mounted_prints_what_second_prints(self):
        feeds = [random_feed(seed) for seed in range(120)] + [random_feed(seed, "manifest") for seed in range(40)]
        whole, blocks = random_feed(0, "trip"), random_feed(0, "manifest")
        feeds += [whole[:length] for length in range(0, 16 + 1 + 2 + 6 * 3 + 1)] + [whole[:-1], b""]
        feeds += [blocks[:length] for length in range(16, 16 + 1 + 4 * blocks[16] + 3)]
        feeds += [blocks[:16] + bytes([count]) + blocks[17:] for count in (0, 1, blocks[16] + 1, 64, 65, 255)]
        for number, given in enumerate(feeds):
            for words in ((), ("everlasting",)):
                with self.subTest(number=number, words=words):
                    self.assertEqual(lines(self.mounted, given, words), lines(self.second, given, words))

    def test_mounted_takes_one_word(self):
        """Any other is an error, before a byte is read."""
        for words in (("ever",), ("everlasting!",), ("",), ("0",), ("everlasting", "everlasting"), ("everlasting", "")):
            with self.subTest(words=words), open(os.path.join(EXAMPLES, "case.c"), "rb", buffering=0) as given:
                done = subprocess.run([self.mounted, *words], stdin=given, stdout=subprocess.PIPE, stderr=subprocess.PIPE,
                                      check=False, timeout=60)
                self.assertEqual((done.returncode, done.stdout, given.tell()), (2, b"", 0))
                self.assertRegex(done.stderr, rb"^[^\n]+\n$")

    def test_case(self):
        self.assertEqual(lines(self.case), b"0 0 0 0 5000\n0 0 0 0 0\n1 0 1 1 5032\n1 0 0 0 5032\n2 0 1 1 5001\n2 0 0 0 5001\n")

    def test_case_in_cpp(self):
        made = os.path.join(built.place(), "case-cpp.o")
        subprocess.run(["g++", "-Wall", "-Wextra", "-Werror", "-I" + os.path.dirname(HEADER), "-c", "-o", made, "-x", "c++",
                        os.path.join(EXAMPLES, "case.c")], check=True)
        self.assertEqual(lines(build("case-cpp", made)), lines(self.case))

    def test_the_page_shows_the_case(self):
        programs = re.findall(r"```c\n(.*?)```", page("MOUNTING.md"), re.S)
        with open(os.path.join(EXAMPLES, "case.c"), encoding="utf-8") as file:
            self.assertEqual(programs, [file.read()])

    def test_the_page_shows_a_train_in_blocks(self):
        """Its lines open the session of which the page tells."""
        self.assertEqual(shown("manifest", "A train in blocks", MANIFEST), b"0 0 1 1 14520\n1 0 1 1 14549\n")
        self.assertIn("14,520 ft", section_of("A train in blocks"))

    def test_the_page_shows_the_everlasting_choice(self):
        """The default still charges, where the value that is kept for ever has charged."""
        self.assertEqual(shown("quiet", "A rear device that goes quiet", QUIET),
                         b"14 5 0 0 5000\n14 5 0 0 0\n14 0 0 0 5000\n14 0 0 0 0\n")

    def test_the_page_shows_the_learnt_time(self):
        """Its lines write it down when it is learnt, and not again."""
        told = shown("learnt", "The application time is learnt", LEARNT).decode().split("\n")
        self.assertEqual([line for line in told if "ms" in line], ["0: application time 30000 ms", "7: application time 10696 ms"])
        self.assertIn("10696 ms", section_of("The application time is learnt"))

    def test_the_paper_has_the_sessions_just_opened(self):
        """docs/RECORDS.md shows the bytes that an opening leaves, without blocks and with."""
        standin = built.library("standin.so", *FLAGS, *STANDIN, *EXPECTED, built.SECOND)
        records = [bytes.fromhex(words) for words in re.findall(
            r"^\| (?:manifest, the )?(?:consist|session)[^|]*\| `([0-9A-F ]+)` \|$", page("RECORDS.md"), re.M)]
        self.assertEqual([len(each) for each in records], [16, 66, 24, 78])
        for consist, session in (records[:2], records[2:]):
            room = ctypes.create_string_buffer(b"\xa5" * 335, 335)
            self.assertEqual(standin.buongilach_open(room, ctypes.c_size_t(335), consist, ctypes.c_size_t(len(consist))), 0)
            self.assertEqual(room.raw, session.ljust(SESSION_BYTES, b"\0") + b"\xa5" * 9)


class Hostile(unittest.TestCase):

    @classmethod
    def setUpClass(cls):
        cls.hostile = build("hostile", *HOSTILE)

    def run_hostile(self, fault):
        return subprocess.run([self.hostile], env={**os.environ, "PLANTED": fault}, stdout=subprocess.PIPE,
                              stderr=subprocess.PIPE, check=False, timeout=300)

    def test_no_fault(self):
        done = self.run_hostile("")
        self.assertEqual(done.returncode, 0, done.stderr)
        self.assertRegex(done.stdout, rb"^hostile: \d+ calls, 0 faults; ")

    def test_every_planted_fault_is_found(self):
        faults = []
        for name in STANDIN:
            with open(name, encoding="utf-8") as file:
                faults += re.findall(r'planted\("(.*?)"\)', file.read())
        self.assertGreater(len(faults), 50)
        for fault in dict.fromkeys(faults):
            with self.subTest(fault=fault):
                done = self.run_hostile(fault)
                self.assertEqual(done.returncode, 1)
                self.assertIn(b"hostile: ", done.stderr)


if __name__ == "__main__":
    unittest.main()
