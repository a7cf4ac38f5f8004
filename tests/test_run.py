"""Tests of ./run, and of tools/launch under it, with stand-ins for the kit and the session program."""

import os
import shutil
import subprocess
import tempfile
import unittest

from here import EXAMPLES, ROOT, TOOLS, example, feeds

# It tells its arguments and what it was given.
PROGRAM = '#!/bin/sh\necho "$# <$*> $(cksum)"\n'
# It runs the program behind --library-path and its folder.
LOADER = '#!/bin/sh\nshift 2\nexec "$@"\n'
TEXT = os.path.join(EXAMPLES, "case-5531.txt")
OTHER = os.path.join(EXAMPLES, "case-5532.txt")


class Run(unittest.TestCase):

    def setUp(self):
        folder = tempfile.TemporaryDirectory()
        self.addCleanup(folder.cleanup)
        self.place = folder.name
        shutil.copy(os.path.join(ROOT, "run"), self.place)
        os.symlink(TOOLS, os.path.join(self.place, "tools"))
        self.write("target/bin/enforce", PROGRAM)
        self.write("kit/bin/rt", "#!/bin/sh\nexit 1\n")
        self.write("kit/toolchain/lib/ld-linux-x86-64.so.2", LOADER)

    def write(self, name, text):
        path = os.path.join(self.place, name)
        os.makedirs(os.path.dirname(path), exist_ok=True)
        with open(path, "w", encoding="utf-8") as file:
            file.write(text)
        os.chmod(path, 0o755)

    def call(self, *command, data=b""):
        """Status, output and errors."""
        kit = os.path.join(self.place, "kit", "bin")
        done = subprocess.run(command, input=data, stdout=subprocess.PIPE, stderr=subprocess.PIPE, check=False,
                              cwd=self.place, env={"PATH": kit + os.pathsep + os.environ["PATH"]})
        return done.returncode, done.stdout.decode(), done.stderr.decode()

    def run_it(self, *words, data=b""):
        return self.call("./run", *words, data=data)

    def line(self, data, *words):
        """What the stand-in prints of those bytes and words."""
        said = subprocess.run(["cksum"], input=data, stdout=subprocess.PIPE, check=True).stdout.decode()
        return "%d <%s> %s" % (len(words), " ".join(words), said)

    def test_feeds_under_each_choice(self):
        made, other = (feeds.make(example(name)) for name in ("case-5531", "case-5532"))
        with open(os.path.join(self.place, "recorded"), "wb") as file:
            file.write(other)
        for choice in ((), ("everlasting",)):
            self.assertEqual(self.run_it(*choice, TEXT), (0, self.line(made, *choice), ""))
            self.assertEqual(self.run_it(*choice, "-", data=b"any"), (0, self.line(b"any", *choice), ""))
            self.assertEqual(self.run_it(*choice, TEXT, "recorded", OTHER),
                             (0, self.line(made, *choice) + 2 * self.line(other, *choice), ""))

    def test_any_other_word(self):
        # nothing is run, of the feeds before it either
        for words in (("always",), ("always", TEXT), (TEXT, "everlasting"), ("everlasting", "everlasting", TEXT),
                      ("Everlasting", TEXT), ("", TEXT), ("--everlasting", TEXT), (TEXT, "missing.txt"), (TEXT, "kit")):
            with self.subTest(words=words):
                status, out, err = self.run_it(*words)
                self.assertEqual((status, out), (2, ""))
                self.assertRegex(err, r"^run: \S* ?is no feed that can be read; .*\n$")

    def test_no_feed(self):
        for words in ((), ("everlasting",)):
            status, out, err = self.run_it(*words)
            self.assertEqual((status, out), (2, ""))
            self.assertTrue(err.startswith("run [everlasting] FEED..: "), err)

    def test_a_feed_of_that_name(self):
        with open(os.path.join(self.place, "everlasting"), "wb") as file:
            file.write(b"one")
        self.assertEqual(self.run_it("./everlasting"), (0, self.line(b"one"), ""))
        self.assertEqual(self.run_it("everlasting", "./everlasting"), (0, self.line(b"one", "everlasting"), ""))

    def test_launch_hands_on_every_word(self):
        for static in ((), ("--static",)):
            self.assertEqual(self.call("tools/launch", *static, "target/bin/enforce", "everlasting", "a b", data=b"any"),
                             (0, self.line(b"any", "everlasting", "a b"), ""))

    def test_a_missing_program_is_built_for_feeds_alone(self):
        # the stand-in of rt only fails, and where a word is wrong it is not asked
        os.remove(os.path.join(self.place, "target", "bin", "enforce"))
        self.assertEqual(self.run_it("always", TEXT)[0], 2)
        self.assertEqual(self.run_it(TEXT)[0], 1)


if __name__ == "__main__":
    unittest.main()
