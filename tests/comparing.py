"""What the tests of tools/compare share: the command, and stand-ins for session programs."""

import os
import subprocess
import tempfile
import unittest

from here import PYTHON, TOOLS


class Comparing(unittest.TestCase):

    def setUp(self):
        self.place = tempfile.TemporaryDirectory()
        self.addCleanup(self.place.cleanup)

    def program(self, *lines):
        """One that takes no other word than `everlasting`, by lines of sh."""
        folder = tempfile.TemporaryDirectory()
        self.addCleanup(folder.cleanup)
        path = os.path.join(folder.name, "program")
        with open(path, "w", encoding="utf-8") as file:
            file.write("\n".join(("#!/bin/sh", *lines, "")))
        os.chmod(path, 0o755)
        return path

    def saying(self, said, after=""):
        """It prints that, under either choice, and then does what is to come after."""
        return self.program("printf '%s'" % said, after)

    def run_compare(self, *words):
        done = subprocess.run([*PYTHON, os.path.join(TOOLS, "compare"), *words], stdout=subprocess.PIPE,
                              stderr=subprocess.PIPE, check=False, cwd=self.place.name)
        return done.returncode, done.stdout.decode(), done.stderr.decode()
