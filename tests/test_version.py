"""Tests that the version is the same wherever it stands: python3 -m unittest discover -s tests"""

import os
import re
import unittest

from here import ROOT


def words(*path):
    with open(os.path.join(ROOT, *path), encoding="utf-8") as file:
        return file.read()


class Version(unittest.TestCase):

    def setUp(self):
        self.parts = [int(part) for part in words("VERSION").strip().split(".")]
        major, minor, patch = self.parts
        self.number = major * 1000000 + minor * 1000 + patch

    def test_header(self):
        header = words("include", "buongilach.h")
        self.assertEqual([int(re.search(r"BUONGILACH_VERSION_%s (\d+)" % part, header)[1])
                          for part in ("MAJOR", "MINOR", "PATCH")], self.parts)

    def test_archive(self):
        source = words("crates", "buongilach", "src", "lib.rt")
        self.assertEqual(int(re.search(r"const VERSION: u32 = ([\d_]+);", source)[1].replace("_", "")), self.number)

    def test_wrong_programs(self):
        source = words("crates", "buongilach", "src", "lib.rt")
        for name in ("major_told_as_minor", "two_digits_each"):
            old = re.search(r"^old: (.+)$", words("crates", "buongilach", "must-fail", name + ".edit"), re.M)[1]
            self.assertEqual(int(old.replace("_", "")), self.number)
            self.assertEqual(source.count(old), 1)

    def test_definition(self):
        spec = words("crates", "buongilach", "specs", "Version.antt")
        self.assertEqual([int(re.search(r"^%s = (\d+)$" % part, spec, re.M)[1])
                          for part in ("major", "minor", "patch")], self.parts)


if __name__ == "__main__":
    unittest.main()
