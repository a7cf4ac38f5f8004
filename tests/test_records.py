"""Tests of docs/RECORDS.md: its tables leave no bit out, are the layouts that the tools make feeds by, and read its own bytes."""

import os
import re
import unittest

from here import ROOT
from feeds import records

WITH_READINGS = {1.0: 0x3F800000, 90.0: 0x42B40000}
# what the paper says of the case, a field at a time
CASE = {
    "consist": [10, 40, 1000, 600, 200000, 30000, 50, 9000, 500],
    "profile": [0, 0, 0, 0, 40000, 0, 0, 0],
    "targets": [5531, 0],
    "sample": [0x53, 1, 1, 0, 5000, WITH_READINGS[1.0], WITH_READINGS[90.0], WITH_READINGS[90.0]],
    "decision, the penalty's": [0x44, 1, 0, 1, 1, 5032],
    "decision, emergency's": [0x45, 1, 0, 0, 0, 5032],
}
# the train of the paper's blocks
MANIFEST = [100, 400, 6000, 6000, 300000, 60000, 50, 9000, 0]
BLOCKS = [3000, 600, 0, 3000, 5400, 0]
SESSION_MOST = 326


def paper():
    with open(os.path.join(ROOT, "docs", "RECORDS.md"), encoding="utf-8") as file:
        return file.read()


def number(cell):
    return int(float(cell.replace(",", ""))) if "0x" not in cell else int(cell, 16)


def tables():
    """Of each record: its bytes by the heading, and the rows of its table, as cells."""
    for heading, count, rest in re.findall(r"^## (\w+), (\d+) bytes.*\n((?:(?!^## ).*\n)*)", paper(), re.M):
        rows = [[cell.strip() for cell in line.strip("|").split("|")] for line in rest.splitlines()
                if re.match(r"\| \d", line)]
        yield heading.lower(), int(count), rows


def widths(name):
    return [int(row[1]) for heading, _, rows in tables() if heading == name for row in rows]


def bytes_of(name):
    """The example's."""
    return bytes.fromhex(re.search(r"^\| %s[^|]*\| `([0-9A-F ]+)` \|$" % name, paper(), re.M)[1])


class Records(unittest.TestCase):

    def test_every_bit_is_drawn(self):
        names = []
        for name, count, rows in tables():
            names.append(name)
            at = 0
            for row in rows:
                first, last = map(int, row[0].split("-"))
                with self.subTest(record=name, field=row[2]):
                    self.assertEqual((first, last), (at, at + int(row[1]) - 1))
                at = last + 1
            self.assertEqual(at, 8 * count, name)
        self.assertEqual(names, ["consist", "block", "profile", "targets", "sample", "decision", "session"])

    def test_the_tools_have_the_same_layouts(self):
        self.assertEqual(widths("block"), list(records.BLOCK_WIDTHS))
        self.assertEqual(widths("profile"), list(records.PROFILE_WIDTHS))
        self.assertEqual(widths("targets"), list(records.TARGET_WIDTHS))
        self.assertEqual(widths("sample"), list(records.SAMPLE_WIDTHS))
        rows = dict((name, rows) for name, _, rows in tables())["consist"]
        self.assertEqual([(int(row[1]), number(row[4]), number(row[5])) for row in rows],
                         [field[1:] for field in records.CONSIST])

    def test_the_case_in_bytes(self):
        for name, values in CASE.items():
            with self.subTest(record=name):
                each = widths(name.split(",")[0])
                self.assertEqual(records.unpack(bytes_of(name), each * (len(values) // len(each))), values)

    def assert_sealed(self, data, check):
        """The check word: the sum of the bytes, and of their running sums."""
        running = [sum(data[:count]) for count in range(1, len(data) + 1)]
        self.assertEqual(records.unpack(check, [16, 16]), [running[-1] % 65536, sum(running) % 65536])

    def test_the_session_is_sealed(self):
        session = bytes_of("session")
        self.assertEqual(session[46:62], bytes_of("consist"))
        self.assert_sealed(session[:62], session[62:])

    def test_the_session_as_opened(self):
        """Mark, blocks, hold and A, the set pressure; all else before the consist is 0."""
        for name, blocks in (("session", 0x55), ("manifest, the session", 2)):
            values = records.unpack(bytes_of(name)[:46], widths("session")[:-3])
            self.assertEqual(values, [0x46, blocks, 0, 0, 0, 0, 0, 0, 9000, 9000] + [0] * 16)

    def test_a_train_in_blocks(self):
        consist, session = bytes_of("manifest, the consist"), bytes_of("manifest, the session")
        self.assertEqual(records.unpack(consist[:16], widths("consist")), MANIFEST)
        self.assertEqual(records.unpack(consist[16:], widths("block") * 2), BLOCKS)
        self.assertEqual((session[46:62], session[66:74]), (consist[:16], consist[16:]))
        self.assert_sealed(session[:62], session[62:66])
        self.assert_sealed(session[66:74], session[74:])

    def test_the_most_bytes_of_a_session(self):
        self.assertEqual(SESSION_MOST, 66 + records.BLOCK_BYTES * records.MOST_BLOCKS + 4)
        self.assertIn("%d at most" % SESSION_MOST, paper())


if __name__ == "__main__":
    unittest.main()
