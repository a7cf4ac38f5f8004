"""Tests of tools/contracts: it passes as things stand, and each rule that it checks, broken in a copy, fails it."""
import os
import re
import shutil
import subprocess
import tempfile
import unittest

from here import ROOT


def write(path, text):
    with open(path, "w", encoding="utf-8") as f:
        f.write(text)


class Contracts(unittest.TestCase):
    @classmethod
    def setUpClass(cls):
        cls.copy = tempfile.mkdtemp()
        cls.addClassCleanup(shutil.rmtree, cls.copy)
        for part in ("crates", "docs", "tools"):
            shutil.copytree(os.path.join(ROOT, part), os.path.join(cls.copy, part), ignore=shutil.ignore_patterns("out"))

    def change(self, path, old, new):
        """In the copy, which the test leaves as it was."""
        path = os.path.join(self.copy, path)
        with open(path, encoding="utf-8") as f:
            text = f.read()
        self.assertIn(old, text)
        self.addCleanup(write, path, text)
        write(path, text.replace(old, new, 1))

    def run_it(self):
        return subprocess.run([os.path.join(self.copy, "tools", "contracts")], capture_output=True, text=True)

    def assert_fault(self, fault):
        ran = self.run_it()
        self.assertEqual(ran.returncode, 1)
        self.assertIn(fault, ran.stdout)

    def test_as_it_stands(self):
        ran = self.run_it()
        self.assertEqual((ran.returncode, ran.stderr), (0, ""), ran.stdout)

    def test_no_contract(self):
        self.change("crates/consist/src/lib.rt", "pub fn read(s: &[u8]) -> Result<Consist, Refusal>\n    ensures", "pub fn read(s: &[u8]) -> Result<Consist, Refusal>\n    decreases")
        self.assert_fault("consist::read has no contract on its result")

    def test_requires(self):
        self.change("crates/consist/src/lib.rt", "pub fn read(s: &[u8]) -> Result<Consist, Refusal>\n", "pub fn read(s: &[u8]) -> Result<Consist, Refusal>\n    requires { x }\n")
        self.assert_fault("consist::read has a `requires`")

    def test_requires_for_c(self):
        """Even where its row names no theorem of a customer's call."""
        self.change("docs/CONTRACTS.md", "| `buongilach_is_open` |", "| `is_open_one` |")
        name = "pub extern \"C\" fn buongilach_is_open(session: &[u8]) -> bool\n"
        self.change("crates/buongilach/src/lib.rt", name, name + "    requires { x }\n")
        self.assert_fault("buongilach::buongilach_is_open has a `requires`")

    def test_not_listed(self):
        self.change("docs/CONTRACTS.md", "`consist::is_sound`", "`consist::is_light`")
        self.assert_fault("consist::is_sound is not in docs/CONTRACTS.md")

    def test_stale_row(self):
        self.change("docs/CONTRACTS.md", "| `consist::is_sound` |", "| `consist::is_light` |")
        self.assert_fault("consist::is_light has a row in docs/CONTRACTS.md and is no public function")

    def test_no_theorem(self):
        self.change("crates/bits/proofs/Unique.antt", "pub word_one ", "pub word_two ")
        self.assert_fault("bits::word has no theorem word_one")

    def test_no_theorem_of_the_archive(self):
        self.change("crates/buongilach_c/proofs/Unique.antt", "pub buongilach_open_one ", "pub buongilach_open_two ")
        self.assert_fault("buongilach_c::buongilach_open has no theorem buongilach_open_one")

    def test_not_among_the_calls(self):
        self.change("crates/demands/specs/Calls.antt", "pub session_open ", "pub session_opens ")
        self.assert_fault("session::open has no theorem session_open")

    def programs_of_reader(self):
        """The cell of consist::read's wrong programs."""
        with open(os.path.join(self.copy, "docs/CONTRACTS.md"), encoding="utf-8") as f:
            return re.search(r"\| `consist_read` \| (.*) \|", f.read()).group(1)

    def test_no_wrong_program(self):
        first = self.programs_of_reader().split("`")[1]
        path = os.path.join(self.copy, "crates/consist/must-fail", first + ".edit")
        os.rename(path, path + ".gone")
        self.addCleanup(os.rename, path + ".gone", path)
        self.assert_fault("consist::read has no wrong program " + first)

    def test_one_wrong_program(self):
        programs = self.programs_of_reader()
        self.change("docs/CONTRACTS.md", programs, programs.partition(",")[0])
        self.assert_fault("consist::read names fewer than two wrong programs")

    def change_definition(self):
        """An edit of consist changes a definition instead of code; its name."""
        first = self.programs_of_reader().split("`")[1]
        self.change("crates/consist/must-fail/%s.edit" % first, "file: src/", "file: specs/")
        return first

    def call_definition(self, name):
        row = "| `consist::is_sound` |"
        self.change("docs/CONTRACTS.md", row, "Wrong definitions: `%s`.\n%s" % (name, row))

    def test_wrong_definition(self):
        self.assert_fault("consist/%s edits a definition and no code" % self.change_definition())

    def test_wrong_definition_called_so(self):
        self.call_definition(self.change_definition())
        self.assertNotIn("consist/", self.run_it().stdout)

    def test_wrong_definition_called_so_with_its_crate(self):
        self.call_definition("consist/" + self.change_definition())
        self.assertNotIn("consist/", self.run_it().stdout)

    def test_no_wrong_definition(self):
        first = self.programs_of_reader().split("`")[1]
        self.call_definition("consist/" + first)
        self.assert_fault("consist/%s is called a wrong definition in docs/CONTRACTS.md and is none" % first)


if __name__ == "__main__":
    unittest.main()
