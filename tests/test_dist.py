"""Tests of the release tool, on a small repository with a stand-in for rt and git."""

import hashlib
import json
import os
import shutil
import subprocess
import tempfile
import unittest
from unittest import mock

from here import load

dist = load("dist")

COMMIT = "5" * 40
CRATES = ("# numbers\nbits:\nwhole: bits\nbuongilach: bits whole\nbuongilach_c staticlib: buongilach\n"
          "enforce: buongilach itoa ryu # a program\n")
ARCHIVE = "archive\n"
MADE = "%s  target/staticlib/libbuongilach.a" % hashlib.sha256(ARCHIVE.encode()).hexdigest()
GATE = ("commit %s\n%s\ncompared 600 feeds, 9 lines (8 accepted, 1 refused)\nno difference\n"
        "hostile: 12 calls, 0 faults\n40 passed, 0 failed\n" % (COMMIT, MADE))
TOOL = "#!/bin/sh\n"


class Dist(unittest.TestCase):

    def setUp(self):
        self.root = tempfile.mkdtemp()
        self.addCleanup(shutil.rmtree, self.root)
        self.write("crates.txt", CRATES)
        self.write("VERSION", "1.2.3\n")
        self.write("gate.log", GATE)
        self.write("README.md", "not for the customer: tools/dist\n")
        self.write("release/README.md", "words\n")
        self.write("release/Makefile", "install:\n")
        self.write("release/buongilach.pc.in", "Version: @VERSION@\n")
        self.write("docs/MOUNTING.md", "words on `lib/libbuongilach.a` and docs/RECORDS.md\n")
        self.write("docs/RECORDS.md", "words\n")
        self.write("docs/DECISIONS.md", "not for the customer\n")
        self.write("include/buongilach.h", "header\n")
        self.write("examples/case.c", "program\n")
        self.write("examples/mounted.c", "program\n")
        self.write("target/staticlib/libbuongilach.a", ARCHIVE)
        self.write("crates/bits/must-fail/a.edit", "")
        self.write("crates/bits/must-fail/b.edit", "")
        self.write("crates/bits/must-fail/notes", "")
        for name, count in (("bits", 2), ("whole", 3), ("buongilach", 12), ("buongilach_c", 12)):
            self.write("target/log/%s.say" % name,
                       "fn one: proved\nlogic=proved functions=%d sum=0a native=nat\n" % count)
        self.write("target/log/enforce.say",
                   "axioms libc: libc::read, libc::write (2 of the 50 declared)\n"
                   "axioms os: none reached of the 22 declared\n"
                   "logic=proved functions=1 axioms=2 sum=0a\nlinked target=x\n")
        self.tool("rt", "[ \"$1\" != version ] || echo kit-0 logic 0a\n")
        self.tool("git", "[ \"$1\" != rev-parse ] || echo %s\n" % COMMIT)
        path = os.path.join(self.root, "bin") + os.pathsep + os.environ["PATH"]
        patch = mock.patch.dict(os.environ, PATH=path)
        patch.start()
        self.addCleanup(patch.stop)

    def write(self, name, words):
        path = os.path.join(self.root, name)
        os.makedirs(os.path.dirname(path), exist_ok=True)
        with open(path, "w") as file:
            file.write(words)

    def tool(self, name, words):
        self.write("bin/" + name, TOOL + words)
        os.chmod(os.path.join(self.root, "bin", name), 0o755)

    def release(self, draft=False):
        return dist.release(self.root, os.path.join(self.root, "dist"), draft)

    def listed(self, place):
        with open(os.path.join(place, dist.LIST)) as file:
            return json.load(file)

    def assert_unfit(self, words, call, *arguments):
        with self.assertRaises(dist.Unfit) as caught:
            call(*arguments)
        self.assertIn(words, str(caught.exception))

    def test_release(self):
        place = self.release()
        self.assertEqual(os.path.basename(place), "buongilach-1.2.3")
        self.assertEqual(dist.files_of(place), [
            "Makefile", "PROVED.json", "README.md", "VERSION", "docs/MOUNTING.md", "docs/RECORDS.md", "examples/case.c",
            "examples/mounted.c", "include/buongilach.h", "lib/libbuongilach.a", "lib/pkgconfig/buongilach.pc"])
        self.assertEqual(dist.read(place, "lib/pkgconfig/buongilach.pc"), "Version: 1.2.3\n")
        dist.verify(self.root, place)
        done = subprocess.run(["sha256sum", "--quiet", "-c", dist.SUMS], cwd=place, check=False)
        self.assertEqual(done.returncode, 0)

    def test_list(self):
        made = self.listed(self.release())
        self.assertEqual([(one["crate"], one["functions"], one["axioms"]) for one in made["proved"]],
                         [("bits", 2, 0), ("whole", 3, 0), ("buongilach", 12, 0), ("buongilach_c", 12, 0), ("enforce", 1, 2)])
        self.assertEqual(made["functions proved"], 30)
        self.assertEqual(made["proved"][4]["assumed"],
                         ["libc: libc::read, libc::write (2 of the 50 declared)"])
        self.assertEqual(made["tested"]["must-fail edits"], {"bits": 2})
        self.assertEqual(made["tested"]["gate"]["last line"], "40 passed, 0 failed")
        self.assertEqual(len(made["tested"]["gate"]["runs"]), 2)
        self.assertEqual(made["third parties"], {"the kit's crates": ["itoa", "ryu"], "others": []})
        self.assertEqual((made["commit"], made["kit"], made["draft"]), (COMMIT, "kit-0 logic 0a", False))

    def test_what_is_not_proved_is_not_released(self):
        self.write("target/log/whole.say", "fn one: proved\nlogic=not-proved\n")
        self.assert_unfit("whole is not proved", self.release)
        os.remove(os.path.join(self.root, "target/log/whole.say"))
        self.assert_unfit("whole.say", self.release)

    def test_what_an_earlier_run_proved_makes_only_a_draft(self):
        self.write("target/log/whole.say", "rt: whole is kept: an earlier run proved the same files\n")
        self.assert_unfit("whole was proved by an earlier run", self.release)
        self.assertEqual(self.listed(self.release(draft=True))["proved"][1]["functions"], 0)

    def test_no_archive_no_release(self):
        os.remove(os.path.join(self.root, "target/staticlib/libbuongilach.a"))
        self.assert_unfit("tools/build archive fails", self.release)

    def test_the_gate_must_have_passed_on_this_commit(self):
        for words in (GATE.replace("0 failed", "1 failed"), GATE.replace("commit 5", "commit 6"), ""):
            self.write("gate.log", words)
            self.assert_unfit("make check", self.release)
            self.assertIsNone(self.listed(self.release(draft=True))["tested"]["gate"])

    def test_an_archive_that_the_gate_did_not_make_makes_only_a_draft(self):
        self.write("target/staticlib/libbuongilach.a", "another\n")
        self.assert_unfit("is not the one that the gate made", self.release)
        self.assertTrue(self.listed(self.release(draft=True))["draft"])

    def test_changed_files_make_only_a_draft(self):
        self.tool("git", "[ \"$1\" = rev-parse ] && echo %s || echo ' M src'\n" % COMMIT)
        self.assert_unfit("uncommitted changes", self.release)
        self.assertTrue(self.listed(self.release(draft=True))["draft"])

    def test_a_gate_on_changed_files_is_none(self):
        self.write("gate.log", GATE.replace(COMMIT, COMMIT + " changed"))
        self.assert_unfit("no gate.log of this commit", self.release)

    def test_damage_is_seen(self):
        place = self.release()
        self.write(os.path.relpath(os.path.join(place, "lib/libbuongilach.a"), self.root), "other\n")
        self.assert_unfit("lib/libbuongilach.a is not", dist.verify, self.root, place)
        place = self.release()
        self.write(os.path.relpath(os.path.join(place, "lib/more"), self.root), "")
        self.assert_unfit("does not name the files", dist.verify, self.root, place)
        place = self.release()
        os.remove(os.path.join(place, "README.md"))
        self.assert_unfit("does not name the files", dist.verify, self.root, place)

    def test_no_paper_leads_out(self):
        for words in ("see `tools/asks`", "by rt lib", "(docs/DECISIONS.md)", "target/staticlib/libbuongilach.a"):
            with self.subTest(words=words):
                self.write("docs/RECORDS.md", words + "\n")
                self.assert_unfit("docs/RECORDS.md: ", dist.verify, self.root, self.release())

    def test_every_crate_is_named(self):
        place = self.release()
        self.write("crates.txt", CRATES + "newer: bits\n")
        self.assert_unfit("at odds over newer", dist.verify, self.root, place)
        self.write("crates.txt", CRATES.replace("whole: bits\n", ""))
        self.assert_unfit("at odds over whole", dist.verify, self.root, place)


if __name__ == "__main__":
    unittest.main()
