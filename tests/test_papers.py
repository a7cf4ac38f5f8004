"""Tests of the papers: each file that docs/DEMANDS.md names is there and has what the row says of it; every link leads somewhere."""
import os
import re
import unittest

from here import ROOT

# Retired numbers: no refusal has one of them, and none is to get one.
RETIRED = (11,)


def text_of(path):
    with open(os.path.join(ROOT, path), encoding="utf-8") as f:
        return f.read()


def said_in(path):
    """What a file says, a proof's or a statement's without its comments."""
    text = text_of(path)
    return re.sub(r"--.*", "", text) if path.endswith(".antt") else text


def rows(paper):
    """The cells of each row of a table, but for its head."""
    for line in paper.splitlines():
        cells = [cell.strip() for cell in line.strip("|").split("|")]
        if line.startswith("|") and len(cells) == 3 and cells[0] != "sentence" and set(cells[0]) != {"-"}:
            yield cells


class Papers(unittest.TestCase):
    def test_demands(self):
        count = 0
        for sentence, carried, place in rows(text_of("docs/DEMANDS.md")):
            path = place.strip("`")
            self.assertTrue(os.path.exists(os.path.join(ROOT, path)), path)
            for name in re.findall(r"`([\w-]+)`", carried):
                count += 1
                self.assertTrue(re.search(rf"(?<![\w-]){name}(?![\w-])", said_in(path)), f"{path} has no {name}: {sentence}")
        self.assertGreater(count, 20)

    def test_refusals(self):
        """The header and the customer's table have every refusal of the definition, under its number."""
        defined = {name: int(number) for name, number in
                   re.findall(r"^number_of (\w+) = (\d+)$", text_of("crates/refusal/specs/Number.antt"), re.M)}
        enum = re.search(r"enum buongilach_refusal \{(.*?)\n\}", text_of("include/buongilach.h"), re.S)[1]
        header = {name.replace("_", "").lower(): int(number) for name, number in
                  re.findall(r"BUONGILACH_(\w+) = (\d+)", enum)}
        self.assertEqual(header, {"accepted": 0, **{name.lower(): number for name, number in defined.items()}})
        table = text_of("docs/MOUNTING.md")
        told = [int(number) for number in re.findall(r"^\| (\d+) \| [^|]+ \| [^|]+ \|$", table, re.M)]
        self.assertEqual(told, sorted(defined.values()))
        for number in RETIRED:
            self.assertNotIn(number, told)
            self.assertIn(f"/* {number} is retired: ", enum)
            self.assertRegex(table, rf"(?m)^{number} is retired: .* will not be used again\.$")
            # nor does a call's list of what it refuses name it
            for said in re.findall(r"\bRefuses ([^.]*)\.", text_of("include/buongilach.h")):
                self.assertNotRegex(said, rf"\b{number}\b")

    def test_links(self):
        code = r"(?ms)^```.*?^```|`[^`\n]*`"
        for folder in ("", "docs"):
            for name in os.listdir(os.path.join(ROOT, folder)):
                if name.endswith(".md"):
                    for link in re.findall(r"\]\(([^)#:]+)\)", re.sub(code, "", text_of(os.path.join(folder, name)))):
                        self.assertTrue(os.path.exists(os.path.join(ROOT, folder, link)), f"{name}: {link}")


if __name__ == "__main__":
    unittest.main()
