"""Which folder imports from which."""
import re
import unittest
from pathlib import Path

TOP = Path(__file__).resolve().parents[1]

# the folders that each one may import from
ALLOWED = {"parse": {"parse"}, "meaning": {"parse", "meaning"}, "emit": {"parse", "meaning", "emit", "derive"}}


class Folders(unittest.TestCase):
    def test_the_front_end_knows_nothing_of_the_back_end(self):
        for folder, allowed in ALLOWED.items():
            for path in sorted((TOP / folder).glob("*.py")):
                text = path.read_text(encoding="utf-8")
                outside = re.findall(r"^\s*from \.\.(\w*)[. ]", text, re.MULTILINE)
                with self.subTest(path.name):
                    self.assertEqual(set(), set(outside) - allowed)
