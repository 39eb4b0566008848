"""The picture of the crates."""
import re
import unittest

from shared import crates

from . import script

BOX = re.compile(r'<rect x="([\d.]+)" y="([\d.]+)" width="([\d.]+)" height="([\d.]+)" rx="6"/><text [^>]*>(\w+)</text>')


class Picture(unittest.TestCase):
    @classmethod
    def setUpClass(cls) -> None:
        cls.drawing = script("crates-picture")
        cls.text = cls.drawing.picture()
        cls.boxes = {name: tuple(map(float, sides)) for *sides, name in BOX.findall(cls.text)}

    def test_each_crate_is_above_those_that_it_uses(self) -> None:
        self.assertEqual(set(crates.uses()), set(self.boxes))
        for name, below in crates.uses().items():
            for it in below:
                # all tests use it, and no line leads there
                if it != crates.FIXTURES:
                    self.assertLess(self.boxes[name][1], self.boxes[it][1], (name, it))

    def test_boxes_are_apart_and_inside(self) -> None:
        width, height = map(float, re.findall(r'viewBox="0 0 ([\d.]+) ([\d.]+)"', self.text)[0])
        for name, (x, y, wide, high) in self.boxes.items():
            self.assertTrue(0 < x and x + wide < width and 0 < y and y + high < height, name)
            for other, (left, top, size, _) in self.boxes.items():
                self.assertTrue(name == other or top != y or x + wide < left or left + size < x, (name, other))

    def test_there_is_a_way_down_to_each_crate_that_is_used(self) -> None:
        direct = self.drawing.direct()
        for name, needed in crates.needed().items():
            reached, left = set(), [name]
            while left:
                reached.update(direct[left[-1]])
                left += direct[left.pop()]
            self.assertEqual(needed - {crates.FIXTURES}, reached, name)

    def test_kinds(self) -> None:
        kinds = self.drawing.kinds()
        self.assertEqual(set(self.drawing.COLORS), set(kinds.values()))
        self.assertEqual("library types programs tests".split(), [kinds[it] for it in ("picky_der_core", "der_cms", "der_show", "der_rows")])
