"""Where the nodes of a graph are drawn."""
import unittest

from shared import layers

# two ways from the top to the bottom, and one that passes a row; `alone` leads nowhere, and is needed at the top
GRAPH = {"bottom": [], "left": ["bottom"], "right": ["bottom"], "top": ["left", "right", "bottom", "alone"], "alone": []}


def width_of(node: layers.Node) -> float:
    """The width of a node."""
    return 50 if isinstance(node, str) else 0


class Layers(unittest.TestCase):
    def test_each_is_above_those_that_it_leads_to(self) -> None:
        self.assertEqual({"bottom": 0, "left": 1, "right": 1, "top": 2, "alone": 1}, layers.heights(GRAPH))

    def test_a_line_that_passes_a_row(self) -> None:
        rows, links = layers.layered(GRAPH)
        passing = ("top", "bottom", 1)
        self.assertEqual([["bottom"], ["left", "right", "alone", passing], ["top"]], rows)
        self.assertEqual((["left", "right", passing, "alone"], ["bottom"]), (links["top"], links[passing]))
        self.assertEqual(["left", "right", passing], layers.turned(links)["bottom"])

    def test_crossings(self) -> None:
        graph = {"a": [], "b": [], "c": ["b"], "d": ["a"], "e": ["a", "b"]}
        rows, links = layers.layered(graph)
        self.assertEqual(2, layers.crossed(rows, links))
        found = layers.arranged(rows, links)
        self.assertEqual(0, layers.crossed(found, links))
        self.assertEqual([set(it) for it in rows], [set(it) for it in found])

    def test_places_are_apart_and_near_the_wanted_ones(self) -> None:
        self.assertEqual([0, 10, 20], layers.spread([0, 10, 20], [10, 10], [1, 1, 1]))
        self.assertEqual([-5, 5, 40], layers.spread([0, 0, 40], [10, 10], [1, 1, 1]))
        self.assertEqual([-9, 1], layers.spread([0, 0], [10], [1, 9]))

    def test_boxes_do_not_touch_and_lines_are_upright(self) -> None:
        rows, links = layers.layered(GRAPH | {"user": ["bottom", "top"]})
        place = layers.placed(rows, links, width_of, 10)
        for row in rows:
            for one, other in zip(row, row[1:]):
                self.assertGreaterEqual(place[other] - place[one] + 1e-6, (width_of(one) + width_of(other)) / 2 + 10)
        passing = [it for it in place if not isinstance(it, str) and it[0] == "user"]
        self.assertEqual((2, 1), (len(passing), len({place[it] for it in passing})))
