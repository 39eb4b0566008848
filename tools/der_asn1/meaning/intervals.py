"""Sets of whole numbers, as unions of intervals."""
from dataclasses import dataclass

INFINITY = float("inf")


@dataclass(frozen=True)
class Intervals:
    """A set of whole numbers: pairs of the least and the greatest number, ascending, that don't touch each other."""

    pairs: tuple

    @classmethod
    def of(cls, *pairs: tuple[float, float]) -> "Intervals":
        """The union of pairs in any order. A pair whose first number is above the second has no number."""
        merged = []
        for low, high in sorted(it for it in pairs if it[0] <= it[1]):
            if merged and low <= merged[-1][1] + 1:
                merged[-1] = (merged[-1][0], max(merged[-1][1], high))
            else:
                merged.append((low, high))
        return cls(tuple(merged))

    def union(self, other: "Intervals") -> "Intervals":
        """The numbers of either."""
        return Intervals.of(*self.pairs, *other.pairs)

    def intersection(self, other: "Intervals") -> "Intervals":
        """The numbers of both."""
        return Intervals.of(*((max(a, c), min(b, d)) for a, b in self.pairs for c, d in other.pairs))

    def complement(self) -> "Intervals":
        """All other numbers."""
        edges, start = [], -INFINITY
        for low, high in self.pairs:
            edges.append((start, low - 1))
            start = high + 1
        return Intervals.of(*(it for it in (*edges, (start, INFINITY)) if it[0] != INFINITY and it[1] != -INFINITY))

    @property
    def low(self) -> float:
        """The least number, or minus infinity."""
        return self.pairs[0][0]

    @property
    def high(self) -> float:
        """The greatest number, or infinity."""
        return self.pairs[-1][1]

    def is_all(self) -> bool:
        """Whether it has every number."""
        return self.pairs == ((-INFINITY, INFINITY),)

    def is_one_range(self) -> bool:
        """Whether it is a single interval."""
        return len(self.pairs) == 1


ALL = Intervals.of((-INFINITY, INFINITY))
NATURAL = Intervals.of((0, INFINITY))
