"""Types that contain themselves, which are written to a depth: a type for each number of times that it may still be in itself."""
from dataclasses import dataclass
from typing import Iterable, Mapping, Optional

# how often a type is in itself, unless a flag says another number
DEPTH = 8

Key = tuple
Edges = Mapping[Key, set[Key]]


@dataclass(frozen=True)
class Level:
    """A group of types that contain each other, and how many times one may still be in itself."""

    group: Key
    left: int


@dataclass(frozen=True)
class Recursion:
    """Which types contain themselves, by the keys of their assignments: the group of each, and the `heads`, of which one is in each circle."""

    groups: Mapping[Key, Key]
    heads: frozenset
    depth: int

    def level(self, key: Key, now: Optional[Level]) -> Optional[Level]:
        """Where a type is that something at the level `now` names, or None if it doesn't contain itself."""
        group = self.groups.get(key)
        if group is None:
            return None
        if now is None or now.group != group:
            return Level(group, self.depth)
        return Level(group, now.left - (key in self.heads))


NONE = Recursion({}, frozenset(), 0)


def recursion_of(edges: Edges, depth: int) -> Recursion:
    """The groups and the heads of a graph of names."""
    groups = {key: min(it, key=repr) for it in circles(edges) for key in it}
    heads, left = set(), {key: {to for to in edges[key] if to in groups} for key in groups}
    while True:
        found = circles(left)
        if not found:
            return Recursion(groups, frozenset(heads), depth)
        first = min((key for it in found for key in it), key=repr)
        heads.add(first)
        left = {key: to - {first} for key, to in left.items() if key != first}


def circles(edges: Edges) -> list[set[Key]]:
    """The sets of keys that lead to each other, of which each leads to itself."""
    reached = {key: _from(key, edges) for key in edges}
    found: list[set[Key]] = []
    for key in edges:
        if key in reached[key] and not any(key in it for it in found):
            found.append({it for it in reached[key] if key in reached.get(it, ())})
    return found


def _from(key: Key, edges: Edges) -> set[Key]:
    """All keys that a key leads to."""
    found: set[Key] = set()
    left: Iterable[Key] = [*edges.get(key, ())]
    while left:
        now = left.pop()
        if now not in found:
            found.add(now)
            left += edges.get(now, ())
    return found
