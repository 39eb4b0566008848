"""Where the nodes of a graph are drawn: in rows, so that each is above those that it leads to."""
from collections.abc import Callable, Iterable

# the node of a name, or a place at which a line passes a row: the names of its ends, and the row
Node = str | tuple[str, str, int]
# the names to which each name leads
Graph = dict[str, list[str]]
# the nodes to which each node leads in the next row
Links = dict[Node, list[Node]]
# the nodes of each row, from left to right, the lowest row first
Rows = list[list[Node]]

# how often the rows are gone through to order them, and to place what is in them
ROUNDS, TURNS = 12, 400
# how wide each row counts while it is ordered, in whole steps
WIDTH = 1_000_000
# of a part of a line: with no box at its ends, with one, and with two
STRENGTHS = (30.0, 2.0, 1.0)


def heights(graph: Graph) -> dict[str, int]:
    """The row of each name: one above the highest that it leads to. A name that leads nowhere is one below the lowest that leads to it."""
    found: dict[str, int] = {}

    def height(name: str) -> int:
        if name not in found:
            found[name] = max((height(it) + 1 for it in graph[name]), default=0)
        return found[name]

    for name in graph:
        height(name)
    above = {name: [found[it] for it, below in graph.items() if name in below] for name in graph}
    return {name: row if graph[name] or not above[name] else min(above[name]) - 1 for name, row in found.items()}


def layered(graph: Graph) -> tuple[Rows, Links]:
    """The rows with the nodes in the order of the graph, and the lines from each node to the next row."""
    row_of = heights(graph)
    found: Rows = [[] for _ in range(max(row_of.values()) + 1)]
    links: Links = {}
    for name, below in graph.items():
        found[row_of[name]].append(name)
        links.setdefault(name, [])
        for other in below:
            passed: list[Node] = [(name, other, row) for row in range(row_of[name] - 1, row_of[other], -1)]
            for upper, lower in zip([name, *passed], [*passed, other]):
                links.setdefault(upper, []).append(lower)
    for node in links:
        if not isinstance(node, str):
            found[node[2]].append(node)
    return found, links


def turned(links: Links) -> Links:
    """The nodes that lead to each node."""
    found: Links = {node: [] for node in links}
    for upper, below in links.items():
        for lower in below:
            found[lower].append(upper)
    return found


def crossed(rows: Rows, links: Links) -> int:
    """How many pairs of lines cross."""
    count = 0
    for lower, upper in zip(rows, rows[1:]):
        place = {node: at for at, node in enumerate(lower)}
        ends = [place[it] for node in upper for it in sorted(links[node], key=place.__getitem__)]
        sources = [at for at, node in enumerate(upper) for _ in links[node]]
        pairs = list(zip(sources, ends))
        count += sum(a[0] < b[0] and a[1] > b[1] for a in pairs for b in pairs)
    return count


def arranged(rows: Rows, links: Links) -> Rows:
    """The rows in an order in which few lines cross: each node is put at the mean of those that it is joined to, again and again."""
    up, best = turned(links), rows
    now = [list(it) for it in rows]
    for turn in range(ROUNDS):
        order = range(len(now)) if turn % 2 else range(len(now) - 1, -1, -1)
        joined = links if turn % 2 else up
        for row in order:
            place = {node: at * WIDTH // max(len(it) - 1, 1) for it in now for at, node in enumerate(it)}
            now[row] = sorted(now[row], key=lambda node: mean([place[it] for it in joined[node]], place[node]))
        now = switched(now, links)
        if crossed(now, links) < crossed(best, links):
            best = [list(it) for it in now]
    return best


def switched(rows: Rows, links: Links) -> Rows:
    """The rows with neighbours exchanged as long as fewer lines cross."""
    now, is_better = [list(it) for it in rows], True
    while is_better:
        is_better = False
        for row in now:
            for at in range(len(row) - 1):
                before = crossed(now, links)
                row[at : at + 2] = row[at + 1], row[at]
                if crossed(now, links) < before:
                    is_better = True
                else:
                    row[at : at + 2] = row[at + 1], row[at]
    return now


def mean(values: Iterable[float], otherwise: float) -> float:
    """The mean of some numbers, or another number if there are none."""
    found = list(values)
    return sum(found) / len(found) if found else otherwise


def spread(wanted: list[float], apart: list[float], weights: list[float]) -> list[float]:
    """The places nearest to the wanted ones, in order, of which neighbours are at least so far apart."""
    shift = [sum(apart[:at]) for at in range(len(wanted))]
    blocks: list[list[float]] = []
    for want, by, weight in zip(wanted, shift, weights):
        blocks.append([(want - by) * weight, weight, 1])
        while len(blocks) > 1 and blocks[-2][0] / blocks[-2][1] > blocks[-1][0] / blocks[-1][1]:
            last = blocks.pop()
            blocks[-1] = [a + b for a, b in zip(blocks[-1], last)]
    places = [total / weight for total, weight, count in blocks for _ in range(int(count))]
    return [place + by for place, by in zip(places, shift)]


def strength(one: Node, other: Node) -> float:
    """How strongly a line pulls its ends to one place. The parts that pass rows are kept upright."""
    return STRENGTHS[isinstance(one, str) + isinstance(other, str)]


def placed(rows: Rows, links: Links, width_of: Callable[[Node], float], gap: float) -> dict[Node, float]:
    """The middle of each node, so that lines are short, and those that pass rows are nearly upright."""
    up = turned(links)
    pulls = {node: [(other, strength(node, other)) for other in links[node] + up[node]] for node in links}
    weights = {node: sum(pull for _, pull in found) or 1.0 for node, found in pulls.items()}
    place = {node: 100.0 * at for row in rows for at, node in enumerate(row)}
    for turn in range(TURNS):
        for row in rows if turn % 2 else rows[::-1]:
            sums = [sum(place[it] * pull for it, pull in pulls[node]) or place[node] for node in row]
            wanted = [total / weights[node] for node, total in zip(row, sums)]
            apart = [(width_of(a) + width_of(b)) / 2 + gap for a, b in zip(row, row[1:])]
            place.update(zip(row, spread(wanted, apart, [weights[node] for node in row])))
    for _ in range(3):
        straighten(rows, place, lambda a, b: (width_of(a) + width_of(b)) / 2 + gap)
    return place


def straighten(rows: Rows, place: dict[Node, float], apart: Callable[[Node, Node], float]) -> None:
    """Makes each line upright where it passes rows, if there is room for that between its neighbours."""
    passing: dict[tuple[str, str], list[Node]] = {}
    for node in [it for row in rows for it in row if not isinstance(it, str)]:
        passing.setdefault((node[0], node[1]), []).append(node)
    for nodes in passing.values():
        rooms = [room(rows[it[2]], it, place, apart) for it in nodes if not isinstance(it, str)]
        least, most = max(low for low, _ in rooms), min(high for _, high in rooms)
        if least <= most:
            middle = mean([place[it] for it in nodes], 0)
            place.update(dict.fromkeys(nodes, min(max(middle, least), most)))


def room(row: list[Node], node: Node, place: dict[Node, float], apart: Callable[[Node, Node], float]) -> tuple[float, float]:
    """Between which places a node may be in its row, as its neighbours are."""
    at = row.index(node)
    least = place[row[at - 1]] + apart(row[at - 1], node) if at else float("-inf")
    most = place[row[at + 1]] - apart(node, row[at + 1]) if at + 1 < len(row) else float("inf")
    return least, most
