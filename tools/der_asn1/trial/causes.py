"""Why one side reads an encoding and the other one doesn't. docs/TESTED.md says which one is right."""
from .changes import CONSTRUCTED, Node, nodes_of

_STRINGS = frozenset((0x04, 0x0C, 0x12, 0x13, 0x14, 0x15, 0x16, 0x19, 0x1A, 0x1B, 0x1C, 0x1E))
_TIMES = frozenset((0x17, 0x18))
_NUMBERS = frozenset((0x02, 0x0A))
# of a module with types that contain themselves, the tags of what is in itself, and how many levels its crate has
_LEVELS = {"ldap": (frozenset((0xA0, 0xA1, 0xA2)), 3)}


def cause_of(module: str, data: bytes, here: str, there: str) -> str:
    """The cause, or nothing if none is known."""
    if here == "same":
        return _of_erlang(there)
    error, _, place = here.partition(" at ")
    if error != "InvalidData":
        return ""
    ending = [it for end, it in _placed(nodes_of(data) or [], 0) if end == int(place)]
    tags, most = _LEVELS.get(module, (frozenset(), 1))
    if any(_levels(it, tags) > most for it in ending):
        return "more levels than the crate has"
    inner_first = [*(it for it in ending if not it.parts), *ending]
    return next(filter(None, map(_of_element, inner_first)), "")


def _of_erlang(there: str) -> str:
    """What Erlang doesn't keep. What it refuses has no cause."""
    if there == "refused":
        return ""
    return "a number or an alternative of a later version" if there == "unwritable" else "an element of a later version"


def _of_element(node: Node) -> str:
    """What is wrong with the element that is refused."""
    is_constructed, number = bool(node.tag & CONSTRUCTED), node.tag & ~CONSTRUCTED
    if is_constructed and number in _STRINGS:
        return "a constructed string"
    if is_constructed:
        return "" if node.parts else "an empty list"
    if number == 0:
        return "a tag that no type has"
    if number in _TIMES:
        return "the form of a time"
    if number in _NUMBERS:
        return "the range of a number"
    return "the characters or the size of a string" if number in _STRINGS or number & 0xC0 == 0x80 else ""


def _levels(node: Node, tags: frozenset[int]) -> int:
    """How many elements with these tags are in each other, and what the innermost one has."""
    return max((_levels(it, tags) for it in node.parts), default=0) + (node.tag in tags) if node.parts else 1


def _placed(nodes: list[Node], at: int) -> list[tuple[int, Node]]:
    """All elements, each with the place of its end, those around others first."""
    found = []
    for it in nodes:
        end = at + len(it.encoding())
        inner = end - sum(len(part.encoding()) for part in it.parts)
        found += [(end, it), *_placed(it.parts, inner)]
        at = end
    return found
