"""Whether a table keeps the rules of X.680 on tags and defaults: what specs/Rules.antt of der_schema computes of it."""
from itertools import combinations
from typing import Optional

from .nodes import CONSTRAINTS, Kind, Member, Table, Wrapper
from .tags import CLASSES, CONSTRUCTED

# the tags of kinds that have one (X.680, table 1)
_OWN = {
    "Boolean": 0x01,
    "Integer": 0x02,
    "NamedInteger": 0x02,
    "Unsigned": 0x02,
    "Signed": 0x02,
    "BitString": 0x03,
    "NamedBits": 0x03,
    "OctetString": 0x04,
    "Null": 0x05,
    "ObjectIdentifier": 0x06,
    "Enumerated": 0x0A,
    "ExtensibleEnumerated": 0x0A,
    "Utf8String": 0x0C,
    "Character": 0x0C,
    "RelativeOid": 0x0D,
    "UtcTime": 0x17,
    "GeneralizedTime": 0x18,
    "LaterTime": 0x18,
    "Sequence": 0x30,
    "SequenceOf": 0x30,
    "SetOf": 0x31,
}
_ANY = frozenset(["AnyElement", "WellFormedElement"])
_INTEGERS = frozenset(["Integer", "Unsigned", "Signed"])
_WRAPPER_BYTES = {
    "Explicit": CLASSES["CONTEXT"] | CONSTRUCTED,
    "Implicit": CLASSES["CONTEXT"],
    "Application": CLASSES["APPLICATION"] | CONSTRUCTED,
    "ImplicitList": 0,
    "OctetContainer": 0x04,
    "BitContainer": 0x03,
}
# every tag
ALL = frozenset(range(256))


def keeps_rules(table: Table) -> bool:
    """Whether alternatives (29.3), members (25.6) and those of a SET (27.3) have different tags, no tag is in place of one around another type
    (31.2.7), and each default is known as one of its type."""
    return all(_keeps(table, it.kind) for it in table.nodes)


def tags(table: Table, index: int) -> frozenset[int]:
    """The tags that elements of a node's type can have in BER."""
    kind = table.nodes[index].kind
    if kind.variant in _ANY:
        return ALL
    if kind.variant == "Choice":
        return frozenset().union(*(tags(table, it.node) for it in kind.fields[0]))
    if kind.variant == "Reference" or kind.variant in CONSTRAINTS:
        return tags(table, kind.inner)
    own = _own(kind)
    in_parts = own + CONSTRUCTED
    return frozenset([own, in_parts] if in_parts & CONSTRUCTED else [own])


def _own(kind: Kind) -> int:
    if kind.variant in _OWN:
        return _OWN[kind.variant]
    if kind.variant == "Wrapped":
        return _WRAPPER_BYTES[kind.fields[0].variant] | (kind.fields[0].number or 0)
    return kind.fields[0]


def _keeps(table: Table, kind: Kind) -> bool:
    if kind.variant == "Choice":
        return _all_apart(table, [it.node for it in kind.fields[0]])
    if kind.variant == "Sequence":
        return all(_keeps_member(table, it, kind.fields[0][place + 1 :]) for place, it in enumerate(kind.fields[0]))
    if kind.variant == "ContentUnder":
        return not _is_in_tag(table, kind.inner)
    if kind.variant == "Wrapped" and kind.fields[0].variant in ("Implicit", "ImplicitList"):
        return not _is_in_tag(table, kind.inner) and (kind.fields[0] != Wrapper("ImplicitList", 0x31) or _is_set(table, kind.inner))
    return True


def _all_apart(table: Table, nodes: list[int]) -> bool:
    return not any(tags(table, one) & tags(table, other) for one, other in combinations(nodes, 2))


def _keeps_member(table: Table, member: Member, others: tuple[Member, ...]) -> bool:
    if member.presence == "Required":
        return True
    return not tags(table, member.node) & _next(table, others) and _keeps_default(table, member)


def _next(table: Table, members: tuple[Member, ...]) -> frozenset[int]:
    """The tags of the next element."""
    if not members:
        return frozenset()
    first = tags(table, members[0].node)
    return first if members[0].presence == "Required" else first | _next(table, members[1:])


def _is_in_tag(table: Table, index: int) -> bool:
    kind = table.nodes[index].kind
    return kind.variant == "Wrapped" or (kind.variant == "Reference" or kind.variant in CONSTRAINTS) and _is_in_tag(table, kind.inner)


def _is_set(table: Table, index: int) -> bool:
    kind = table.nodes[index].kind
    return kind.variant == "Sequence" and _all_apart(table, [it.node for it in kind.fields[0]])


def _keeps_default(table: Table, member: Member) -> bool:
    if member.presence == "Default":
        return _is_known(table, member.node, member.default, True)
    return member.presence != "DefaultOf" or type(member.default) is int and member.default >= 0 and _is_known(table, member.node, None, True)


def _is_known(table: Table, index: int, default: Optional[int], may_have_tags: bool) -> bool:
    """Whether the default is one of the node's type, or a number is where that is None."""
    kind = table.nodes[index].kind
    if _has(kind, default):
        return True
    if kind.variant == "Reference" or default is None and kind.variant in CONSTRAINTS:
        return _is_known(table, kind.inner, default, may_have_tags)
    if may_have_tags and kind.variant == "Wrapped" and kind.fields[0].variant in ("Explicit", "Application", "Implicit"):
        return _is_known(table, kind.inner, default, kind.fields[0].variant != "Implicit")
    return False


def _has(kind: Kind, default: Optional[int]) -> bool:
    if default is None:
        return kind.variant in _INTEGERS
    if type(default) is bool:
        return kind.variant == "Boolean"
    return kind.variant == "NamedInteger" and 0 <= default < 0x80
