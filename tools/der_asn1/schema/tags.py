"""Tags around nodes (X.680, 31), by the equations of specs/NotationForms.antt of der_types."""
from .nodes import CONSTRAINTS, Kind, Member, Table, Wrapper

CLASSES = {"UNIVERSAL": 0x00, "APPLICATION": 0x40, "CONTEXT": 0x80, "PRIVATE": 0xC0}
CONSTRUCTED, NUMBER = 0x20, 0x1F
_WITHOUT_TAG = frozenset(["Choice", "AnyElement", "WellFormedElement"])
_LISTS = frozenset(["Sequence", "SequenceOf", "SetOf"])


class NoNode(ValueError):
    """What a table can't say, in words."""


def wrapped(table: Table, node: int, variant: str, *number: int) -> int:
    """A node in a wrapper."""
    return table.add(Kind("Wrapped", (Wrapper(variant, *number), node)))


def explicit(table: Table, class_: str, number: int, node: int) -> int:
    """An element around that of the type (X.690, 8.14.2)."""
    if class_ in ("CONTEXT", "APPLICATION"):
        return wrapped(table, node, "Explicit" if class_ == "CONTEXT" else "Application", number)
    return wrapped(table, only_member(table, node), "ImplicitList", CLASSES[class_] | CONSTRUCTED | number)


def only_member(table: Table, node: int) -> int:
    """A SEQUENCE of one type alone, which is the content of its element."""
    return table.add(Kind("Sequence", ((Member("", "Required", node),),)))


def implicit(table: Table, class_: str, number: int, node: int) -> int:
    """The tag in place of that of the type, or of the tag around it (X.680, 31.2.7)."""
    kind = table.kind(node)
    if kind.variant in _WITHOUT_TAG:
        return explicit(table, class_, number, node)
    if kind.variant == "Wrapped":
        return _in_place(table, class_, number, *kind.fields)
    if kind.variant == "ContentUnder":
        return _over_primitive(table, class_, number, kind.inner)
    if kind.variant == "AnyContent":
        return table.add(Kind("AnyContent", (CLASSES[class_] | kind.fields[0] & CONSTRUCTED | number,)))
    if is_list(table, node):
        return _over_list(table, class_, number, node)
    if has_header(table, node):
        raise NoNode("a tag in place of one inside a constraint")
    return _over_primitive(table, class_, number, node)


def _in_place(table: Table, class_: str, number: int, wrapper: Wrapper, inner: int) -> int:
    """The tag in place of a wrapper's."""
    if wrapper.variant in ("Explicit", "Application"):
        return explicit(table, class_, number, inner)
    if wrapper.variant == "Implicit":
        return _over_primitive(table, class_, number, inner)
    if wrapper.variant == "ImplicitList":
        return _over_list(table, class_, number, inner)
    if wrapper.variant == "OctetContainer" and class_ == "CONTEXT":
        return wrapped(table, only_member(table, inner), "Implicit", number)
    raise NoNode("a tag in place of that of a string with an encoding in it")


def is_list(table: Table, node: int) -> bool:
    """Whether it is a list, which may have a size."""
    kind = table.kind(node)
    return kind.variant in _LISTS or kind.variant == "Sized" and is_list(table, kind.inner)


def has_header(table: Table, node: int) -> bool:
    """Whether a tag is around it below constraints."""
    kind = table.kind(node)
    return kind.variant == "Wrapped" or kind.variant in CONSTRAINTS and has_header(table, kind.inner)


def _over_list(table: Table, class_: str, number: int, node: int) -> int:
    return wrapped(table, node, "ImplicitList", CLASSES[class_] | CONSTRUCTED | number)


def _over_primitive(table: Table, class_: str, number: int, node: int) -> int:
    if class_ == "CONTEXT":
        return wrapped(table, node, "Implicit", number)
    return _under_tag(table, CLASSES[class_] | number, node)


def _under_tag(table: Table, tag: int, node: int) -> int:
    """A content under a tag, with the constraints around it. There is one content for a number of any width."""
    kind = table.kind(node)
    if kind.variant in ("AnyContent", "OctetString"):
        return table.add(Kind("AnyContent", (tag,)))
    if kind.variant == "Null":
        return table.add(Kind("Sized", (0, 0, table.add(Kind("AnyContent", (tag,))))))
    if kind.variant == "ContentUnder":
        return table.add(Kind("ContentUnder", (tag, kind.inner)))
    if kind.variant == "Unsigned":
        return table.add(Kind("InRange", (0, 2 ** kind.fields[0] - 1, _number_under(table, tag))))
    if kind.variant == "Signed":
        half = 2 ** (kind.fields[0] - 1)
        return table.add(Kind("AtMost", (half - 1, table.add(Kind("AtLeast", (-half, _number_under(table, tag)))))))
    if kind.variant == "InRange" and table.kind(kind.inner).variant == "Unsigned":
        return table.add(Kind("InRange", (*kind.fields[:2], _number_under(table, tag))))
    if kind.variant == "AtLeast" and table.kind(kind.inner).variant == "Signed":
        return table.add(Kind("AtLeast", (kind.fields[0], _number_under(table, tag))))
    if kind.variant in CONSTRAINTS - {"Permitted"}:
        return table.add(Kind(kind.variant, (*kind.fields[:-1], _under_tag(table, tag, kind.inner))))
    return table.add(Kind("ContentUnder", (tag, node)))


def _number_under(table: Table, tag: int) -> int:
    return table.add(Kind("ContentUnder", (tag, table.add(Kind("Integer")))))
