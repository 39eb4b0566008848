"""A table as a module of the notation: each node that has a name is an assignment, whose tags are written out."""
from typing import Optional

from ..emit.printed import characters_between
from .nodes import CONSTRAINTS, Item, Kind, Member, Table
from .tags import NUMBER, is_list

_WORDS = {
    "Boolean": "BOOLEAN",
    "Integer": "INTEGER",
    "BitString": "BIT STRING",
    "OctetString": "OCTET STRING",
    "Null": "NULL",
    "ObjectIdentifier": "OBJECT IDENTIFIER",
    "RelativeOid": "RELATIVE-OID",
    "Utf8String": "UTF8String",
    "Character": "UTF8String (SIZE (1))",
    "GeneralizedTime": "GeneralizedTime",
    "LaterTime": "GeneralizedTime (CONSTRAINED BY {})",
    "UtcTime": "UTCTime",
    "AnyElement": "ANY",
    "WellFormedElement": "ANY",
}
_STRINGS = {
    0x07: "ObjectDescriptor",
    0x12: "NumericString",
    0x13: "PrintableString",
    0x14: "TeletexString",
    0x15: "VideotexString",
    0x16: "IA5String",
    0x19: "GraphicString",
    0x1A: "VisibleString",
    0x1B: "GeneralString",
    0x1C: "UniversalString",
    0x1E: "BMPString",
}
_CLASSES = {0x00: "UNIVERSAL ", 0x40: "APPLICATION ", 0x80: "", 0xC0: "PRIVATE "}
_LISTS = {"SequenceOf": "SEQUENCE", "SetOf": "SET"}
_SET = 0x31
_MAX = 2**64 - 1


# what the standard calls kinds that aren't of a word alone
_NAMES = {
    **dict.fromkeys(["NamedInteger", "Unsigned", "Signed"], "INTEGER"),
    **dict.fromkeys(["Enumerated", "ExtensibleEnumerated"], "ENUMERATED"),
    "NamedBits": "BIT STRING",
    "Character": "UTF8String",
    "LaterTime": "GeneralizedTime",
    "Sequence": "SEQUENCE",
    "Choice": "CHOICE",
    "SequenceOf": "SEQUENCE OF",
    "SetOf": "SET OF",
}


def kind_name(kind: Kind) -> Optional[str]:
    """What the standard calls a kind, or None for a name, a tag, a constraint and any content."""
    if kind.variant == "RestrictedString":
        return _STRINGS.get(kind.fields[0])
    return _NAMES.get(kind.variant) or _WORDS.get(kind.variant)


def printed_table(table: Table) -> str:
    """The module."""
    printer = _Printer(table)
    lines = [f"{printer.type(index)} ::= {printer.kind(it.kind)}" for index, it in enumerate(table.nodes) if it.name is not None]
    return "\n".join(["Printed DEFINITIONS EXPLICIT TAGS ::= BEGIN", *lines, "END", ""])


class _Printer:
    """Prints nodes as types of the notation."""

    def __init__(self, table: Table) -> None:
        self.table, self.names = table, [it.name for it in table.nodes]

    def type(self, index: int) -> str:
        """A node, by its name if it has one: with a number after it if a node before has that, which is of another module."""
        name = self.names[index]
        if name is None:
            return self.kind(self.table.nodes[index].kind)
        before = self.names[:index].count(name)
        return f"{name}-{before + 1}" if before else name

    def kind(self, kind: Kind) -> str:
        """What a node is."""
        variant = kind.variant
        if variant in _WORDS:
            return _WORDS[variant]
        if variant == "Reference":
            return self.type(kind.inner)
        if variant in _LISTS:
            return f"{_LISTS[variant]} OF {self.type(kind.inner)}"
        if variant == "Sequence":
            return f"SEQUENCE {self.members(kind.fields[0])}"
        if variant == "Choice":
            return f"CHOICE {{ {', '.join(f'{it.name} {self.type(it.node)}' for it in kind.fields[0])} }}"
        if variant in CONSTRAINTS:
            return self.constrained(kind)
        return self.tagged(kind) if variant in ("Wrapped", "ContentUnder", "AnyContent") else self.named(kind)

    def named(self, kind: Kind) -> str:
        """A type by a tag, bits, names of items or a string by its identifier byte."""
        variant, given = kind.variant, kind.fields[0]
        if variant in ("Unsigned", "Signed"):
            low = 0 if variant == "Unsigned" else -(2 ** (given - 1))
            return f"INTEGER ({low}..{low + 2**given - 1})"
        if variant == "RestrictedString":
            return _STRINGS[given]
        names = ", ".join(f"{it.name}({it.number})" for it in given)
        if variant == "NamedInteger":
            return f"INTEGER {{ {names} }} ({' | '.join(str(it.number) for it in given)})"
        if variant == "NamedBits":
            return f"BIT STRING {{ {names} }}"
        return f"ENUMERATED {{ {names}{', ...' if variant == 'ExtensibleEnumerated' else ''} }}"

    def tagged(self, kind: Kind) -> str:
        """A type in a tag or a string, or with a tag in place of its own."""
        if kind.variant == "Wrapped":
            wrapper = kind.fields[0]
            if wrapper.variant in ("OctetContainer", "BitContainer"):
                return f"{'OCTET' if wrapper.variant == 'OctetContainer' else 'BIT'} STRING (CONTAINING {self.type(kind.inner)})"
            if wrapper.variant == "ImplicitList" and wrapper.number == _SET:
                return f"SET {self.members(self.table.kind(kind.inner).fields[0])}"
            if wrapper.variant != "ImplicitList":
                mode = "IMPLICIT" if wrapper.variant == "Implicit" else "EXPLICIT"
                class_ = "APPLICATION " if wrapper.variant == "Application" else ""
                return f"[{class_}{wrapper.number}] {mode} {self.type(kind.inner)}"
        tag = kind.fields[0].number if kind.variant == "Wrapped" else kind.fields[0]
        inner = "OCTET STRING" if kind.variant == "AnyContent" else self.type(kind.inner)
        return f"[{_CLASSES[tag & 0xC0]}{tag & NUMBER}] IMPLICIT {inner}"

    def constrained(self, kind: Kind) -> str:
        """A type with a constraint. Ranges of numbers are those of all nodes down to the type."""
        if kind.variant == "Sized":
            return self.sized(kind)
        if kind.variant == "Permitted":
            return f"{self.type(kind.inner)} (FROM ({' | '.join(characters_between(*it) for it in kind.fields[0])}))"
        low, high, gaps = None, None, []
        while kind.variant in CONSTRAINTS:
            if kind.variant == "Outside":
                gaps.insert(0, kind.fields[:2])
            low = kind.fields[0] if kind.variant in ("InRange", "AtLeast") else low
            high = kind.fields[0] if kind.variant == "AtMost" else kind.fields[1] if kind.variant == "InRange" else high
            last, kind = kind, self.table.nodes[kind.inner].kind
        starts = ["MIN" if low is None else low, *(end + 1 for _, end in gaps)]
        ends = [*(start - 1 for start, _ in gaps), "MAX" if high is None else high]
        inner = "INTEGER" if kind.variant in ("Unsigned", "Signed") else self.type(last.inner)
        return f"{inner} ({' | '.join(f'{start}..{end}' for start, end in zip(starts, ends))})"

    def sized(self, kind: Kind) -> str:
        """A type with a size, which comes before OF in a list. A list without items is a SEQUENCE or a SET without members."""
        least, most, index = kind.fields
        inner = self.table.nodes[index]
        if most == 0 and inner.name is None and is_list(self.table, index) and self.table.kind(inner.kind.inner).variant == "Null":
            return f"{_LISTS[inner.kind.variant]} {{ }}"
        size = f"(SIZE ({least}..{'MAX' if most == _MAX else most}))"
        if inner.name is None and inner.kind.variant in _LISTS:
            return f"{_LISTS[inner.kind.variant]} {size} OF {self.type(inner.kind.inner)}"
        return f"{self.type(index)} {size}"

    def members(self, members: tuple[Member, ...]) -> str:
        """Members, and how each is there."""
        return f"{{ {', '.join(f'{it.name} {self.type(it.node)}{self.presence(it)}' for it in members)} }}"

    def presence(self, member: Member) -> str:
        """How a member is there: a default by the name of the item, if it has one."""
        if member.default is None:
            return " OPTIONAL" if member.presence == "Optional" else ""
        if isinstance(member.default, bool):
            return f" DEFAULT {str(member.default).upper()}"
        named = {it.number: it.name for it in self.items(member.node)}
        return f" DEFAULT {named.get(member.default, member.default)}"

    def items(self, index: int) -> tuple[Item, ...]:
        """The names of the numbers of a type, below its tags."""
        kind = self.table.kind(index)
        while kind.inner is not None:
            kind = self.table.kind(kind.inner)
        found: Optional[tuple] = kind.fields[0] if kind.variant in ("NamedInteger", "Enumerated", "ExtensibleEnumerated") else None
        return found or ()
