"""Terms as nodes: which type of the library each is, with the names that its module gives."""
import re
from typing import Iterable, Union

from ..emit.printed import Applied, parts_of, term_of
from ..meaning.declarations import Declaration
from ..meaning.library_table import TYPES
from ..meaning.terms import Item as TermItem
from ..meaning.terms import Term, default_tags
from ..parse import tree
from ..parse.tree import TagMode
from .integers import Interval, from_to, in_intervals
from .nodes import Alternative, Item, Kind, Member, Table
from .tags import NoNode, explicit, implicit, wrapped

_SIMPLE = {
    "BOOLEAN": "Boolean",
    "INTEGER": "Integer",
    "BIT-STRING": "BitString",
    "OCTET-STRING": "OctetString",
    "NULL": "Null",
    "OBJECT-IDENTIFIER": "ObjectIdentifier",
    "RELATIVE-OID": "RelativeOid",
    "UTF8String": "Utf8String",
    "GeneralizedTime": "GeneralizedTime",
    "UTCTime": "UtcTime",
    "any-element": "AnyElement",
    "ANY": "WellFormedElement",
}
_NAMED = {
    "INTEGER-named": "NamedInteger",
    "ENUMERATED": "Enumerated",
    "ENUMERATED-extensible": "ExtensibleEnumerated",
    "BIT-STRING-named": "NamedBits",
}
_STRINGS = {it.term: it.tag for it in TYPES if it.term and it.term not in {*_SIMPLE, *_NAMED}}
_LISTS = {"SEQUENCE-OF": "SequenceOf", "SET-OF": "SetOf"}
_CONTAINERS = {"OCTET-STRING-CONTAINING": "OctetContainer", "BIT-STRING-CONTAINING": "BitContainer"}
_CLASSES = ("UNIVERSAL", "APPLICATION", "CONTEXT", "PRIVATE")
_PRESENCES = {"required": "Required", "optional": "Optional", "default-as-optional": "Optional", "default": "Default", "default-of": "DefaultOf"}
_TRUTHS = {"TRUE": True, "FALSE": False}
# as many as memory could hold
_MAX = 2**64 - 1


class Writer:
    """Adds the nodes of types to a table: types by their names in Rust, of these modules."""

    def __init__(self, declared: dict[str, Declaration], modules: Iterable[tree.Module]) -> None:
        self.table, self.declared, self.indices = Table(), declared, {}
        explicit_names = {default_tags(it.name) for it in modules if it.tag_default is TagMode.EXPLICIT}
        self.explicit = explicit_names | {"EXPLICIT"}

    def type_named(self, name: str) -> int:
        """The index of a type of the crate, by its name there. Raises NoNode for one that a table can't have."""
        if name not in self.indices:
            found = self.declared[name]
            if found.term is None:
                raise NoNode(f"`{found.source}` has no term")
            self.indices[name] = self.table.call(self.type(found.term), found.source)
        return self.indices[name]

    def type(self, term: Term) -> int:
        """The index of what a term is."""
        word, _, rest = term.head.partition(" ")
        if word in self.declared:
            return self.type_named(word)
        if word == "wider":
            return self.type(term.inner)
        if word in _SIMPLE:
            return self.add(_SIMPLE[word])
        if word in _NAMED:
            return self.add(_NAMED[word], tuple(Item(*it) for it in term.names))
        if word in _STRINGS:
            return self.add("RestrictedString", _STRINGS[word])
        if word in _LISTS:
            return self.add(_LISTS[word], self.type(term.inner))
        if word in _CONTAINERS:
            return wrapped(self.table, self.type(term.inner), _CONTAINERS[word])
        if word in _CLASSES:
            number, mode = rest.split()
            put = explicit if mode in self.explicit else implicit
            return put(self.table, word, int(number), self.type(term.inner))
        return self.constructed(term) if term.items is not None or word in ("SEQUENCE", "SET") else self.constrained(term, word, rest)

    def add(self, variant: str, *fields: object) -> int:
        """The index of a node without a name."""
        return self.table.add(Kind(variant, fields))

    def constrained(self, term: Term, word: str, rest: str) -> int:
        """A term with numbers."""
        if word == "SIZE":
            least, most = rest.split()
            return self.add("Sized", int(least), _MAX if most == "MAX" else int(most), self.type(term.inner))
        if word == "FROM":
            ranges = tuple((int(low), int(high)) for low, high in re.findall(r"\((\d+), (\d+)\)", rest))
            return self.add("Permitted", ranges, self.type(term.inner))
        if word == "any-content":
            return self.add("AnyContent", int(rest, 16))
        if word == "content-under":
            return self.add("ContentUnder", int(rest, 16), self.type(term.inner))
        if word == "beyond-depth":
            return self.add("Sized", 1, 0, self.add("AnyContent", int(rest, 16)))
        if word in ("INTEGER-from-to", "INTEGER-from-minus-to"):
            least, most = map(int, rest.split())
            return from_to(self.table, least if word == "INTEGER-from-to" else -least, most)
        if word == "INTEGER-in":
            return in_intervals(self.table, [interval(it) for it in parts_of(term_of(rest))[:-1]])
        raise NoNode(f"a table has no node for `{word}`")

    def constructed(self, term: Term) -> int:
        """A SEQUENCE, a SET or a CHOICE."""
        end = term.head.partition(" ")[2] if term.items is None else term.end
        if end not in ("end", "none") or term.head == "CHOICE-extensible":
            raise NoNode("a table has no node for a type with an extension marker")
        if term.head == "one-of":
            raise NoNode("a table has no node for an element of one of several types")
        if term.head == "CHOICE":
            return self.add("Choice", tuple(Alternative(name_of(it.text), self.type(it.term)) for it in term.items))
        if not term.items:
            return self.add("Sized", 0, 0, self.add("SequenceOf" if term.head.startswith("SEQUENCE") else "SetOf", self.add("Null")))
        members = [self.member(it) for it in term.items]
        if term.head == "SEQUENCE":
            return self.add("Sequence", tuple(members))
        ordered = sorted(members, key=lambda it: least_place(self.table, it.node))
        return wrapped(self.table, self.add("Sequence", tuple(ordered)), "ImplicitList", 0x31)

    def member(self, item: TermItem) -> Member:
        """A member of a SEQUENCE."""
        word, _, rest = item.presence.partition(" ")
        if word not in _PRESENCES:
            raise NoNode(f"a table has no node for a member that is `{word}`")
        return Member(name_of(item.text), _PRESENCES[word], self.type(item.term), value_of(rest) if rest else None)


def name_of(text: str) -> str:
    """The name of a member or an alternative, which its text begins with."""
    return text.split(None, 1)[0]


def value_of(text: str) -> Union[bool, int]:
    """The value of a default: a truth, or a number."""
    return _TRUTHS[text] if text in _TRUTHS else number_in(term_of(text))


def number_in(term: Applied) -> int:
    """A number as the value of a default or a bound."""
    return int(term.arguments[0].word) * (-1 if term.word == "minus" else 1)


def interval(term: Applied) -> Interval:
    """The bounds of an interval."""
    numbers = [number_in(it) for it in term.arguments]
    if term.word == "from-to":
        return numbers[0], numbers[1]
    return (numbers[0], None) if term.word == "from-on" else (None, numbers[0])


def least_place(table: Table, node: int) -> int:
    """The place of a type in the order of tags, by the least one that it may have (X.680, 8.6)."""
    return min((32 * (it // 64) + it % 32 for it in first_bytes(table, node)), default=128)


def first_bytes(table: Table, node: int) -> set[int]:
    """The identifier bytes that a type may have, as far as it has a tag."""
    kind = table.kind(node)
    if kind.variant == "Choice":
        return set().union(*(first_bytes(table, it.node) for it in kind.fields[0]))
    if kind.variant == "Wrapped":
        wrapper = kind.fields[0]
        base = {"OctetContainer": 0x04, "BitContainer": 0x03, "Explicit": 0xA0, "Implicit": 0x80, "Application": 0x60, "ImplicitList": 0}
        return {base[wrapper.variant] + (wrapper.number or 0)}
    if kind.variant in ("ContentUnder", "AnyContent", "RestrictedString"):
        return {kind.fields[0]}
    known = _TAGS.get(kind.variant)
    return {known} if known else first_bytes(table, kind.inner) if kind.inner is not None else set()


_TAGS = {
    "Boolean": 0x01,
    **dict.fromkeys(["Integer", "NamedInteger", "Unsigned", "Signed"], 0x02),
    **dict.fromkeys(["BitString", "NamedBits"], 0x03),
    "OctetString": 0x04,
    "Null": 0x05,
    "ObjectIdentifier": 0x06,
    **dict.fromkeys(["Enumerated", "ExtensibleEnumerated"], 0x0A),
    **dict.fromkeys(["Utf8String", "Character"], 0x0C),
    "RelativeOid": 0x0D,
    "UtcTime": 0x17,
    **dict.fromkeys(["GeneralizedTime", "LaterTime"], 0x18),
    **dict.fromkeys(["Sequence", "SequenceOf"], 0x30),
    "SetOf": 0x31,
}
