"""The nodes of a table: what crates/der_schema has in src/node.rt, as the compiler makes them and as a printer reads them."""
from dataclasses import dataclass, field
from typing import Optional, Union

# the fields of the kinds that have names for them
FIELDS = {
    "Wrapped": ("wrapper", "node"),
    "ContentUnder": ("tag", "node"),
    "InRange": ("least", "most", "node"),
    "AtLeast": ("least", "node"),
    "AtMost": ("most", "node"),
    "Outside": ("least", "most", "node"),
    "Sized": ("least", "most", "node"),
    "Permitted": ("ranges", "node"),
}
# kinds whose one field is the index of a node
INDEXED = frozenset(["Reference", "SequenceOf", "SetOf"])
# kinds that are a constraint around a type
CONSTRAINTS = frozenset(["InRange", "AtLeast", "AtMost", "Outside", "Sized", "Permitted"])


@dataclass(frozen=True)
class Wrapper:
    """A wrapper of picky_der_core: its variant, with a number or an identifier byte if it has one."""

    variant: str
    number: Optional[int] = None


@dataclass(frozen=True)
class Item:
    """A name with its number."""

    name: str
    number: int


@dataclass(frozen=True)
class Alternative:
    """An alternative of a CHOICE."""

    name: str
    node: int


@dataclass(frozen=True)
class Member:
    """A member of a SEQUENCE. `presence` is the variant of `Presence`, and `default` a truth or a number where that has one."""

    name: str
    presence: str
    node: int
    default: Union[bool, int, None] = None


@dataclass(frozen=True)
class Kind:
    """What a node is: the variant of `Kind`, and its fields in their order."""

    variant: str
    fields: tuple = ()

    @property
    def inner(self) -> Optional[int]:
        """The index of the one node inside, or None."""
        return self.fields[-1] if self.variant in INDEXED or self.variant in FIELDS else None


@dataclass(frozen=True)
class Node:
    """A type: the name that its module gives it, or None, and what it is."""

    name: Optional[str]
    kind: Kind


@dataclass
class Table:
    """Nodes, each after those that it names."""

    nodes: list[Node] = field(default_factory=list)

    def add(self, kind: Kind, name: Optional[str] = None) -> int:
        """The index of a node like this, which is added if there is none."""
        node = Node(name, kind)
        if node not in self.nodes:
            self.nodes.append(node)
        return self.nodes.index(node)

    def call(self, index: int, name: str) -> int:
        """The index of the same type under a name: one that has a name already is named by it."""
        node = self.nodes[index]
        if node.name is not None:
            return self.add(Kind("Reference", (index,)), name)
        is_unused = index == len(self.nodes) - 1
        if is_unused:
            self.nodes.pop()
        return self.add(node.kind, name)

    def kind(self, index: int) -> Kind:
        """What a node is, through names of other nodes."""
        found = self.nodes[index].kind
        while found.variant == "Reference":
            found = self.nodes[found.inner].kind
        return found
