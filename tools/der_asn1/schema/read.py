"""A file of a table, read again. It reads the text of the static, and nothing of what the compiler made it from."""
import re
from dataclasses import dataclass, field
from typing import Optional, Union

from .nodes import FIELDS, Alternative, Item, Kind, Member, Node, Table, Wrapper

_STATIC = re.compile(r"static NODES: \[Node; \d+\] = (\[.*?\n\]);", re.DOTALL)
_TOKEN = re.compile(r'"([^"]*)"|(-?0x[0-9A-F]+|-?\d+)|([A-Za-z_]\w*(?:::\w+)*)|([{}()\[\]:,&])|\s+')


@dataclass
class Named:
    """A struct or a variant: its name, and its fields by their names or in their order."""

    name: str
    fields: dict[str, "Value"] = field(default_factory=dict)
    given: list["Value"] = field(default_factory=list)


Value = Union[Named, str, int, list, tuple]


class _Reader:
    """Reads a value of Rust."""

    def __init__(self, text: str) -> None:
        self.tokens, self.index = [it for it in _TOKEN.finditer(text) if it.group().strip()], 0

    def next(self) -> re.Match:
        """The next token, which is consumed."""
        self.index += 1
        return self.tokens[self.index - 1]

    def comes(self, mark: str) -> bool:
        """Whether the next token is this mark, which is consumed then."""
        found = self.index < len(self.tokens) and self.tokens[self.index][4] == mark
        self.index += found
        return found

    def value(self) -> Value:
        """A value."""
        if self.comes("&"):
            return self.value()
        if self.comes("["):
            return self.values("]")
        if self.comes("("):
            return tuple(self.values(")"))
        token = self.next()
        if token[1] is not None:
            return token[1]
        if token[2]:
            return int(token[2], 0)
        found = Named(token[3])
        if self.comes("{"):
            while not self.comes("}"):
                name = self.next()[3]
                self.comes(":")
                found.fields[name] = self.value()
                self.comes(",")
        elif self.comes("("):
            found.given = self.values(")")
        return found

    def values(self, end: str) -> list[Value]:
        """Values up to a bracket."""
        found = []
        while not self.comes(end):
            found.append(self.value())
            self.comes(",")
        return found


def read_table(text: str) -> Table:
    """The table of a file. Raises ValueError for a file without one."""
    found = _STATIC.search(text)
    if not found:
        raise ValueError("the file has no static of nodes")
    return Table([Node(_name(it.fields["name"]), _kind(it.fields["kind"])) for it in _Reader(found[1]).value()])


def _name(value: Named) -> Optional[str]:
    return value.given[0] if value.given else None


def _variant(value: Named) -> str:
    return value.name.partition("::")[2]


def _kind(value: Named) -> Kind:
    variant = _variant(value)
    given = [value.fields[it] for it in FIELDS[variant]] if variant in FIELDS else value.given
    return Kind(variant, tuple(map(_part, given)))


def _part(value: Value) -> object:
    """A field of a kind."""
    if isinstance(value, list):
        return tuple(map(_part, value))
    if not isinstance(value, Named):
        return value
    if value.name.startswith("Wrapper::"):
        return Wrapper(_variant(value), *value.given)
    if value.name == "Item":
        return Item(value.fields["name"], value.fields["number"])
    if value.name == "Alternative":
        return Alternative(value.fields["name"], value.fields["node"])
    presence = value.fields["presence"]
    return Member(value.fields["name"], _variant(presence), value.fields["node"], *(_default(it) for it in presence.given))


def _default(value: Named) -> Union[bool, int]:
    """The value of a default."""
    return value.given[0] if value.given else _variant(value) == "True"
