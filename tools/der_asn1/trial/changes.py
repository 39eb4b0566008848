"""Encodings that are changed at one place: tags, forms, lengths, elements, contents."""
import random
from collections.abc import Callable, Iterator
from dataclasses import dataclass, field

CONSTRUCTED = 0x20
# elements that no module of the trials has, of each class
_STRANGERS = (b"\x05\0", b"\x9E\0", b"\xBE\x02\x05\0", b"\x5E\x01A", b"\x30\0")


@dataclass
class Node:
    """An element: its identifier byte, and its content or the elements in it."""

    tag: int
    content: bytes = b""
    parts: list["Node"] = field(default_factory=list)

    def encoding(self) -> bytes:
        """Its encoding."""
        content = b"".join(it.encoding() for it in self.parts) if self.tag & CONSTRUCTED else self.content
        return bytes([self.tag]) + length_of(len(content)) + content

    def all(self) -> Iterator["Node"]:
        """It and all elements in it."""
        yield self
        for it in self.parts:
            yield from it.all()


def length_of(count: int) -> bytes:
    """The bytes of a length (X.690, 10.1)."""
    if count < 0x80:
        return bytes([count])
    digits = count.to_bytes((count.bit_length() + 7) // 8, "big")
    return bytes([0x80 | len(digits)]) + digits


def nodes_of(data: bytes) -> list[Node] | None:
    """The elements that bytes are. None if they aren't elements, or if a tag has more than one byte."""
    found, at = [], 0
    while at < len(data):
        if len(data) < at + 2 or data[at] & 0x1F == 0x1F:
            return None
        count = data[at + 1] & 0x7F if data[at + 1] & 0x80 else 0
        start = at + 2 + count
        length = int.from_bytes(data[at + 2 : start], "big") if count else data[at + 1]
        if len(data) < start + length:
            return None
        content = data[start : start + length]
        parts = nodes_of(content) if data[at] & CONSTRUCTED else []
        if parts is None:
            return None
        found.append(Node(data[at], content, parts))
        at = start + length
    return found


def _in_place(chance: random.Random, node: Node) -> None:
    """Changes the identifier or the content of an element."""
    content = bytearray(node.content)
    change = chance.choice(("number", "form", "class", "shorter", "longer", "byte", "zero", "empty"))
    if change == "number":
        node.tag = node.tag & 0xE0 | (node.tag + 1) % 31
    elif change == "form":
        node.tag ^= CONSTRUCTED
    elif change == "class":
        node.tag ^= 0x80
    elif change == "shorter":
        node.content = bytes(content[:-1])
    elif change == "longer":
        node.content = bytes(content) + bytes([chance.randrange(256)])
    elif change == "byte" and content:
        content[chance.randrange(len(content))] = chance.randrange(256)
        node.content = bytes(content)
    elif change == "zero":
        node.content = b"\0" + bytes(content)
    else:
        node.content = b""


def _among_parts(chance: random.Random, node: Node) -> None:
    """Changes which elements are in an element."""
    at = chance.randrange(len(node.parts) + 1)
    change = chance.choice(("out", "twice", "swapped", "added", "moved"))
    if change == "out":
        del node.parts[at : at + 1]
    elif change == "twice":
        node.parts[at:at] = node.parts[at : at + 1]
    elif change == "swapped":
        node.parts[at : at + 2] = node.parts[at : at + 2][::-1]
    elif change == "added":
        node.parts[at:at] = nodes_of(chance.choice(_STRANGERS)) or []
    else:
        node.parts.append(node.parts.pop(at)) if at < len(node.parts) else None


def changed(data: bytes, chance: random.Random) -> bytes:
    """An encoding that is changed at one place, or at two. It may be what it was."""
    if chance.random() < 0.1:
        at = chance.randrange(len(data))
        return data[: at + 1] if chance.random() < 0.5 else data[:at] + bytes([data[at] ^ 1 << chance.randrange(8)]) + data[at + 1 :]
    nodes = nodes_of(data)
    if not nodes:
        return data
    for _ in range(chance.choice((1, 1, 2))):
        node = chance.choice(list(nodes[0].all()))
        change: Callable[[random.Random, Node], None] = _among_parts if node.tag & CONSTRUCTED and chance.random() < 0.7 else _in_place
        change(chance, node)
    return nodes[0].encoding()
