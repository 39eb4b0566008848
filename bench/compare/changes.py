"""Makes changed lines from whole ones, with a seeded generator."""
import random
from collections.abc import Iterator
from dataclasses import dataclass


@dataclass
class Element:
    """An element whose length is worked out as it is written, in a form that can be changed."""

    identifier: bytes
    content: bytes
    members: "list[Element]"
    written_length: bytes | None = None
    written_end: bytes = b""

    def encoding(self) -> bytes:
        """The bytes of the element."""
        content = b"".join(it.encoding() for it in self.members) if self.members else self.content
        length = shortest_length(len(content)) if self.written_length is None else self.written_length
        return self.identifier + length + content + self.written_end

    def size(self) -> int:
        """How many bytes the content has."""
        return sum(len(it.encoding()) for it in self.members) if self.members else len(self.content)

    def all(self) -> "Iterator[Element]":
        """This element and all inside of it."""
        yield self
        for member in self.members:
            yield from member.all()


def long_length(size: int, count: int) -> bytes:
    """A length in this many bytes after its first byte."""
    return bytes([0x80 + count]) + size.to_bytes(count, "big")


def shortest_length(size: int) -> bytes:
    """The length that DER asks for (X.690, 10.1)."""
    return bytes([size]) if size < 0x80 else long_length(size, (size.bit_length() + 7) // 8)


def elements_of(data: bytes) -> list[Element]:
    """The elements that these bytes are, one after another, or an error if they aren't elements in DER with tags of one byte."""
    elements = []
    place = 0
    while place < len(data):
        form = data[place + 1]
        begin = place + 2 + (form - 0x80 if form > 0x80 else 0)
        size = int.from_bytes(data[place + 2 : begin], "big") if form > 0x80 else form
        header, content = data[place:begin], data[begin : begin + size]
        if header != data[place : place + 1] + shortest_length(size) or len(content) != size or header[0] % 32 == 31:
            raise ValueError("these bytes are no elements in DER")
        elements.append(Element(header[:1], content, elements_of(content) if header[0] & 0x20 else []))
        place = begin + size
    return elements


def change_length(rng: random.Random, element: Element) -> None:
    """Writes the length of an element in another form, or another length."""
    size = element.size()
    match rng.randrange(6):
        case 0:
            element.written_length = shortest_length(size + 1)
        case 1:
            element.written_length = shortest_length(max(0, size - 1))
        case 2:
            element.written_length = long_length(size, len(shortest_length(size)))
        case 3:
            element.written_length = long_length(size, rng.randint(4, 10))
        case 4:
            element.written_length, element.written_end = b"\x80", b"\0\0"
        case _:
            element.written_length = bytes([rng.randrange(256)])


def change_form(rng: random.Random, element: Element) -> None:
    """Swaps members, or leaves one out or repeats it. What has none is written in pieces or with its tag in the long form."""
    members, first = element.members, element.identifier[0]
    if not members and rng.randrange(4):
        element.content = bytes([first]) + shortest_length(len(element.content)) + element.content
        element.identifier = bytes([first | 0x20])
        return
    if not members:
        element.identifier = bytes([first | 0x1F, rng.choice([first & 0x1F, rng.randrange(31, 128)])])
        return
    place = rng.randrange(len(members))
    match rng.randrange(3):
        case 0:
            members[place], members[place - 1] = members[place - 1], members[place]
        case 1:
            del members[place]
        case _:
            members.insert(place, members[place])


def change_content(rng: random.Random, element: Element) -> None:
    """Replaces, inserts or removes a byte of a content, and adapts all lengths."""
    content = element.content
    if element.members or not content:
        change_form(rng, element)
        return
    place, byte = rng.randrange(len(content)), bytes([rng.randrange(256)])
    ends = [content[place + 1 :], content[place:], content[place + 1 :]]
    kind = rng.randrange(3)
    element.content = content[:place] + (byte if kind < 2 else b"") + ends[kind]


def change_element(rng: random.Random, data: bytes) -> bytes:
    """Changes one element, and the lengths around it where these change."""
    whole = elements_of(data)
    choice = rng.choice([it for top in whole for it in top.all()])
    rng.choice([change_length, change_form, change_content, change_content])(rng, choice)
    return b"".join(it.encoding() for it in whole)


def change_bytes(rng: random.Random, data: bytes) -> bytes:
    """Replaces, inserts or removes one byte, or cuts the bytes short."""
    place, byte = rng.randrange(len(data)), bytes([rng.randrange(256)])
    match rng.randrange(4):
        case 0:
            return data[:place] + byte + data[place + 1 :]
        case 1:
            return data[:place] + byte + data[place:]
        case 2:
            return data[:place] + data[place + 1 :]
        case _:
            return data[:place]


def change(rng: random.Random, data: bytes) -> bytes:
    """Makes one change. What isn't DER is changed only byte by byte."""
    if rng.randrange(2):
        try:
            return change_element(rng, data)
        except (ValueError, IndexError):
            pass
    return change_bytes(rng, data) if data else bytes([rng.randrange(256)])


def changed(rng: random.Random, lines: list[tuple[str, bytes]], count: int) -> Iterator[tuple[str, bytes]]:
    """This many lines, each made by a change of a random one of these, or by more changes if that line came before."""
    seen = set(lines)
    for _ in range(count):
        word, data = rng.choice(lines)
        while (word, data) in seen:
            data = change(rng, data)
        seen.add((word, data))
        yield word, data
