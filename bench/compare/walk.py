"""Reads elements in BER, as far as any reader could, and notes each rule of DER that they break (X.690).

It knows nothing of the programs that are compared. Which of them tests which rule is said in `causes`.
"""
from collections.abc import Iterator
from dataclasses import dataclass, field

UNIVERSAL, CONTEXT = 0, 2
BOOLEAN, INTEGER, BIT_STRING, OCTET_STRING, NULL, OBJECT_IDENTIFIER = 1, 2, 3, 4, 5, 6
ENUMERATED, UTF8_STRING, SEQUENCE, SET, UTC_TIME, GENERALIZED_TIME = 10, 12, 16, 17, 23, 24
T61_STRING, IA5_STRING, UNIVERSAL_STRING, BMP_STRING = 20, 22, 28, 30
NUMERIC_STRING, PRINTABLE_STRING = 18, 19

# the bytes that end an indefinite length (8.1.5)
END_OF_CONTENTS = b"\0\0"


class Broken(Exception):
    """No reader of the type could make a value of the bytes, however much it leaves untested."""


@dataclass(frozen=True)
class Header:
    """The header of an element, and where its content is."""

    begin: int
    tag: tuple[int, int]
    is_constructed: bool
    content: int
    end: int
    next: int


@dataclass
class Walk:
    """Bytes, and the names of the rules that were broken so far."""

    data: bytes
    found: set[str] = field(default_factory=set)

    def note(self, rule: str, is_broken: bool = True) -> None:
        """Notes a rule that is broken here."""
        if is_broken:
            self.found.add(rule)

    def require(self, holds: bool) -> None:
        """Gives up if this doesn't hold."""
        if not holds:
            raise Broken

    def byte(self, place: int, end: int) -> int:
        """The byte at this place."""
        self.require(place < end)
        return self.data[place]

    def tag_number(self, place: int, end: int) -> tuple[int, int]:
        """A tag number in the long form, and the place after it (8.1.2.4)."""
        number, begin = 0, place
        while True:
            byte = self.byte(place, end)
            place += 1
            number = number * 128 + byte % 128
            if byte < 0x80:
                break
        self.require(number < 2**31)
        self.note("tag number in the long form", number > 30)
        self.note("small tag number in the long form", number <= 30)
        self.note("needless digit of a tag number", self.data[begin] == 0x80)
        return number, place

    def header(self, place: int, end: int) -> Header:
        """The header of the element at this place."""
        begin, first = place, self.byte(place, end)
        number, place = first % 32, place + 1
        if number == 31:
            number, place = self.tag_number(place, end)
        tag, is_constructed = (first >> 6, number), bool(first & 0x20)
        form = self.byte(place, end)
        place += 1
        if form == 0x80:
            self.require(is_constructed)
            self.note("indefinite length")
            content_end = self.end_of_contents(place, end)
            return Header(begin, tag, is_constructed, place, content_end, content_end + 2)
        length = form
        if form > 0x80:
            digits = self.data[place : place + form - 0x80]
            place += form - 0x80
            length = int.from_bytes(digits, "big")
            # Where nothing follows these bytes they are a needless form of 0, and OpenSSL refuses that alone of such forms.
            self.require(form < 0xFF and place < end)
            self.note("length not the shortest", digits[0] == 0 or length < 0x80)
        self.require(place + length <= end)
        return Header(begin, tag, is_constructed, place, place + length, place + length)

    def end_of_contents(self, place: int, end: int) -> int:
        """The place of the bytes that end an indefinite length."""
        while self.data[place : place + 2] != END_OF_CONTENTS or place + 2 > end:
            place = self.header(place, end).next
        return place

    def is_end_of_contents(self, header: Header) -> bool:
        """Whether the element is written as the bytes that end an indefinite length."""
        return self.data[header.begin : header.begin + 2] == END_OF_CONTENTS

    def content(self, header: Header) -> bytes:
        """The bytes of the content."""
        return self.data[header.content : header.end]

    def members(self, header: Header) -> Iterator[Header]:
        """The headers of the members."""
        place = header.content
        while place < header.end:
            member = self.header(place, header.end)
            yield member
            place = member.next

    def pieces(self, header: Header, depth: int = 1) -> bytes:
        """The content of a string in the constructed form: that of its pieces, joined (8.7.3)."""
        self.require(depth <= 5)
        joined = b""
        for piece in self.members(header):
            self.require(not self.is_end_of_contents(piece))
            joined += self.pieces(piece, depth + 1) if piece.is_constructed else self.content(piece)
        return joined


@dataclass
class Members:
    """The members of a sequence, of which some were read."""

    walk: Walk
    place: int
    end: int

    def peek(self) -> Header | None:
        """The header of the next member, if there is one."""
        if self.place >= self.end:
            return None
        before = set(self.walk.found)
        header = self.walk.header(self.place, self.end)
        self.walk.found = before
        return header

    def next(self) -> Header:
        """The next member, which is then read."""
        header = self.walk.header(self.place, self.end)
        self.place = header.next
        return header

    def next_if(self, tag: tuple[int, int]) -> Header | None:
        """The next member, if it has this tag."""
        header = self.peek()
        return self.next() if header is not None and header.tag == tag else None

    def finish(self) -> None:
        """Gives up where members are left over."""
        self.walk.require(self.place == self.end)
