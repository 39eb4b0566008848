"""Elements of BER: messages of DER in other forms, and what they are in DER."""
import random
from collections.abc import Callable, Iterator

from .der import element, encoded

CONSTRUCTED, END = 0x20, b"\0\0"
# the most constructed elements that are in one another, and the most bytes of a number in a length (X.690, 8.1.3.5 c)
MAX_DEPTH, MAX_OCTETS = 128, 126
FORMS_BY_CHANCE = 17
# the universal tags of strings, of times and of ObjectDescriptor: BIT STRING (X.690, 8.6.4), and those with parts that are octet strings (8.23.3)
BIT_STRING, OCTET_STRING = 0x03, 0x04
STRINGS = (BIT_STRING, OCTET_STRING, 0x07, 0x0C, *range(0x12, 0x1D), 0x1E)
# how many bytes a part has, and how many forms of a message have strings in parts
PART_SIZES = (1, 2, 3, 7, 100, 1000)
FORMS_IN_PARTS = 10

# the bytes of a tag, a length and a content, with an end-of-contents if there is one
Form = Callable[[int, bytes], bytes]


# ---- the forms of a length


def short(tag: int, content: bytes) -> bytes:
    """The form of DER."""
    return encoded(tag, content)


def indefinite(tag: int, content: bytes) -> bytes:
    """The indefinite form, if the element is constructed (X.690, 8.1.3.6)."""
    return bytes([tag, 0x80]) + content + END if tag & CONSTRUCTED else encoded(tag, content)


def padded(octets: int) -> Form:
    """The long form with a number of at least so many bytes."""
    def form(tag: int, content: bytes) -> bytes:
        count = max(octets, (len(content).bit_length() + 7) // 8)
        return bytes([tag, 0x80 | count]) + len(content).to_bytes(count, "big") + content
    return form


def by_chance(chance: random.Random) -> Form:
    """Each length in any form."""
    def form(tag: int, content: bytes) -> bytes:
        octets = chance.choice((1, 2, 3, 8, 9, chance.randint(1, MAX_OCTETS)))
        return chance.choice((short, indefinite, padded(octets)))(tag, content)
    return form


def in_form(data: bytes, form: Form) -> bytes:
    """Elements of DER with each length in a form."""
    written, at = b"", 0
    while at < len(data):
        tag, content, at = element(data, at)
        written += form(tag, in_form(content, form) if tag & CONSTRUCTED else content)
    return written


def forms_of(name: str, data: bytes) -> Iterator[bytes]:
    """A message in several forms."""
    yield in_form(data, indefinite)
    yield in_form(data, padded(1))
    yield in_form(data, padded(MAX_OCTETS))
    for number in range(FORMS_BY_CHANCE):
        yield in_form(data, by_chance(random.Random(f"{name} {number}")))


def sizes(chance: random.Random, total: int) -> Iterator[int]:
    """How many bytes each part has, of so many together."""
    most = chance.choice((*PART_SIZES, chance.randint(1, 1000)))
    while total > 0:
        size = min(most, total)
        yield size
        total -= size
    if chance.randint(1, 4) == 1:
        yield 0


def parts_of(tag: int, content: bytes, chance: random.Random) -> list[tuple[int, bytes]]:
    """The parts of a string with such a content, each with its tag and its content."""
    if tag != BIT_STRING:
        unused, data = b"", content
    else:
        unused, data = content[:1], content[1:]
    parts, at = [], 0
    for size in sizes(chance, len(data)):
        parts.append(data[at : at + size])
        at += size
    if tag != BIT_STRING:
        return [(OCTET_STRING, part) for part in parts]
    # only the last part with bits has unused ones, and no part is after it
    while len(parts) > 1 and not parts[-1]:
        parts.pop()
    return [(BIT_STRING, (unused if at == len(parts) else b"\0") + part) for at, part in enumerate(parts, 1)]


def grouped(parts: list[tuple[int, bytes]], form: Form, chance: random.Random) -> bytes:
    """Parts one after another, some of them in a part of their own."""
    written = b""
    while parts:
        count = chance.randint(1, len(parts))
        here, parts = parts[:count], parts[count:]
        if parts and chance.randint(1, 2) == 1:
            written += form(here[0][0] | CONSTRUCTED, grouped(here, form, chance))
        else:
            written += b"".join(form(tag, content) for tag, content in here)
    return written


def in_parts(chance: random.Random) -> Form:
    """Each length in any form, and most universal strings in parts."""
    lengths = by_chance(chance)

    def form(tag: int, content: bytes) -> bytes:
        if tag not in STRINGS or chance.randint(1, 5) == 1:
            return lengths(tag, content)
        return lengths(tag | CONSTRUCTED, grouped(parts_of(tag, content, chance), lengths, chance))
    return form


def forms_in_parts(name: str, data: bytes) -> Iterator[bytes]:
    """A message in several forms with strings in parts."""
    for number in range(FORMS_IN_PARTS):
        yield in_form(data, in_parts(random.Random(f"{name} in parts {number}")))


# ---- reading BER


def shortened(data: bytes, at: int = 0, end: int | None = None) -> tuple[bytes, int]:
    """Elements with the lengths of DER, and where they end: at this place, or before an end-of-contents without one."""
    written = b""
    while at != end:
        if end is None and data[at : at + 2] == END:
            return written, at
        tag, first, begin = data[at], data[at + 1], at + 2
        if first == 0x80:
            content, stop = shortened(data, begin)
            written, at = written + encoded(tag, content), stop + len(END)
            continue
        octets = first & 0x7F if first & 0x80 else 0
        length = int.from_bytes(data[begin : begin + octets], "big") if octets else first
        begin, at = begin + octets, begin + octets + length
        written += encoded(tag, shortened(data, begin, at)[0] if tag & CONSTRUCTED else data[begin:at])
    return written, at


def content_of(tag: int, data: bytes) -> bytes:
    """The content of a string with these parts, whose lengths are those of DER."""
    contents, at = [], 0
    while at < len(data):
        part, content, at = element(data, at)
        if part & CONSTRUCTED:
            content = content_of(tag, content)
        contents.append(content)
    if tag != BIT_STRING:
        return b"".join(contents)
    return (contents[-1][:1] if contents else b"\0") + b"".join(content[1:] for content in contents)


def whole(data: bytes) -> bytes:
    """Elements with the lengths of DER, with whole strings."""
    written, at = b"", 0
    while at < len(data):
        tag, content, at = element(data, at)
        string = tag - CONSTRUCTED
        if tag & CONSTRUCTED and string in STRINGS:
            written += encoded(string, content_of(string, content))
        else:
            written += encoded(tag, whole(content) if tag & CONSTRUCTED else content)
    return written
