"""Reads the types of X.690 that lines and certificates are made of, and notes each rule that their bytes break."""
import datetime
import re
from collections.abc import Callable

from walk import (
    BIT_STRING,
    BMP_STRING,
    BOOLEAN,
    ENUMERATED,
    INTEGER,
    NULL,
    OBJECT_IDENTIFIER,
    OCTET_STRING,
    SEQUENCE,
    SET,
    UNIVERSAL,
    UNIVERSAL_STRING,
    UTF8_STRING,
    Broken,
    Header,
    Members,
    Walk,
)


def sequence(walk: Walk, header: Header) -> Members:
    """The members of a SEQUENCE."""
    walk.require(header.tag == (UNIVERSAL, SEQUENCE) and header.is_constructed)
    return Members(walk, header.content, header.end)


def primitive(walk: Walk, header: Header, number: int) -> bytes:
    """The content of an element that has no constructed form."""
    walk.require(header.tag == (UNIVERSAL, number) and not header.is_constructed)
    return walk.content(header)


def string(walk: Walk, header: Header, tag: tuple[int, int]) -> bytes:
    """The content of a string."""
    walk.require(header.tag == tag)
    if not header.is_constructed:
        return walk.content(header)
    walk.note("string in constructed form")
    return walk.pieces(header)


def is_shortest(content: bytes) -> bool:
    """Whether a number's content has a byte and no superfluous one (8.3.1 and 8.3.2)."""
    return len(content) == 1 or len(content) > 1 and not (
        content[0] == 0 and content[1] < 0x80 or content[0] == 0xFF and content[1] >= 0x80
    )


def number(walk: Walk, header: Header, bits: int) -> None:
    """A number of a type of Rust."""
    content = primitive(walk, header, INTEGER)
    walk.require(is_shortest(content) and 0 <= int.from_bytes(content, "big", signed=True) < 2**bits)


def boolean(walk: Walk, header: Header) -> bool:
    """A bool."""
    content = primitive(walk, header, BOOLEAN)
    walk.require(len(content) == 1)
    walk.note("bool other than 00 and FF", content[0] not in (0x00, 0xFF))
    return content[0] != 0


def null(walk: Walk, header: Header) -> None:
    """A null."""
    walk.require(primitive(walk, header, NULL) == b"")


def is_text(content: bytes, encoding: str = "utf-8") -> bool:
    """Whether bytes are a text in this encoding."""
    try:
        content.decode(encoding)
    except UnicodeDecodeError:
        return False
    return True


def text(walk: Walk, header: Header) -> None:
    """A text."""
    walk.note("text that is no UTF-8", not is_text(string(walk, header, (UNIVERSAL, UTF8_STRING))))


def character(walk: Walk, header: Header) -> None:
    """A text of one character."""
    content = string(walk, header, (UNIVERSAL, UTF8_STRING))
    walk.require(is_text(content) and len(content.decode()) == 1)


def octets(walk: Walk, header: Header) -> None:
    """An octet string."""
    string(walk, header, (UNIVERSAL, OCTET_STRING))


def is_object_identifier(content: bytes) -> bool:
    """Whether each number has an end and no superfluous digit (8.19.2)."""
    return re.fullmatch(rb"(?:(?!\x80)[\x80-\xFF]*[\x00-\x7F])+", content, re.DOTALL) is not None


def object_identifier(walk: Walk, header: Header) -> None:
    """An object identifier."""
    content = primitive(walk, header, OBJECT_IDENTIFIER)
    walk.note("content of an object identifier", not is_object_identifier(content))
    walk.note("object identifier of more than 63 bytes", len(content) > 63)


def check_bits(walk: Walk, content: bytes) -> None:
    """Notes what is wrong with the content of a bit string."""
    if not content:
        walk.note("bit string without the count of unused bits")
    elif content[0] > 7:
        walk.note("more than seven unused bits")
    elif content[0] > 0 and len(content) == 1:
        walk.note("unused bits where there are none")
    elif content[0] > 0:
        walk.note("unused bits that aren't zero", bool(content[-1] % 2 ** content[0]))


def bit_string(walk: Walk, header: Header, tag: tuple[int, int] = (UNIVERSAL, BIT_STRING)) -> None:
    """A bit string."""
    check_bits(walk, string(walk, header, tag))


def joined(walk: Walk, header: Header) -> bytes:
    """The content of an element of any type, or of its pieces, joined. The rules that these break aren't noted, since only OpenSSL reads them."""
    return Walk(walk.data).pieces(header) if header.is_constructed else walk.content(header)


def broken_content(walk: Walk, header: Header) -> str | None:
    """The rule that the form or the content of an element breaks, whatever universal type it has."""
    number = header.tag[1]
    if number in (SEQUENCE, SET):
        return None if header.is_constructed else "any SEQUENCE or SET in the primitive form"
    if header.is_constructed and number in (BOOLEAN, INTEGER, ENUMERATED, NULL, OBJECT_IDENTIFIER):
        return "any type in the constructed form that has none"
    try:
        content = joined(walk, header)
    except Broken:
        return "any string whose pieces are no elements"
    for numbers, name, holds in CONTENTS:
        if number in numbers and not holds(content):
            return name
    walk.note("any string in constructed form", header.is_constructed)
    if number == BIT_STRING:
        walk.note("any BIT STRING with unused bits where there are none", len(content) == 1 and content[0] > 0)
        walk.note("any BIT STRING with unused bits that aren't zero", len(content) > 1 and bool(content[-1] % 2 ** content[0]))
    return None


CONTENTS: list[tuple[tuple[int, ...], str, Callable[[bytes], bool]]] = [
    ((BOOLEAN,), "any BOOLEAN that isn't one byte", lambda it: len(it) == 1),
    ((INTEGER, ENUMERATED), "any INTEGER or ENUMERATED not in its shortest form", is_shortest),
    ((BIT_STRING,), "any BIT STRING with no count of unused bits up to seven", lambda it: it != b"" and it[0] <= 7),
    ((NULL,), "any NULL with a content", lambda it: it == b""),
    ((OBJECT_IDENTIFIER,), "any OBJECT IDENTIFIER with a number that is cut or begins with a zero", is_object_identifier),
    ((UNIVERSAL_STRING,), "any UniversalString or BMPString that ends inside a character", lambda it: len(it) % 4 == 0),
    ((BMP_STRING,), "any UniversalString or BMPString that ends inside a character", lambda it: len(it) % 2 == 0),
]


def any_element(walk: Walk, header: Header) -> None:
    """An element of any type."""
    broken = broken_content(walk, header) if header.tag[0] == UNIVERSAL else None
    if broken is not None:
        walk.note(broken)


def any_member(walk: Walk, header: Header) -> None:
    """An element of any type in a sequence."""
    walk.note("end of contents as an element", walk.is_end_of_contents(header))
    any_element(walk, header)


def is_moment(content: bytes, is_generalized: bool) -> bool:
    """Whether the content of a time is a moment in its one form of DER (11.7 and 11.8)."""
    if not re.fullmatch(rb"\d{14}(\.\d*[1-9])?Z" if is_generalized else rb"\d{12}Z", content):
        return False
    century = b"" if is_generalized else b"19" if content >= b"5" else b"20"
    try:
        moment = datetime.datetime.strptime((century + content)[:14].decode(), "%Y%m%d%H%M%S")
    except ValueError:
        return False
    return moment.second < 60
