"""Reads the structures that lines and certificates have, and notes each rule that their bytes break (RFC 5280, 4.1)."""
from collections.abc import Callable

from elements import (
    any_element,
    any_member,
    bit_string,
    boolean,
    broken_content,
    character,
    is_moment,
    is_shortest,
    is_text,
    joined,
    null,
    number,
    object_identifier,
    octets,
    primitive,
    sequence,
    string,
    text,
)
from walk import (
    BIT_STRING,
    BMP_STRING,
    BOOLEAN,
    CONTEXT,
    GENERALIZED_TIME,
    IA5_STRING,
    INTEGER,
    NUMERIC_STRING,
    OCTET_STRING,
    PRINTABLE_STRING,
    SEQUENCE,
    SET,
    T61_STRING,
    UNIVERSAL,
    UNIVERSAL_STRING,
    UTC_TIME,
    UTF8_STRING,
    Broken,
    Header,
    Members,
    Walk,
)

# the universal types that OpenSSL accepts as the value of an attribute: its strings, and the types that it doesn't know
STRINGS = {BIT_STRING, UTF8_STRING, SEQUENCE, NUMERIC_STRING, PRINTABLE_STRING, T61_STRING, IA5_STRING, UNIVERSAL_STRING, BMP_STRING}
UNKNOWN = {7, 8, 9, 11, 13, 14, 15, 29}

# the strings whose text OpenSSL converts to UTF-8 when it reads a name
ENCODINGS = {UTF8_STRING: "utf-8", BMP_STRING: "utf-16-be", UNIVERSAL_STRING: "utf-32-be"}


def test_struct(walk: Walk, header: Header) -> None:
    """A `TestStruct`."""
    members = sequence(walk, header)
    number(walk, members.next(), 8)
    octets(walk, members.next())
    pair = sequence(walk, members.next())
    number(walk, pair.next(), 64)
    null(walk, pair.next())
    pair.finish()
    members.finish()


def algorithm(walk: Walk, header: Header) -> None:
    """An algorithm identifier (RFC 5280, 4.1.1.2)."""
    members = sequence(walk, header)
    object_identifier(walk, members.next())
    if members.place < members.end:
        any_member(walk, members.next())
    members.finish()


def public_key(walk: Walk, header: Header) -> None:
    """A public key (RFC 5280, 4.1.2.7)."""
    members = sequence(walk, header)
    algorithm(walk, members.next())
    bit_string(walk, members.next())
    members.finish()


def explicit(walk: Walk, members: Members, number: int) -> Header | None:
    """What is in the explicit context tag of this number, if the next member has it."""
    outer = members.next_if((CONTEXT, number))
    if outer is None:
        return None
    walk.require(outer.is_constructed)
    inner = walk.header(outer.content, outer.end)
    walk.require(inner.next == outer.end)
    return inner


def version(walk: Walk, header: Header) -> None:
    """A version that is written out."""
    content = primitive(walk, header, INTEGER)
    walk.require(is_shortest(content))
    walk.note("default written out", content == b"\0")
    walk.note("version other than 0 to 2", content not in (b"\0", b"\1", b"\2"))


def serial_number(walk: Walk, header: Header) -> None:
    """A serial number."""
    walk.note("serial number not in its shortest form", not is_shortest(primitive(walk, header, INTEGER)))


def attribute_value(walk: Walk, header: Header) -> None:
    """The value of an attribute."""
    walk.note("end of contents as an element", walk.is_end_of_contents(header))
    kind, number = header.tag
    is_string = kind == UNIVERSAL and number in STRINGS | UNKNOWN
    walk.note("value of an attribute that is no string", not is_string)
    if not is_string:
        return
    broken = broken_content(walk, header)
    if broken is not None:
        walk.note(broken)
    elif number in ENCODINGS:
        walk.note("string of a name that is no text", not is_text(joined(walk, header), ENCODINGS[number]))


def attribute(walk: Walk, header: Header) -> None:
    """An attribute of a name."""
    members = sequence(walk, header)
    object_identifier(walk, members.next())
    attribute_value(walk, members.next())
    members.finish()


def name(walk: Walk, header: Header) -> None:
    """A name: a sequence of sets of attributes."""
    steps = sequence(walk, header)
    while steps.place < steps.end:
        step = steps.next()
        walk.require(step.tag == (UNIVERSAL, SET) and step.is_constructed)
        attributes = Members(walk, step.content, step.end)
        walk.note("step of a name without attributes", step.content == step.end)
        encodings = []
        while attributes.place < attributes.end:
            begin = attributes.place
            attribute(walk, attributes.next())
            encodings.append(walk.data[begin : attributes.place])
        walk.note("members of a set out of order", encodings != sorted(encodings))


def time(walk: Walk, header: Header) -> None:
    """A time."""
    walk.require(header.tag in ((UNIVERSAL, UTC_TIME), (UNIVERSAL, GENERALIZED_TIME)))
    is_generalized = header.tag[1] == GENERALIZED_TIME
    walk.note("content of a time", not is_moment(string(walk, header, header.tag), is_generalized))


def validity(walk: Walk, header: Header) -> None:
    """Two times."""
    members = sequence(walk, header)
    time(walk, members.next())
    time(walk, members.next())
    members.finish()


def extension(walk: Walk, header: Header) -> None:
    """An extension."""
    members = sequence(walk, header)
    object_identifier(walk, members.next())
    critical = members.next_if((UNIVERSAL, BOOLEAN))
    if critical is not None:
        walk.note("default written out", not boolean(walk, critical))
    string(walk, members.next(), (UNIVERSAL, OCTET_STRING))
    members.finish()


def extensions(walk: Walk, header: Header) -> None:
    """All extensions."""
    members = sequence(walk, header)
    while members.place < members.end:
        extension(walk, members.next())


def signed(walk: Walk, header: Header) -> None:
    """The signed part of a certificate."""
    members = sequence(walk, header)
    written_version = explicit(walk, members, 0)
    if written_version is not None:
        version(walk, written_version)
    serial_number(walk, members.next())
    algorithm(walk, members.next())
    name(walk, members.next())
    validity(walk, members.next())
    name(walk, members.next())
    public_key(walk, members.next())
    for tag in ((CONTEXT, 1), (CONTEXT, 2)):
        unique_id = members.next_if(tag)
        if unique_id is not None:
            bit_string(walk, unique_id, tag)
    written_extensions = explicit(walk, members, 3)
    if written_extensions is not None:
        extensions(walk, written_extensions)
    members.finish()


def certificate(walk: Walk, header: Header) -> None:
    """A certificate, which must be all of the bytes."""
    walk.require(header.next == len(walk.data))
    members = sequence(walk, header)
    signed(walk, members.next())
    algorithm(walk, members.next())
    bit_string(walk, members.next())
    members.finish()


TYPES: dict[str, Callable[[Walk, Header], object]] = {
    "bool": boolean,
    "u8": lambda walk, header: number(walk, header, 8),
    "u16": lambda walk, header: number(walk, header, 16),
    "u32": lambda walk, header: number(walk, header, 32),
    "u64": lambda walk, header: number(walk, header, 64),
    "u128": lambda walk, header: number(walk, header, 128),
    "null": null,
    "char": character,
    "text": text,
    "octets": octets,
    "raw": any_element,
    "test": test_struct,
    "spki": public_key,
    "certificate": certificate,
}


def broken_rules(word: str, data: bytes) -> set[str] | None:
    """The rules that the bytes of a line break, or nothing if no reader could make a value of them."""
    walk = Walk(data)
    try:
        TYPES[word](walk, walk.header(0, len(data)))
    except Broken:
        return None
    return walk.found
