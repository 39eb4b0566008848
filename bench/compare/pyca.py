"""Answers lines `read TYPE HEX` by what pyca's `asn1` makes of the bytes: `ok N ..` with how many bytes were read, or `refused`.

    python3.11 pyca.py < lines

The types are those of der_tool, and `certificate`. After N comes the value as `asn1` encodes it again, or for a certificate what
`certificate_text` returns. `asn1` decodes a whole input, so it is given the first element, or for a certificate all bytes. It has no
numbers of a given size, no character and no optional element of any type: these three are tested here. It writes no number past
2^63 - 1 and no element of any type: these two are written here.
"""
import sys
from collections.abc import Callable
from typing import Annotated

from cryptography.hazmat import asn1
from cryptography.x509 import ObjectIdentifier

Time = asn1.UTCTime | asn1.GeneralizedTime


@asn1.sequence
class Pair:
    """The last member of a `TestStruct`."""

    size: int
    null: asn1.Null


@asn1.sequence
class TestStruct:
    """What der_tool calls `test`."""

    number: int
    octets: bytes
    pair: Pair


@asn1.sequence
class PublicKey:
    """What der_tool calls `spki`. The members of the algorithm are tested by `parts_of_algorithm`."""

    algorithm: list[asn1.TLV]
    key: asn1.BitString


@asn1.sequence
class Attribute:
    """An attribute of a name."""

    kind: ObjectIdentifier
    value: asn1.TLV


@asn1.sequence
class Validity:
    """The times between which a certificate is valid."""

    not_before: Time
    not_after: Time


@asn1.sequence
class Extension:
    """An extension of a certificate."""

    kind: ObjectIdentifier
    critical: Annotated[bool, asn1.Default(False)]
    value: bytes


@asn1.sequence
class Signed:
    """The signed part of a certificate (RFC 5280, 4.1)."""

    version: Annotated[int, asn1.Explicit(0), asn1.Default(0)]
    serial_number: int
    signature: list[asn1.TLV]
    issuer: list[asn1.SetOf[Attribute]]
    validity: Validity
    subject: list[asn1.SetOf[Attribute]]
    key: PublicKey
    issuer_unique_id: Annotated[asn1.BitString | None, asn1.Implicit(1)]
    subject_unique_id: Annotated[asn1.BitString | None, asn1.Implicit(2)]
    extensions: Annotated[list[Extension] | None, asn1.Explicit(3)]


@asn1.sequence
class Certificate:
    """A certificate."""

    signed: Signed
    algorithm: list[asn1.TLV]
    signature: asn1.BitString


def element(identifier: bytes, content: bytes) -> bytes:
    """The element of this tag and content, with the shortest length."""
    size = len(content)
    if size < 0x80:
        return identifier + bytes([size]) + content
    digits = size.to_bytes((size.bit_length() + 7) // 8, "big")
    return identifier + bytes([0x80 + len(digits)]) + digits + content


def written(tlv: asn1.TLV) -> bytes:
    """The encoding of an element of any type."""
    return element(tlv.tag_bytes, bytes(tlv.data))


def written_number(value: int) -> bytes:
    """The encoding of a number that isn't negative (X.690, 8.3)."""
    return element(b"\x02", value.to_bytes(value.bit_length() // 8 + 1, "big"))


def end_of_first(data: bytes) -> int:
    """Where the first element ends as its header says, or the end of the data if there is no such place."""
    place = 1
    if data and data[0] & 0x1F == 0x1F:
        while place < len(data) and data[place] & 0x80:
            place += 1
        place += 1
    if place >= len(data):
        return len(data)
    form = data[place]
    place += 1
    if form > 0x80:
        end = place + form - 0x80
        return min(len(data), end + int.from_bytes(data[place:end], "big"))
    return min(len(data), place + form)


def parts_of_algorithm(members: list[asn1.TLV]) -> ObjectIdentifier:
    """The object identifier of an algorithm identifier with these members. A second one may be any element."""
    if not 1 <= len(members) <= 2:
        raise ValueError("an algorithm identifier has one member or two")
    return members[0].parse(ObjectIdentifier)


def number(bits: int) -> Callable[[bytes], bytes]:
    """The reader of a number that isn't negative and has at most this many bits."""

    def read(data: bytes) -> bytes:
        value = asn1.decode_der(int, data)
        check_range(value, bits)
        return written_number(value)

    return read


def check_range(value: int, bits: int) -> None:
    """Raises an error if the number is negative or has more bits."""
    if not 0 <= value < 2**bits:
        raise ValueError("the number is none of this type")


def plain(kind: type) -> Callable[[bytes], bytes]:
    """The reader of a type of pyca's own."""
    return lambda data: asn1.encode_der(asn1.decode_der(kind, data))


def read_character(data: bytes) -> bytes:
    """Reads a text of one character."""
    value = asn1.decode_der(str, data)
    if len(value) != 1:
        raise ValueError("the text has no or several characters")
    return asn1.encode_der(value)


def read_test(data: bytes) -> bytes:
    """Reads a `TestStruct`."""
    value = asn1.decode_der(TestStruct, data)
    check_range(value.number, 8)
    check_range(value.pair.size, 64)
    pair = written_number(value.pair.size) + asn1.encode_der(value.pair.null)
    return element(b"\x30", written_number(value.number) + asn1.encode_der(value.octets) + element(b"\x30", pair))


def read_public_key(data: bytes) -> bytes:
    """Reads a public key."""
    value = asn1.decode_der(PublicKey, data)
    parts_of_algorithm(value.algorithm)
    algorithm = element(b"\x30", b"".join(map(written, value.algorithm)))
    return element(b"\x30", algorithm + asn1.encode_der(value.key))


READERS: dict[str, Callable[[bytes], bytes]] = {
    "bool": plain(bool),
    "u8": number(8),
    "u16": number(16),
    "u32": number(32),
    "u64": number(64),
    "u128": number(128),
    "null": plain(asn1.Null),
    "char": read_character,
    "text": plain(str),
    "octets": plain(bytes),
    "raw": lambda data: written(asn1.decode_der(asn1.TLV, data)),
    "test": read_test,
    "spki": read_public_key,
}


def time_text(time: Time) -> str:
    """A time as a date, as 2026-11-27T23:12:00Z, and one with a fraction by its content (X.690, 11.7)."""
    moment = time.as_datetime()
    if moment.microsecond:
        return f"{moment.year:04}{moment:%m%d%H%M%S}" + f".{moment.microsecond:06}".rstrip("0") + "Z"
    return f"{moment.year:04}-{moment:%m-%dT%H:%M:%S}Z"


def certificate_text(certificate: Certificate) -> str:
    """The subject with each attribute as `STEP:OID:ELEMENT`, the times, the key's object identifier, and how many extensions there are."""
    signed = certificate.signed
    attributes = [
        f"{step}:{attribute.kind.dotted_string}:{written(attribute.value).hex()}"
        for step, several in enumerate(signed.subject)
        for attribute in several.as_list()
    ]
    times = f"{time_text(signed.validity.not_before)} {time_text(signed.validity.not_after)}"
    algorithm = parts_of_algorithm(signed.key.algorithm).dotted_string
    return f"{','.join(attributes) or '-'} {times} {algorithm} {len(signed.extensions or [])}"


def read_certificate(data: bytes) -> str:
    """Reads a certificate, which must be all of the data."""
    certificate = asn1.decode_der(Certificate, data)
    parts_of_algorithm(certificate.algorithm)
    parts_of_algorithm(certificate.signed.signature)
    return certificate_text(certificate)


def answer_to(line: str) -> str:
    """The result of a line."""
    _, word, digits = line.rstrip("\n").split(" ")
    data = bytes.fromhex(digits)
    try:
        if word == "certificate":
            return f"ok {len(data)} {read_certificate(data)}"
        end = end_of_first(data)
        return f"ok {end} {READERS[word](data[:end]).hex()}"
    except ValueError:
        return "refused"


def main() -> None:
    """Prints the result of each line of standard input."""
    for line in sys.stdin:
        print(answer_to(line))


if __name__ == "__main__":
    main()
