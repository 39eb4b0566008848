"""The type AS-REQ of Kerberos for pyasn1, as RFC 4120, 5.2 and 5.4.1, have it. The script that imports this needs pyasn1."""
from pyasn1.type import char, constraint, namedtype, namedval, tag, univ, useful


def explicit(kind: univ.base.Asn1Item, number: int) -> univ.base.Asn1Item:
    """A type under `[number] EXPLICIT`."""
    return kind.subtype(explicitTag=tag.Tag(tag.tagClassContext, tag.tagFormatConstructed, number))


def sequence(*members: tuple[str, int, univ.base.Asn1Item, bool]) -> univ.Sequence:
    """A SEQUENCE of members under tags: the name, the number of the tag, the type, and whether it may be absent."""
    found = [(namedtype.OptionalNamedType if may_be_absent else namedtype.NamedType)(name, explicit(kind, number)) for name, number, kind, may_be_absent in members]
    return univ.Sequence(componentType=namedtype.NamedTypes(*found))


def list_of(kind: univ.base.Asn1Item) -> univ.SequenceOf:
    """A SEQUENCE OF."""
    return univ.SequenceOf(componentType=kind)


def number(*allowed: int) -> univ.Integer:
    """An INTEGER that is one of these."""
    return univ.Integer().subtype(subtypeSpec=constraint.SingleValueConstraint(*allowed))


INT32 = univ.Integer().subtype(subtypeSpec=constraint.ValueRangeConstraint(-(2**31), 2**31 - 1))
UINT32 = univ.Integer().subtype(subtypeSpec=constraint.ValueRangeConstraint(0, 2**32 - 1))
TEXT, TIME = char.GeneralString(), useful.GeneralizedTime()
OPTIONS = univ.BitString(namedValues=namedval.NamedValues(("forwardable", 1), ("renewable", 8), ("canonicalize", 15)))
NAME = sequence(("name-type", 0, INT32, False), ("name-string", 1, list_of(TEXT), False))
ADDRESS = sequence(("addr-type", 0, INT32, False), ("address", 1, univ.OctetString(), False))
PADATA = sequence(("padata-type", 1, INT32, False), ("padata-value", 2, univ.OctetString(), False))
ENCRYPTED = sequence(("etype", 0, INT32, False), ("kvno", 1, UINT32, True), ("cipher", 2, univ.OctetString(), False))
BODY = sequence(
    ("kdc-options", 0, OPTIONS, False),
    ("cname", 1, NAME, True),
    ("realm", 2, TEXT, False),
    ("sname", 3, NAME, True),
    ("from", 4, TIME, True),
    ("till", 5, TIME, False),
    ("rtime", 6, TIME, True),
    ("nonce", 7, UINT32, False),
    ("etype", 8, list_of(INT32), False),
    ("addresses", 9, list_of(ADDRESS), True),
    ("enc-authorization-data", 10, ENCRYPTED, True),
    ("additional-tickets", 11, list_of(univ.Any()), True),
)
MEMBERS = sequence(("pvno", 1, number(5), False), ("msg-type", 2, number(10), False), ("padata", 3, list_of(PADATA), True), ("req-body", 4, BODY, False))
AS_REQ = MEMBERS.subtype(explicitTag=tag.Tag(tag.tagClassApplication, tag.tagFormatConstructed, 10))
