"""Messages of types that `der_ber_types_rows` knows, in BER and in DER: forms of them by the paths of tags of their types."""
import random
from collections.abc import Iterator

from . import messages
from .ber import OCTET_STRING, by_chance, content_of, grouped, in_parts, parts_of, shortened, whole
from .der import element, encoded

FOLDERS = ("bouncycastle", "cms", "kerberos", "keys", "pkix", "rfc")
# the name of each type in a row, and `message` for one whose content has a type by its identifier
TYPES = {
    "der_cms::ContentInfo": "message",
    "der_kerberos::ApRep": "AP-REP",
    "der_kerberos::ApReq": "AP-REQ",
    "der_kerberos::AsRep": "AS-REP",
    "der_kerberos::AsReq": "AS-REQ",
    "der_kerberos::Authenticator": "Authenticator",
    "der_kerberos::EncApRepPart": "EncAPRepPart",
    "der_kerberos::EncAsRepPart": "EncASRepPart",
    "der_kerberos::EncTgsRepPart": "EncTGSRepPart",
    "der_kerberos::EncTicketPart": "EncTicketPart",
    "der_kerberos::KrbCred": "KRB-CRED",
    "der_kerberos::KrbError": "KRB-ERROR",
    "der_kerberos::KrbPriv": "KRB-PRIV",
    "der_kerberos::KrbSafe": "KRB-SAFE",
    "der_kerberos::TgsRep": "TGS-REP",
    "der_kerberos::TgsReq": "TGS-REQ",
    "der_kerberos::Ticket": "Ticket",
    "der_pkcs12::PFX": "PFX",
    "der_pkix::AttributeCertificate": "AttributeCertificate",
    "der_pkix::CertificationRequest": "CertificationRequest",
    "der_pkix::EcPrivateKey": "ECPrivateKey",
    "der_pkix::EncryptedPrivateKeyInfo": "EncryptedPrivateKeyInfo",
    "der_pkix::IssuerAltName": "GeneralNames",
    "der_pkix::PrivateKeyInfo": "PrivateKeyInfo",
    "der_pkix::RsaPrivateKey": "RSAPrivateKey",
    "der_pkix::RsaPublicKey": "RSAPublicKey",
    "der_pkix::SubjectAltName": "GeneralNames",
    "der_status::BasicOcspResponse": "BasicOCSPResponse",
    "der_status::OcspRequest": "OCSPRequest",
    "der_status::OcspResponse": "OCSPResponse",
    "der_status::TimeStampReq": "TimeStampReq",
    "der_status::TimeStampResp": "TimeStampResp",
    "der_status::TstInfo": "TSTInfo",
    "der_x509::Certificate": "Certificate",
    "der_x509::CertificateList": "CertificateList",
    "der_x509::SubjectPublicKeyInfo": "SubjectPublicKeyInfo",
}
# what isn't of its type: without a set, and with a curve in full
OTHER_TYPES = ("bouncycastle/request-no-attributes.der", "keys/ec-explicit.der")
BOOLEAN, CONSTRUCTED, TRUE = 0x01, 0x20, 0xFF
# id-signedData, id-digestedData and id-encryptedData
CONTENTS = tuple(bytes.fromhex("06092A864886F70D0107") + bytes([it]) for it in (2, 5, 6))
# the tags from the outermost element on
Path = tuple[int, ...]


def below(text: str, paths: set[Path]) -> set[Path]:
    """Paths from the element with this path on."""
    return {(*bytes.fromhex(text), *it) for it in paths}


def paths(*texts: str) -> set[Path]:
    """Paths by their bytes."""
    return {tuple(bytes.fromhex(it)) for it in texts}


# Where these types have sets, BOOLEANs, strings under implicit tags, and sequences with a member `critical BOOLEAN DEFAULT FALSE` after the
# first, or with a first one `version [0] EXPLICIT INTEGER DEFAULT 0`. Identifiers of keys and the content of EncryptedData are such strings.
NAMES, CRITICAL, LISTED = paths("30303031"), paths("3030A3303001"), paths("3030A0303001", "30303030303001")
EXTENSIONS, OF_LISTS = paths("3030A33030"), paths("3030A03030", "303030303030")
ATTRIBUTES = paths("30A03031", "30A030A0", "30A030A1", "30A0303130A0", "30A0303130A1", "30A0303130A03031", "30A0303130A13031", "30A030A13031",
                   "30A0303130303031")
NOTHING: set[Path] = set()
SETS: dict[str, set[Path]] = {
    "BasicOCSPResponse": paths("3030A13031") | below("30A030", NAMES),
    "Certificate": NAMES,
    "CertificateList": NAMES,
    "CertificationRequest": NAMES | paths("3030A0", "3030A03031"),
    "GeneralNames": paths("30A4303031"),
    "PrivateKeyInfo": paths("30A0", "30A03031"),
    "message": ATTRIBUTES | below("30A030A0", NAMES) | below("30A030A1", NAMES),
}
TRUTHS: dict[str, set[Path]] = {
    "Certificate": CRITICAL,
    "CertificateList": LISTED,
    "message": below("30A030A0", CRITICAL) | below("30A030A1", LISTED),
}
DEFAULTS: dict[str, set[Path]] = {
    "BasicOCSPResponse": below("30A030", EXTENSIONS),
    "Certificate": EXTENSIONS,
    "CertificateList": OF_LISTS,
    "message": below("30A030A0", EXTENSIONS) | below("30A030A1", OF_LISTS),
}
PARTS: dict[str, set[Path]] = {
    "GeneralNames": paths("3081", "3082", "3086", "3087"),
    "message": paths("30A0303080", "30A030313080"),
}
# such a string in parts, as hxtool writes it
KEY_IDENTIFIERS: dict[str, set[Path]] = {"message": paths("30A0303130A0")}
# such a version, where the sequence is, and the tags of the member after it
FIRST_VERSION, VERSIONED = bytes.fromhex("A003020100"), (0x30, 0x30)
AFTER_VERSION = {"BasicOCSPResponse": b"\xA1\xA2", "Certificate": b"\x02", "OCSPRequest": b"\xA1\x30"}


# ---- forms of a message


def elements(data: bytes) -> list[bytes]:
    """The elements one after another."""
    found, at = [], 0
    while at < len(data):
        end = element(data, at)[2]
        found.append(data[at:end])
        at = end
    return found


def with_default(content: bytes) -> bytes:
    """Members, the second of which is FALSE if it is absent."""
    first, second, *others = elements(content)
    return b"".join((first, second, *others) if second[0] == BOOLEAN else (first, encoded(BOOLEAN, b"\0"), second, *others))


def changed(name: str, data: bytes, path: Path, chance: random.Random | None) -> bytes:
    """Elements of DER with their sets in order and TRUE as FF, or by chance with both otherwise and with defaults."""
    written, at = b"", 0
    while at < len(data):
        tag, content, at = element(data, at)
        here = (*path, tag)
        if here in KEY_IDENTIFIERS.get(name, NOTHING) and content[:1] == bytes([OCTET_STRING]):
            tag, content = tag - CONSTRUCTED, content_of(OCTET_STRING, content)
        elif tag & CONSTRUCTED:
            content = changed(name, content, here, chance)
            if here in SETS.get(name, NOTHING):
                members = sorted(elements(content))
                if chance:
                    chance.shuffle(members)
                content = b"".join(members)
            elif chance and here in DEFAULTS.get(name, NOTHING) and chance.randint(1, 2) == 1:
                content = with_default(content)
            elif chance and here == VERSIONED and content[0] in AFTER_VERSION.get(name, b"") and chance.randint(1, 2) == 1:
                content = FIRST_VERSION + content
        elif here in TRUTHS.get(name, NOTHING) and content != b"\0":
            content = bytes([chance.randint(1, TRUE) if chance else TRUE])
        written += encoded(tag, content)
    return written


def in_other_form(name: str, data: bytes, chance: random.Random) -> bytes:
    """A message with sets and TRUE by chance, and the lengths and strings of it."""
    form = chance.choice((by_chance, in_parts))(chance)

    def formed(part: bytes, path: Path) -> bytes:
        written, at = b"", 0
        while at < len(part):
            tag, content, at = element(part, at)
            here = (*path, tag)
            if here in PARTS.get(name, NOTHING) and chance.randint(1, 2) == 1:
                written += form(tag | CONSTRUCTED, grouped(parts_of(OCTET_STRING, content, chance), form, chance))
            else:
                written += form(tag, formed(content, here) if tag & CONSTRUCTED else content)
        return written
    return formed(changed(name, data, (), chance), ())


def forms_of(place: str, name: str, data: bytes, count: int) -> Iterator[bytes]:
    """A message in so many forms."""
    for number in range(count):
        yield in_other_form(name, data, random.Random(f"{place} {number}"))


# ---- messages


def typed(name: str, data: bytes) -> str:
    """The name of the type of a message, or `any` if its content has another one than the program knows."""
    known = name != "message" or element(whole(shortened(data, 0, len(data))[0]), 0)[1].startswith(CONTENTS)
    return name if known else "any"


def all_messages() -> Iterator[tuple[str, str, bytes]]:
    """The place, the type and the bytes of each message of `data` whose type the program knows."""
    for kind, place in messages.listed(FOLDERS):
        if ":" not in place and kind in TYPES and place not in OTHER_TYPES:
            data = messages.file_of(place).read_bytes()
            yield place, typed(TYPES[kind], data), data


def in_der(name: str, data: bytes) -> bytes:
    """A message of a type in DER, by this script."""
    return changed(name, whole(shortened(data, 0, len(data))[0]), (), None)
