"""The messages of data/, as its files messages.txt list them."""
from collections.abc import Iterable, Iterator
from pathlib import Path

from .crates import ROOT
from .der import element, inside, number, place_of

DATA = ROOT / "data"
# the folders with messages of DER
FOLDERS = ("cms", "pkix", "kerberos", "bouncycastle", "keys", "rfc")

# the steps to the nonce of a request, and of what is encrypted in a response (RFC 4120, 5.4.1, 5.4.2)
NONCES: dict[str, tuple[int, ...]] = {
    **dict.fromkeys(("der_kerberos::AsReq", "der_kerberos::TgsReq"), (0x30, 0xA4, 0x30, 0xA7, 0x02)),
    **dict.fromkeys(("der_kerberos::EncAsRepPart", "der_kerberos::EncTgsRepPart"), (0x30, 0xA2, 0x02)),
}


def listed(parts: Iterable[str]) -> Iterator[tuple[str, str]]:
    """The type and the name of each message in these folders of data/."""
    for part in parts:
        for line in (DATA / part / "messages.txt").read_text(encoding="utf-8").splitlines():
            kind, name, _ = line.split(" ", 2)
            yield kind, name


def file_of(name: str) -> Path:
    """The file of a message, or the one that it is a part of."""
    return DATA / name.partition(":")[0]


def steps_of(text: str) -> list[int]:
    """The steps that a text has, with dots between them."""
    return [int(it, 16) for it in text.split(".")] if text else []


def bytes_of(name: str) -> bytes:
    """The bytes of a message: of a file, or of what steps in it lead to. With a dot at their end it is the element, and else its content."""
    steps, data = name.partition(":")[2], file_of(name).read_bytes()
    if steps.endswith("."):
        begin = place_of(data, *steps_of(steps[:-1]))
        return data[begin : element(data, begin)[2]]
    return inside(data, *steps_of(steps)) if steps else data


def has_negative_nonce(kind: str, data: bytes) -> bool:
    """Whether a message of this type has a nonce below 0, as some of Heimdal's have."""
    return kind in NONCES and number(data, *NONCES[kind]) < 0
