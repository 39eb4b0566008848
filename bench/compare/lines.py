"""The lines for the programs, and what they print."""
import base64
import binascii
import re
import textwrap
from dataclasses import dataclass
from pathlib import Path

from elements import is_text
from structures import TYPES
from walk import Walk

BLOCK = re.compile(r"^-----BEGIN CERTIFICATE-----\n([A-Za-z0-9+/=\n]*)-----END CERTIFICATE-----$", re.MULTILINE)

NAMED = Path(__file__).resolve().parents[2] / "crates/der_types/src/names.rt"

# the names of common object identifiers, as the comments of this file say them
COMMON = {dotted: name for name, dotted in re.findall(r"^/// `(\S+)`, ([0-9.]+)\.$", NAMED.read_text(encoding="utf-8"), re.MULTILINE)}

# the names of attributes that `der certificate` prints, as the comments of this file say them
ATTRIBUTES = Path(__file__).resolve().parents[2] / "crates/der_read/src/attribute_name.rt"
NAMES = {dotted: name for name, dotted in re.findall(r"^    /// `(\S+)`, ([0-9.]+)\.$", ATTRIBUTES.read_text(encoding="utf-8"), re.MULTILINE)}

# the encodings of the string types that are printed as text
ENCODINGS = {0x0C: "utf-8", 0x12: "ascii", 0x13: "ascii", 0x14: "ascii", 0x16: "ascii", 0x1A: "ascii", 0x1C: "utf-32-be", 0x1E: "utf-16-be"}

# what is printed as the bytes of its UTF-8: characters that end a line, or that move or hide others
DISRUPTIVE = re.compile("[\x00-\x1f\x7f-\x9f\u061c\u200b-\u200f\u2028-\u202e\u2060-\u2069\ufeff]")


@dataclass(frozen=True)
class Line:
    """The word of a type of der_tool, or `certificate`, and bytes."""

    word: str
    data: bytes

    def text(self) -> str:
        """The line as the programs read it."""
        return f"read {self.word} {self.data.hex()}"

    def block(self) -> str:
        """The bytes in PEM."""
        inner = textwrap.wrap(base64.b64encode(self.data).decode(), 64)
        return "\n".join(["-----BEGIN CERTIFICATE-----", *inner, "-----END CERTIFICATE-----", ""])


@dataclass(frozen=True)
class Answer:
    """Whether a program read a value, and what it says of it."""

    is_read: bool
    value: str = ""

    def __str__(self) -> str:
        return f"read {self.value}" if self.is_read else "refused"


REFUSED = Answer(False)


def read_lines(path: Path) -> list[Line]:
    """The lines of a file that ask for a value of bytes."""
    lines = []
    for text in path.read_text(encoding="utf-8").splitlines():
        asked = re.fullmatch(r"read (\S+) ((?:[0-9A-Fa-f]{2})*)", text)
        if asked and asked[1] in TYPES:
            lines.append(Line(asked[1], bytes.fromhex(asked[2])))
    return lines


def read_certificates(path: Path) -> list[Line]:
    """The certificates in PEM of a file, except blocks that aren't base64."""
    lines = []
    for block in BLOCK.findall(path.read_text(encoding="utf-8")):
        try:
            lines.append(Line("certificate", base64.b64decode(block.replace("\n", ""), validate=True)))
        except binascii.Error:
            pass
    return lines


def own_answer(line: Line, text: str) -> Answer:
    """What `der certificate` or der_tool means by this text. The former begins with the file and the number of the block."""
    if line.word == "certificate":
        text = re.sub(r"^-, block \d+: ", "", text)
    first, _, value = text.partition(" ")
    if first == "ok":
        return Answer(True, f"{len(line.data)} {value}" if line.word == "certificate" else value)
    if first != "refused" and not text.startswith("no certificate: "):
        raise ValueError(f"an answer of no known form: {text}")
    return REFUSED


def answer_of_peer(line: Line, text: str) -> Answer:
    """What another program means by this text."""
    first, _, value = text.partition(" ")
    if first == "refused":
        return REFUSED
    if first != "ok":
        raise ValueError(f"an answer of no known form: {text}")
    if line.word != "certificate":
        return Answer(True, value)
    size, *parts = value.split(" ")
    return Answer(True, f"{size} {certificate_line(*parts)}")


def certificate_line(name: str, begin: str, end: str, algorithm: str, count: str) -> str:
    """What `der certificate` prints of a certificate with these members (docs/X509.md)."""
    return f"{name_text(name)}; {begin} to {end}; {identified(algorithm)}; {count} extensions; same bytes"


def name_text(name: str) -> str:
    """The text of a name whose attributes are `STEP:OID:ELEMENT`."""
    steps: dict[int, list[str]] = {}
    for attribute in name.split(",") if name != "-" else []:
        step, kind, element = attribute.split(":")
        text = f"{NAMES.get(kind) or dotted(kind)}={value_text(bytes.fromhex(element))}"
        steps.setdefault(int(step), []).append(text)
    return ", ".join(" + ".join(steps.get(it, [])) for it in range(max(steps, default=-1) + 1))


def identified(kind: str) -> str:
    """An object identifier, with its name if it is a common one."""
    return f"{COMMON[kind]} ({dotted(kind)})" if kind in COMMON else dotted(kind)


def dotted(kind: str) -> str:
    """An object identifier, by its bytes if an arc is 2^64 or more."""
    first, second, *others = map(int, kind.split("."))
    if max(second, *others, 0) >= 2**64:
        return "#" + b"".join(map(base_128, [40 * first + second, *others])).hex().upper()
    return kind


def base_128(number: int) -> bytes:
    """A number of an object identifier (X.690, 8.19.2)."""
    digits = [number % 128]
    while number := number // 128:
        digits.append(number % 128 + 128)
    return bytes(reversed(digits))


def value_text(element: bytes) -> str:
    """The text of a string that names have, or the bytes of another element."""
    walk = Walk(element)
    content = walk.content(walk.header(0, len(element)))
    encoding = ENCODINGS.get(element[0])
    # a BMPString has no characters past FFFF
    if encoding and is_text(content, encoding) and not (element[0] == 0x1E and max(content.decode(encoding), default="") > "\uffff"):
        return "".join(map(escaped, content.decode(encoding)))
    return f"#{element.hex().upper()}"


def escaped(character: str) -> str:
    """A character of a text."""
    if DISRUPTIVE.match(character):
        return "".join(f"\\{byte:02X}" for byte in character.encode())
    return f"\\{character}" if character in '"#+,;<=>\\' else character
