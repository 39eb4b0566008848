"""Elements of DER, as data/elements.py takes them apart and makes them."""
import base64
import sys

from .crates import ROOT

sys.path.append(str(ROOT / "data"))

from elements import changed, element, encoded, has, inside, members, number, place_of  # noqa: E402

__all__ = ["changed", "element", "encoded", "has", "hexed", "inside", "members", "number", "pem", "place_of"]


def pem(content: bytes, label: str, end_label: str | None = None, line_end: str = "\n") -> str:
    """A block of PEM (RFC 7468, 2). Its last line has the same label, unless another one is given."""
    text = base64.b64encode(content).decode()
    lines = [f"-----BEGIN {label}-----", *(text[at : at + 64] for at in range(0, len(text), 64)), f"-----END {end_label or label}-----"]
    return "".join(line + line_end for line in lines)


def hexed(data: bytes) -> str:
    """Bytes as rows have them."""
    return data.hex(" ").upper()
