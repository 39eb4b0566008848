"""Signed mails, whose message is a part in base64."""
import base64
import re
from pathlib import Path

# what is in base64 in a part of a mail
PART = re.compile(r"\n\r?\n((?:[A-Za-z0-9+/]{64}\r?\n)+[A-Za-z0-9+/=]*)")


def texts_of(folder: Path) -> dict[str, str]:
    """The mails of a folder, by the names of their files."""
    return {path.name: path.read_bytes().decode("latin-1") for path in sorted(folder.rglob("*.eml"))}


def block_of(text: str) -> str | None:
    """The base64 of the message of a mail."""
    found = PART.search(text)
    return found[1] if found else None


def messages_of(folder: Path) -> dict[str, bytes]:
    """The messages of the mails of a folder."""
    return {name: base64.b64decode(block) for name, text in texts_of(folder).items() if (block := block_of(text))}
