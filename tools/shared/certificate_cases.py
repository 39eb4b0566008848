"""Certificates and changed ones, which the tests of bindings/ read, each with what `der read` says of it."""
import base64
import json
import random
import re
import struct
import subprocess
import tempfile
from dataclasses import dataclass
from pathlib import Path

from .crates import ROOT

TRUSTED = Path("/etc/ssl/certs/ca-certificates.crt")
MOST = 150
CHANGED = 2000

# what is known of an input: it is a certificate; `der read` says that it is one, or that it isn't; nothing
CERTIFICATE, READ, REFUSED, UNKNOWN = range(4)


@dataclass
class Case:
    """An input, and where `der read` refuses it."""

    verdict: int
    offset: int
    der: bytes


def certificates() -> list[bytes]:
    """The first certificates that this machine trusts, or those of data/."""
    files = [TRUSTED] if TRUSTED.exists() else sorted((ROOT / "data").rglob("*.pem"))
    found = []
    for file in files:
        text = file.read_text(encoding="ascii", errors="replace")
        found += re.findall(r"-----BEGIN CERTIFICATE-----(.*?)-----END", text, re.S)
    return [base64.b64decode(it) for it in found[:MOST]]


def changed(ders: list[bytes]) -> list[bytes]:
    """Certificates with a bit flipped, a byte replaced, left out or put in, or without their last bytes. They are the same in each run."""
    choice = random.Random(63)
    made = []
    for number in range(CHANGED):
        der = bytearray(ders[number % len(ders)])
        at = choice.randrange(len(der))
        kind = choice.randrange(8)
        if kind < 4:
            der[at] ^= 1 << choice.randrange(8)
        elif kind < 6:
            der[at] = choice.randrange(256)
        elif kind == 6:
            del der[at : at + choice.randrange(1, 3)]
        else:
            der[at:at] = choice.randbytes(choice.randrange(1, 3))
        made.append(bytes(der if choice.randrange(16) else der[: at + 1]))
    return made


def read_by(program: Path, ders: list[bytes]) -> list[Case]:
    """What the program says of each input."""
    with tempfile.TemporaryDirectory() as folder:
        names = [f"{number:05}.der" for number in range(len(ders))]
        for name, der in zip(names, ders):
            Path(folder, name).write_bytes(der)
        words = [program, "read", "certificate", "--der", "--json", *names]
        said = subprocess.run(words, cwd=folder, stdout=subprocess.PIPE, check=False).stdout
    lines = {it["file"]: it for it in map(json.loads, said.decode().splitlines())}
    cases = []
    for name, der in zip(names, ders):
        refused = "refused" in lines[name]
        cases.append(Case(REFUSED if refused else READ, lines[name]["offset"] or 0 if refused else 0, der))
    return cases


def cases(program: Path | None) -> list[Case]:
    """The inputs. Without the program nothing is known of the changed ones."""
    ders = certificates()
    made = changed(ders)
    found = read_by(program, made) if program else [Case(UNKNOWN, 0, der) for der in made]
    return [*(Case(CERTIFICATE, 0, der) for der in ders), *found]


def in_file(found: list[Case]) -> bytes:
    """The inputs as the tests read them: how many there are, and for each the verdict, the offset, the length and the bytes."""
    parts = [struct.pack(">I", len(found))]
    for it in found:
        parts += [struct.pack(">3I", it.verdict, it.offset, len(it.der)), it.der]
    return b"".join(parts)
