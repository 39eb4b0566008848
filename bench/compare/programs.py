"""Runs the three programs over lines."""
import subprocess
import sys
import tempfile
from collections.abc import Iterator
from pathlib import Path

import cryptography

from causes import OPENSSL, PYCA, THIS
from lines import Answer, Line, answer_of_peer, own_answer

HERE = Path(__file__).resolve().parent
ROOT = HERE.parent.parent

# `rt try` stops a program that prints more than 1 MiB, so it gets at most this many bytes of lines at a time, or this many certificates
MOST_BYTES, MOST_CERTIFICATES = 400_000, 2_000


def pieces_of(lines: list[Line]) -> Iterator[list[Line]]:
    """The lines in pieces whose answers are short enough. All are certificates or none is."""
    piece: list[Line] = []
    size = 0
    for line in lines:
        cost = MOST_BYTES // MOST_CERTIFICATES if line.word == "certificate" else len(line.text()) + 16
        if piece and size + cost > MOST_BYTES:
            yield piece
            piece, size = [], 0
        piece.append(line)
        size += cost
    if piece:
        yield piece


def try_program(crate: str, inputs: list[str], *arguments: str) -> list[list[str]]:
    """The lines that a program of this repository prints for each input, by `rt try`, which proves nothing."""
    with tempfile.TemporaryDirectory() as folder:
        for number, text in enumerate(inputs):
            Path(folder, f"{number:06}").write_text(text, encoding="utf-8")
        command = ["rt", "try", "--steps", "1", "--seconds", "600", "--cases", folder, *(["--", *arguments] if arguments else [])]
        ran = subprocess.run(command, cwd=ROOT / "crates" / crate, capture_output=True, text=True, check=False)
    answers: list[list[str]] = []
    for text in ran.stdout.split("\n"):
        if text.startswith("== "):
            answers.append([])
        elif answers and text:
            answers[-1].append(text)
    if ran.returncode or len(answers) != len(inputs):
        sys.exit(f"rt try of {crate} failed: {ran.stderr}")
    return answers


def ask_this(lines: list[Line]) -> list[Answer]:
    """What this repository's program prints; the lines are all certificates or all others."""
    is_certificates = lines[0].word == "certificate"
    pieces = list(pieces_of(lines))
    if is_certificates:
        printed = try_program("der", ["".join(it.block() for it in piece) for piece in pieces], "certificate", "-")
    else:
        printed = try_program("der_tool", ["".join(f"{it.text()}\n" for it in piece) for piece in pieces])
    answers = []
    for piece, texts in zip(pieces, printed, strict=True):
        answers += [own_answer(line, text) for line, text in zip(piece, texts, strict=True)]
    return answers


def ask_peer(command: list[str], lines: list[Line]) -> list[Answer]:
    """What another program prints."""
    given = "".join(f"{it.text()}\n" for it in lines)
    ran = subprocess.run(command, input=given, capture_output=True, text=True, check=True)
    return [answer_of_peer(line, text) for line, text in zip(lines, ran.stdout.splitlines(), strict=True)]


def ask_all(lines: list[Line], openssl: str) -> dict[str, list[Answer]]:
    """What each program prints."""
    return {
        THIS: ask_this(lines),
        PYCA: ask_peer([sys.executable, str(HERE / "pyca.py")], lines),
        OPENSSL: ask_peer([openssl], lines),
    }


def build_openssl(folder: str) -> str:
    """Compiles the program over OpenSSL's parser, and gives its path."""
    program = f"{folder}/openssl"
    subprocess.run(["cc", "-O2", str(HERE / "openssl.c"), "-lcrypto", "-o", program], check=True)
    return program


def versions() -> str:
    """The versions of the other programs."""
    openssl = subprocess.run(["openssl", "version"], capture_output=True, text=True, check=True).stdout.strip()
    return f"pyca's cryptography {cryptography.__version__}; {openssl}"
