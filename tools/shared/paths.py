"""Paths of bytes by the elements that `openssl asn1parse` shows."""
import random
import re
import subprocess
import tempfile
from typing import NamedTuple

LONG_FORM = 0x1F
# a line of `openssl asn1parse`
LINE = re.compile(r"^ *(\d+):d=\d+ +hl=(\d+) +l= *(\d+|inf) +(prim|cons)")


class Element(NamedTuple):
    """A line of openssl."""
    header: int
    content: int
    constructed: bool


def listing(data: bytes) -> dict[int, Element]:
    """The elements that `openssl asn1parse` shows, by their places, without those of an indefinite length."""
    with tempfile.NamedTemporaryFile() as file:
        file.write(data)
        file.flush()
        command = ["openssl", "asn1parse", "-inform", "DER", "-in", file.name]
        ran = subprocess.run(command, capture_output=True, text=True, check=False, encoding="utf-8", errors="replace")
    found = (LINE.match(line) for line in ran.stdout.splitlines())
    return {int(it[1]): Element(int(it[2]), int(it[3]), it[4] == "cons") for it in found if it and it[3] != "inf"}


def shortest(content: int) -> int:
    """How many bytes a tag of the short form and the length of a content take in DER (X.690, 10.1)."""
    return 2 if content < 0x80 else 2 + (content.bit_length() + 7) // 8


def path_of(data: bytes, elements: dict[int, Element], place: int) -> list[int]:
    """The path of a byte, by the elements that openssl shows."""
    path: list[int] = []
    at, end, index = 0, len(data), 0
    while at < end:
        it = elements.get(at)
        broken = it is None or data[at] & LONG_FORM == LONG_FORM or it.header != shortest(it.content)
        if it is None or broken or at + it.header + it.content > end:
            return [*path, index]
        start, after = at + it.header, at + it.header + it.content
        if place >= after:
            at, index = after, index + 1
        elif it.constructed and place >= start:
            path, at, end, index = [*path, index], start, after, 0
        else:
            return [*path, index]
    return path


def text_of(path: list[int]) -> str:
    """A path as the program prints it."""
    return ".".join(map(str, path))


def changed(chance: random.Random, data: bytes) -> tuple[int, bytes]:
    """The index of a byte and the message in which it is another one."""
    place = chance.randrange(len(data))
    other = (data[place] + chance.randint(1, 255)) % 256
    return place, data[:place] + bytes([other]) + data[place + 1 :]
