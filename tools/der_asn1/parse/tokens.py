"""The lexical items of ASN.1 (X.680, 12), with the comments next to them."""
import re
from dataclasses import dataclass, field
from enum import Enum

from .source import NotationError, Place, Problems


class Kind(Enum):
    """What a lexical item is. A reserved word is an UPPER one."""

    UPPER = "a name with a capital letter"
    LOWER = "a name with a small letter"
    FIELD = "the name of a field"
    NUMBER = "a number"
    REAL = "a real number"
    BITS = "a string of bits"
    TEXT = "a string of characters"
    SYMBOL = "a symbol"
    END = "the end of the file"


@dataclass
class Token:
    """A lexical item. `above` are the comments on the lines right above it, `beside` is the comment after it on its line."""

    kind: Kind
    text: str
    place: Place
    above: list = field(default_factory=list)
    beside: str = ""
    beside_column: int = 0
    spaced: bool = True

    def is_symbol(self, *texts: str) -> bool:
        """Whether it is one of these symbols or words, and no string."""
        return self.text in texts and self.kind not in (Kind.TEXT, Kind.BITS, Kind.END)

    def shown(self) -> str:
        """The item as a message says it."""
        return (self.text or "the end of the file") if self.kind is Kind.END else f"`{self.text}`"


_ITEM = re.compile(
    r"""(?P<space>[ \t\r\f\v\u00a0]+)
      |(?P<newline>\n)
      |(?P<REAL>\d+\.\d+(?:[eE]-?\d+)?|\d+[eE]-?\d+(?![0-9A-Za-z]))
      |(?P<NUMBER>0x[0-9A-Fa-f]+|\d+)
      |(?P<NAME>[A-Za-z](?:-?[A-Za-z0-9_])*)
      |(?P<FIELD>&[A-Za-z](?:-?[A-Za-z0-9])*)
      |(?P<BITS>'[0-9A-Fa-f\s]*'[HB])
      |(?P<TEXT>"(?:[^"]|"")*")
      |(?P<SYMBOL>::=|\.\.\.|\.\.|\[\[|\]\]|[{}()\[\],;:|^<>@!*.\-/=])""",
    re.X,
)

_BLOCK_EDGE = re.compile(r"/\*|\*/")


class _Scanner:
    """Goes over a text once."""

    def __init__(self, text: str, path: str, problems: Problems) -> None:
        self.text, self.path, self.problems = text, path, problems
        self.index, self.line, self.line_start = 0, 1, 0
        self.tokens = []
        self.pending = []  # comments that no token was found for yet, each with its line
        self.fresh = True  # no token on this line yet
        self.spaced = True

    def place(self) -> Place:
        """Where the next character is."""
        return Place(self.path, self.line, self.index - self.line_start + 1)

    def advance(self, end: int) -> None:
        """Goes to `end`, and counts the lines up to there."""
        lines = self.text.count("\n", self.index, end)
        if lines:
            self.line += lines
            self.line_start = self.text.rindex("\n", self.index, end) + 1
        self.index = end

    def scan(self) -> list[Token]:
        """All items."""
        while self.index < len(self.text):
            if self.text.startswith("--", self.index):
                self.line_comment()
            elif self.text.startswith("/*", self.index):
                self.block_comment()
            else:
                self.item()
        self.tokens.append(Token(Kind.END, "", self.place(), self.above(self.line)))
        return self.tokens

    def line_comment(self) -> None:
        """A comment up to the end of the line or the next pair of hyphens (X.680, 12.6.3)."""
        place, start = self.place(), self.index + 2
        ends = [it for it in (self.text.find("--", start), self.text.find("\n", start)) if it >= 0]
        end = min(ends, default=len(self.text))
        self.comment(place, self.text[start:end].strip(" \t\r-"))
        self.advance(end + 2 if self.text.startswith("--", end) else end)
        self.spaced = True

    def block_comment(self) -> None:
        """A comment between `/*` and `*/`, which may hold others (X.680, 12.6.4)."""
        place, depth, end = self.place(), 0, self.index
        while True:
            edge = _BLOCK_EDGE.search(self.text, end)
            if not edge:
                raise NotationError(place, "`/*` isn't closed by `*/`", "X.680, 12.6.4")
            depth, end = depth + (1 if edge[0] == "/*" else -1), edge.end()
            if depth == 0:
                break
        self.comment(place, " ".join(self.text[self.index + 2 : end - 2].split()))
        self.advance(end)
        self.spaced = True

    def comment(self, place: Place, words: str) -> None:
        """Gives a comment to the item before it, if it is on its line or continues below, or else keeps it for the next item."""
        last = self.tokens[-1] if self.tokens else None
        continues = last and last.beside and self.fresh and not self.pending and place.column >= last.beside_column - 1
        if last and (continues or not self.fresh):
            last.beside_column = last.beside_column or place.column
            last.beside = f"{last.beside} {words}".strip()
        else:
            self.pending.append((place.line, words))

    def above(self, line: int) -> list[str]:
        """The pending comments on the lines right above this one."""
        taken = []
        for number, words in reversed(self.pending):
            if number < line - 1:
                break
            taken.insert(0, words)
            line = number
        self.pending = []
        return taken

    def item(self) -> None:
        """An item, or what is between items."""
        found = _ITEM.match(self.text, self.index)
        if not found:
            raise NotationError(self.place(), f"no lexical item begins with {self.text[self.index]!r}", "X.680, 11.1")
        group, words, place = found.lastgroup, found.group(), self.place()
        self.advance(found.end())
        if group in ("space", "newline"):
            self.fresh = self.fresh or group == "newline"
            self.spaced = True
            return
        kind = (Kind.LOWER if words[0].islower() else Kind.UPPER) if group == "NAME" else Kind[group]
        self.check(kind, words, place)
        self.tokens.append(Token(kind, words, place, self.above(place.line), spaced=self.spaced))
        self.fresh = self.spaced = False

    def check(self, kind: Kind, words: str, place: Place) -> None:
        """Says what of an item isn't as the standard has it."""
        if kind is Kind.NUMBER and len(words) > 1 and words.startswith("0"):
            self.problems.deviation(place, f"a number has digits alone, and none is a needless 0: `{words}`", "X.680, 12.8")
        if "_" in words and kind in (Kind.UPPER, Kind.LOWER):
            self.problems.deviation(place, f"a name has letters, digits and hyphens: `{words}`", "X.680, 12.2.1")


def scan(text: str, path: str, problems: Problems) -> list[Token]:
    """The lexical items of a text, the last of which is the end of the file."""
    return _Scanner(text, path, problems).scan()
