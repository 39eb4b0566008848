"""The lexical items of a Rust file, and the notes in it: comments that begin with `// asn1:`."""
import re
from dataclasses import dataclass

from ..parse.source import NotationError, Place

PAGE = "docs/YOUR_TYPES.md"
_MARK = "asn1:"
_ITEM = re.compile(
    r"""(?P<comment>//[^\n]*|/\*.*?\*/)|(?P<text>b?r?"(?:\\.|[^"\\])*"|b?'(?:\\[^\n]+?|[^'\\\n])')|(?P<lifetime>'\w+)|(?P<word>\w+)|(?P<mark>::|->|=>|\S)""",
    re.S,
)
_CLOSING = {"{": "}", "(": ")", "[": "]"}


@dataclass(frozen=True)
class Token:
    """A lexical item: its text, where it begins and ends in the file's text, its line, and whether it is at the beginning of the line."""

    text: str
    begin: int
    end: int
    line: int
    is_first: bool


@dataclass(frozen=True)
class Note:
    """The words of a note, which are divided by commas, and its line. `is_alone` says that nothing is before it on the line."""

    words: tuple[str, ...]
    begin: int
    line: int
    is_alone: bool


class Source:
    """The items and the notes of a file."""

    def __init__(self, path: str, text: str) -> None:
        self.path, self.text = path, text
        self.tokens, self.notes = [], []
        for it in _ITEM.finditer(text):
            line = text.count("\n", 0, it.start()) + 1
            before = text[text.rfind("\n", 0, it.start()) + 1 : it.start()]
            if it["comment"] is None:
                self.tokens.append(Token(it[0], it.start(), it.end(), line, not before))
            elif it[0].startswith("//") and it[0][2:].strip().startswith(_MARK):
                words = it[0].partition(_MARK)[2].split(",")
                self.notes.append(Note(tuple(word.strip() for word in words), it.start(), line, not before.strip()))

    def place(self, line: int) -> Place:
        """The first column of a line."""
        return Place(self.path, line, 1)

    def error(self, line: int, text: str) -> NotationError:
        """What is wrong at a line."""
        return NotationError(self.place(line), text, PAGE)

    def words_at(self, first: int, last: int) -> list[str]:
        """The words of the notes of what these tokens are: those after what comes before, and one on the line where they end."""
        after = self.tokens[first - 1].end if first else 0
        left_out = self.tokens[first - 1].line if first else 0
        end = self.tokens[last - 1]
        found = []
        for it in self.notes:
            is_before = after < it.begin < end.end and (it.is_alone or it.line != left_out)
            if is_before or (not it.is_alone and it.line == end.line and it.begin > end.end):
                found += it.words
        return found


class Reader:
    """A place among the tokens of a file."""

    def __init__(self, source: Source) -> None:
        self.source, self.at = source, 0

    def now(self, ahead: int = 0) -> str:
        """The token here, or some places further on; an empty text after the last one."""
        at = self.at + ahead
        return self.source.tokens[at].text if at < len(self.source.tokens) else ""

    @property
    def line(self) -> int:
        """The line here, or the last one."""
        tokens = self.source.tokens
        return tokens[min(self.at, len(tokens) - 1)].line if tokens else 1

    def take(self, *texts: str) -> str:
        """The token here, which has to be one of these, if there are any. Goes on after it."""
        found = self.now()
        if not found or texts and found not in texts:
            wanted = f"`{'` or `'.join(texts)}`" if texts else "more"
            raise self.source.error(self.line, f"expected {wanted}, found `{found}`")
        self.at += 1
        return found

    def has(self, *texts: str) -> bool:
        """Whether the token here is one of these. Goes on after it, if it is."""
        is_one = self.now() in texts
        self.at += is_one
        return is_one

    def balanced(self) -> str:
        """The text inside of the brackets here, without what is around it. Goes on after them."""
        begin, closing = self.source.tokens[self.at].end, [_CLOSING[self.take(*_CLOSING)]]
        while closing:
            it = self.take()
            if it in _CLOSING:
                closing.append(_CLOSING[it])
            elif it == closing[-1]:
                closing.pop()
        return self.source.text[begin : self.source.tokens[self.at - 1].begin].strip()

    def skip_item(self) -> None:
        """Goes on after an item of any kind: after its semicolon, or its last brace, which no token of the item follows at a line's begin."""
        while self.now():
            if self.has(";"):
                return
            if self.now() not in _CLOSING:
                self.at += 1
                continue
            is_brace = self.now() == "{"
            self.balanced()
            tokens = self.source.tokens
            if is_brace and (self.at == len(tokens) or tokens[self.at].is_first and tokens[self.at].text != "{"):
                return
