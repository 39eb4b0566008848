"""A place among the lexical items, and what the parser asks there."""
from dataclasses import replace
from typing import NoReturn, Optional

from .source import NotationError, Place, Problems
from .tokens import Kind, Token

OPENING = {"{": "}", "(": ")", "[": "]", "[[": "]]"}
CLOSING = frozenset(OPENING.values())

# the words that no name may be (X.680, 12.38), as far as a name could stand in their place
RESERVED = frozenset(
    """ABSENT ALL ANY APPLICATION AUTOMATIC BEGIN BIT BMPString BOOLEAN BY CHARACTER CHOICE CLASS COMPONENT COMPONENTS
    CONSTRAINED CONTAINING DEFAULT DEFINED DEFINITIONS EMBEDDED ENCODED END ENUMERATED EXCEPT EXPLICIT EXPORTS EXTENSIBILITY EXTERNAL FALSE
    FROM GeneralizedTime GeneralString GraphicString IA5String IDENTIFIER IMPLICIT IMPLIED IMPORTS INCLUDES INSTANCE INTEGER
    INTERSECTION ISO646String MACRO MAX MIN MINUS-INFINITY NULL NumericString OBJECT ObjectDescriptor OCTET OF OPTIONAL PATTERN PDV
    PLUS-INFINITY PRESENT PrintableString PRIVATE REAL RELATIVE-OID SEQUENCE SET SIZE STRING SYNTAX T61String TAGS TeletexString
    TRUE UNION UNIQUE UNIVERSAL UniversalString UTCTime UTF8String VideotexString VisibleString WITH""".split()
)


class Cursor:
    """Goes over lexical items. The parser's parts are its subclasses."""

    def __init__(self, tokens: list[Token], problems: Optional[Problems]) -> None:
        self.tokens, self.problems, self.index = tokens, problems, 0

    @property
    def now(self) -> Token:
        """The next item."""
        return self.tokens[self.index]

    def ahead(self, count: int = 1) -> Token:
        """The item so many places after the next one."""
        return self.tokens[min(self.index + count, len(self.tokens) - 1)]

    def take(self) -> Token:
        """Consumes the next item and returns it."""
        token = self.now
        if token.kind is not Kind.END:
            self.index += 1
        return token

    def at(self, *texts: str) -> bool:
        """Whether the next item is one of these symbols or words."""
        return self.now.is_symbol(*texts)

    def accept(self, *texts: str) -> Optional[Token]:
        """Consumes the next item if it is one of these."""
        return self.take() if self.at(*texts) else None

    def refuse(self, wanted: str, clause: str) -> NoReturn:
        """Stops at the next item, which isn't what is wanted."""
        raise NotationError(self.now.place, f"expected {wanted}, found {self.now.shown()}", clause)

    def expect(self, text: str, clause: str) -> Token:
        """Consumes this symbol or word."""
        if not self.at(text):
            self.refuse(f"`{text}`", clause)
        return self.take()

    def expect_kind(self, kind: Kind, wanted: str, clause: str) -> Token:
        """Consumes an item of this kind that is no reserved word."""
        if self.now.kind is not kind or self.now.text in RESERVED:
            self.refuse(wanted, clause)
        return self.take()

    def at_name(self) -> bool:
        """Whether a name is next that is no reserved word."""
        return self.now.kind in (Kind.UPPER, Kind.LOWER) and self.now.text not in RESERVED

    def braced(self, clause: str = "X.680, 12.37") -> list[Token]:
        """Consumes a bracket with all up to the one that closes it. Returns what is between them."""
        opened, start = [self.take()], self.index
        while True:
            token = self.take()
            if token.kind is Kind.END:
                raise NotationError(opened[0].place, f"`{opened[0].text}` isn't closed by `{OPENING[opened[0].text]}`", clause)
            if token.is_symbol(*OPENING):
                opened.append(token)
            elif token.is_symbol(*CLOSING):
                self.check_closed(opened, token, clause)
                if not opened:
                    return self.tokens[start : self.index - 1]

    @staticmethod
    def check_closed(opened: list[Token], closing: Token, clause: str) -> None:
        """Takes the bracket that is closed off the open ones. Two single brackets may be written as one symbol."""
        opening = opened.pop()
        if opening.text == "[" and closing.text == "]]" and opened and opened[-1].text == "[":
            opened.pop()
        elif opening.text == "[[" and closing.text == "]":
            opened.append(replace(opening, text="["))
        elif OPENING[opening.text] != closing.text:
            found = f"found `{closing.text}` at {closing.place.line}:{closing.place.column}"
            raise NotationError(opening.place, f"`{opening.text}` isn't closed by `{OPENING[opening.text]}`: {found}", clause)

    def within(self, tokens: list[Token], place: Place) -> "Cursor":
        """A parser of the same kind over these items, which are those of a bracket that opens at `place`."""
        last = tokens[-1].place if tokens else place
        return type(self)([*tokens, Token(Kind.END, "the closing bracket", last)], self.problems)

    def source(self, start: int, end: Optional[int] = None) -> str:
        """The items from `start` on as one line of text."""
        return shown(self.tokens[start : self.index if end is None else end])


def shown(tokens: list[Token]) -> str:
    """Items as one line of text, with the spaces that a reader expects."""
    line, before = "", None
    for token in tokens:
        tight = before is None or before in ("(", "[", ".", "&", "@", "[[") or token.text in (")", "]", ",", ".", ";", "]]")
        tight = tight or ".." in (token.text, before) or before == "-" and token.kind in (Kind.NUMBER, Kind.REAL)
        line += token.text if tight else " " + token.text
        before = token.text
    return line


def split(tokens: list[Token], *separators: str) -> list[list[Token]]:
    """The items between separators that are in no bracket."""
    parts, part, depth = [], [], 0
    for token in tokens:
        depth += token.is_symbol(*OPENING) - token.is_symbol(*CLOSING)
        if depth == 0 and token.is_symbol(*separators):
            parts.append(part)
            part = []
        else:
            part.append(token)
    return [*parts, part] if part or parts else []
