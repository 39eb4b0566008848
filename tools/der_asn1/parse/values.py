"""The parser's part for values (X.680, 17.7)."""
from . import tree
from .cursor import Cursor
from .tokens import Kind

_VALUE_KINDS = (Kind.LOWER, Kind.NUMBER, Kind.REAL, Kind.TEXT, Kind.BITS)


class ValueParser(Cursor):
    """Reads values. What a name or braces mean is found later, by the type."""

    def at_value(self) -> bool:
        """Whether a value can begin with the next item."""
        return self.now.kind in _VALUE_KINDS or self.at("TRUE", "FALSE", "NULL", "-", "{", "PLUS-INFINITY", "MINUS-INFINITY")

    def value(self) -> tree.Value:
        """A value of any type."""
        token = self.now
        if self.at("{"):
            return tree.BraceValue(token.place, self.braced())
        if self.at("-") or token.kind in (Kind.NUMBER, Kind.REAL):
            return self.numeric()
        if token.kind is Kind.TEXT:
            return tree.TextValue(token.place, self.take().text[1:-1].replace('""', '"'))
        if token.kind is Kind.BITS:
            return self.bits()
        if self.ahead().is_symbol(":") and token.kind in (Kind.LOWER, Kind.UPPER):
            self.take()
            self.take()
            return tree.ChosenValue(token.place, token.text, self.value())
        return self.word_value()

    def numeric(self) -> tree.IntegerValue:
        """A number with its sign (X.680, 19.2 and 21.6)."""
        place = self.now.place
        sign = -1 if self.accept("-") else 1
        if self.now.kind is Kind.REAL:
            return tree.RealValue(place, ("-" if sign < 0 else "") + self.take().text)
        if self.now.kind is not Kind.NUMBER:
            self.refuse("a number", "X.680, 19.2")
        return tree.IntegerValue(place, sign * number_of(self.take().text))

    def bits(self) -> tree.BitsValue:
        """A bstring or an hstring (X.680, 12.10 and 12.12)."""
        token = self.take()
        return tree.BitsValue(token.place, "".join(token.text[1:-2].split()), 1 if token.text.endswith("B") else 4)

    def word_value(self) -> tree.Value:
        """A value that begins with a word."""
        token = self.now
        if self.accept("TRUE", "FALSE"):
            return tree.BooleanValue(token.place, token.text == "TRUE")
        if self.accept("NULL"):
            return tree.NullValue(token.place)
        if self.accept("PLUS-INFINITY", "MINUS-INFINITY"):
            return tree.RealValue(token.place, token.text)
        if not self.at_name():
            self.refuse("a value", "X.680, 17.7")
        self.take()
        if self.at(".") and self.ahead().kind is Kind.FIELD:
            return tree.FieldValue(token.place, token.text, self.fields())
        if token.kind is Kind.LOWER:
            return tree.NamedValue(token.place, token.text)
        if self.at(".") and self.ahead().kind is Kind.LOWER:
            self.take()
            return tree.NamedValue(token.place, self.take().text, token.text)
        self.problems.deviation(token.place, f"the name of a value begins with a small letter: `{token.text}`", "X.680, 12.4")
        return tree.NamedValue(token.place, token.text)

    def fields(self) -> list[str]:
        """`.&field`, once or more (X.681, 14.1 and 15.1)."""
        found = []
        while self.at(".") and self.ahead().kind is Kind.FIELD:
            self.take()
            found.append(self.take().text)
        return found


def number_of(text: str) -> int:
    """The number that digits are. `0x` isn't of the standard, and the scanner warns of it."""
    return int(text, 16) if text.startswith("0x") else int(text)
