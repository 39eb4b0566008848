"""The parser's part for information object classes (X.681, 9 and 10)."""
from dataclasses import replace

from . import tree
from .cursor import OPENING
from .source import NotationError
from .tokens import Kind, Token
from .types import TypeParser


class ClassParser(TypeParser):
    """Reads the definitions of classes."""

    def class_definition(self) -> tree.ClassDefinition:
        """`CLASS { fields } WITH SYNTAX { .. }` (X.681, 9.3)."""
        place = self.expect("CLASS", "X.681, 9.3").place
        self.expect("{", "X.681, 9.3")
        fields = []
        while not self.accept("}"):
            if fields:
                self.expect(",", "X.681, 9.3")
            fields.append(self.class_field())
        found = tree.ClassDefinition(place, fields)
        if self.accept("WITH"):
            self.expect("SYNTAX", "X.681, 10.5")
            if not self.at("{"):
                self.refuse("`{`", "X.681, 10.5")
            tokens = [half for it in self.braced("X.681, 10.5") for half in halves(it)]
            found.syntax = syntax_items(tokens, found)
        return found

    def class_field(self) -> tree.ClassField:
        """A field of a class (X.681, 9.4)."""
        name = self.expect_kind(Kind.FIELD, "the name of a field", "X.681, 9.4")
        found = tree.ClassField(name.place, name.text)
        if self.now.kind is Kind.FIELD:
            self.take()
        elif not self.at("OPTIONAL", "DEFAULT", "UNIQUE", ",", "}"):
            found.type = self.type()
        found.unique = bool(self.accept("UNIQUE"))
        found.optional = bool(self.accept("OPTIONAL"))
        if self.accept("DEFAULT"):
            found.has_default = True
            self.default_setting(name.text)
        return found

    def default_setting(self, field_name: str) -> None:
        """What a field has by default: a type, a value or a set. It isn't needed."""
        if self.at("{"):
            self.braced("X.681, 9.4")
        elif field_name[1].isupper():
            self.type()
        else:
            self.value()


def halves(token: Token) -> list[Token]:
    """A pair of brackets that was read as one symbol, as the two brackets that it is in WITH SYNTAX."""
    if token.is_symbol("[[", "]]"):
        return [replace(token, text=token.text[0])] * 2
    return [token]


def syntax_items(tokens: list[Token], definition: tree.ClassDefinition) -> list[tree.SyntaxItem]:
    """The items of WITH SYNTAX (X.681, 10.5)."""
    found, index = [], 0
    while index < len(tokens):
        token = tokens[index]
        index += 1
        if token.is_symbol("["):
            end = closing_index(tokens, index - 1)
            found.append(tree.SyntaxItem(group=syntax_items(tokens[index:end], definition)))
            index = end + 1
        elif token.kind is Kind.FIELD:
            if not definition.field_named(token.text):
                raise NotationError(token.place, f"the class has no field {token.shown()}", "X.681, 10.8")
            found.append(tree.SyntaxItem(field_name=token.text))
        else:
            found.append(tree.SyntaxItem(literal=token.text))
    return found


def closing_index(tokens: list[Token], start: int) -> int:
    """Where the bracket that opens at `start` is closed."""
    depth = 0
    for index in range(start, len(tokens)):
        depth += tokens[index].is_symbol(*OPENING) - tokens[index].is_symbol("]", "}", ")")
        if depth == 0:
            return index
    raise NotationError(tokens[start].place, f"{tokens[start].shown()} isn't closed", "X.681, 10.5")
