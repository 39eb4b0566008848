"""The parser's part for types (X.680, 17 to 48)."""
from typing import Optional, Union

from . import tree
from .built_in import CLAUSES
from .constraints import ConstraintParser
from .cursor import split
from .source import NotationError, Place
from .tokens import Kind, Token

# types whose notation is their name alone: those of one word, and the second word and the clause of each other by the first
SIMPLE = frozenset(it for it in CLAUSES if " " not in it)
_TWO_WORDS = {it.split()[0]: (it.split()[1], clause) for it, clause in CLAUSES.items() if " " in it}

_CHOICE = "X.680, 29.1"


class TypeParser(ConstraintParser):
    """Reads types."""

    governs_value = False  # whether the type is that of a value, whose `::=` follows

    def type(self) -> tree.Type:
        """A type with its tags and constraints."""
        start = self.index
        tags = []
        while self.at("["):
            tags.append(self.tag())
        found = self.untagged()
        found.tags = tags
        found.constraints = [*found.constraints, *self.constraints()]
        found.text = self.source(start)
        return found

    def tag(self) -> tree.Tag:
        """A tag (X.680, 31.2.1)."""
        place, tag_class = self.take().place, tree.TagClass.CONTEXT
        if self.at("UNIVERSAL", "APPLICATION", "PRIVATE"):
            tag_class = tree.TagClass[self.take().text]
        if self.now.kind not in (Kind.NUMBER, Kind.LOWER):
            self.refuse("the number of a tag", "X.680, 31.2.1")
        number = self.value()
        self.expect("]", "X.680, 31.2.1")
        mode = tree.TagMode[self.take().text] if self.at("IMPLICIT", "EXPLICIT") else None
        return tree.Tag(place, tag_class, number, mode)

    def untagged(self) -> tree.Type:
        """A type without its tags and constraints (X.680, 17.1)."""
        token = self.now
        place, word = token.place, token.text
        if token.kind is Kind.LOWER:
            return self.small_letter()
        if token.kind is Kind.SYMBOL and word == "{":
            return self.set_field()
        if token.kind is not Kind.UPPER:
            self.refuse("a type", "X.680, 17.1")
        reader = getattr(self, _READERS.get(word, ""), None)
        if reader:
            self.take()
            return reader(place)
        if word in SIMPLE:
            return tree.SimpleType(self.take().place, word)
        if word in _TWO_WORDS:
            self.take()
            second, clause = _TWO_WORDS[word]
            self.expect(second, clause)
            return tree.SimpleType(place, f"{word} {second}")
        if not self.at_name():
            self.refuse("a type", "X.680, 17.1")
        return self.reference()

    def small_letter(self) -> tree.Type:
        """A selection type (X.680, 30.1), a type from an object (X.681, 15.1), or a name that should have a capital letter."""
        token = self.take()
        if self.accept("<"):
            return tree.SelectionType(token.place, token.text, self.type())
        if self.at(".") and self.ahead().kind is Kind.FIELD:
            return self.object_field([token])
        if self.at(":") or self.at("::=") and not self.governs_value:
            raise NotationError(token.place, f"expected a type, found {token.shown()}", "X.680, 17.1")
        self.problems.deviation(token.place, f"the name of a type begins with a capital letter: `{token.text}`", "X.680, 12.2.1")
        return tree.ReferenceType(token.place, token.text)

    def set_field(self) -> tree.ObjectFieldType:
        """`{Set}.&field` (X.681, 15.1)."""
        opening = self.now
        inner = self.braced("X.681, 15.1")
        if not self.at("."):
            raise NotationError(opening.place, "expected a type, found `{`", "X.680, 17.1")
        return self.object_field([opening, *inner])

    def object_field(self, tokens: list[Token]) -> tree.ObjectFieldType:
        """The fields after an object or a set of them (X.681, 15.1)."""
        while self.accept("."):
            tokens.append(self.take())
        return tree.ObjectFieldType(tokens[0].place, tokens)

    # ---- types with a notation of their own

    def integer(self, place: Place) -> tree.IntegerType:
        """INTEGER (X.680, 19.1)."""
        return tree.IntegerType(place, self.named_numbers("X.680, 19.1"))

    def bit_string(self, place: Place) -> tree.BitStringType:
        """BIT STRING (X.680, 22.1)."""
        self.expect("STRING", "X.680, 22.1")
        return tree.BitStringType(place, self.named_numbers("X.680, 22.1"))

    def named_numbers(self, clause: str) -> list[tree.NamedNumber]:
        """`{ name(number), .. }`, if it is there."""
        if not self.at("{"):
            return []
        found = []
        self.take()
        while not self.accept("}"):
            if found:
                self.comma(found[-1], clause)
                if self.accept("}"):
                    break
            found.append(self.named_number(clause))
        return found

    def named_number(self, clause: str) -> tree.NamedNumber:
        """A name with a number in parentheses."""
        name = self.small_name("a name", clause)
        self.expect("(", clause)
        number = self.value()
        if not isinstance(number, (tree.IntegerValue, tree.NamedValue)):
            raise NotationError(number.place, "expected a number or the name of one", clause)
        self.expect(")", clause)
        return tree.NamedNumber(name.place, name.text, number, self.comment(name))

    def small_name(self, wanted: str, clause: str) -> Token:
        """A name that begins with a small letter, or should."""
        if self.now.kind is Kind.UPPER and self.at_name():
            self.problems.deviation(self.now.place, f"the name begins with a small letter: `{self.now.text}`", "X.680, 12.3")
            return self.take()
        return self.expect_kind(Kind.LOWER, wanted, clause)

    def comment(self, name: Token) -> str:
        """The comments of a member: the ones above its name, and the ones on the line of its last item or of the comma after it."""
        last = self.now if self.at(",") else self.tokens[self.index - 1]
        beside = last.beside or self.tokens[self.index - 1].beside
        return " ".join(it for it in (*name.above, beside) if it)

    def enumerated(self, place: Place) -> tree.EnumeratedType:
        """ENUMERATED (X.680, 20.1)."""
        opening = self.expect("{", "X.680, 20.1")
        found = tree.EnumeratedType(place, [])
        first = True
        while not self.accept("}"):
            if not first:
                self.comma(opening, "X.680, 20.1")
                if self.accept("}"):
                    break
            first = False
            if self.at("..."):
                self.enumeration_marker(found)
                continue
            (found.additions if found.extensible else found.items).append(self.enumeration_item())
        if not found.items:
            raise NotationError(place, "an enumeration has an item at least", "X.680, 20.1")
        return found

    def enumeration_marker(self, found: tree.EnumeratedType) -> None:
        """The extension marker of an enumeration, which has one at most (X.680, 20.1)."""
        if found.extensible:
            raise NotationError(self.now.place, "an enumeration has one extension marker at most", "X.680, 20.1")
        self.take()
        found.extensible = True
        if self.accept("!"):
            self.exception()

    def enumeration_item(self) -> tree.NamedNumber:
        """An item of an enumeration, with or without its number (X.680, 20.1)."""
        if self.ahead().is_symbol("("):
            return self.named_number("X.680, 20.1")
        name = self.small_name("an item of the enumeration", "X.680, 20.1")
        return tree.NamedNumber(name.place, name.text, None, self.comment(name))

    def sequence(self, place: Place) -> tree.Type:
        """SEQUENCE (X.680, 25 and 26)."""
        return self.structure_or_list(place, tree.Form.SEQUENCE, "X.680, 25.1")

    def set(self, place: Place) -> tree.Type:
        """SET (X.680, 27 and 28)."""
        return self.structure_or_list(place, tree.Form.SET, "X.680, 27.1")

    def structure_or_list(self, place: Place, form: tree.Form, clause: str) -> tree.Type:
        """SEQUENCE and SET, of members or OF (X.680, 25 to 28)."""
        if self.at("{"):
            members, extensible, continues = self.members(clause)
            return tree.StructureType(place, form, members, extensible, continues)
        constraints = []
        if self.at("SIZE"):
            constraints = [self.size_alone()]
        elif self.at("("):
            constraints = [self.constraint()]
        if not self.at("OF"):
            self.refuse("`{` or `OF`", clause)
        self.take()
        name = ""
        if self.now.kind is Kind.LOWER and not self.ahead().is_symbol("<", ",", "}") and not self.ends_here():
            name = self.take().text
        return tree.ListType(place, form, self.type(), name, constraints=constraints)

    def ends_here(self) -> bool:
        """Whether the small name that is next is the whole type: nothing that begins a type follows it."""
        after = self.ahead()
        begins = after.kind is Kind.UPPER and after.text not in ("OPTIONAL", "DEFAULT", "END") or after.is_symbol("[")
        return not begins or self.ahead(2).is_symbol("::=")

    def choice(self, place: Place) -> tree.ChoiceType:
        """CHOICE (X.680, 29.1)."""
        alternatives, extensible, _ = self.members(_CHOICE)
        return tree.ChoiceType(place, alternatives, extensible)

    def any(self, place: Place) -> tree.AnyType:
        """ANY (X.208, 27)."""
        if not self.accept("DEFINED"):
            return tree.AnyType(place)
        self.expect("BY", "X.208, 27.1")
        return tree.AnyType(place, self.small_name("the name of a member", "X.208, 27.1").text)

    def instance_of(self, place: Place) -> tree.InstanceOfType:
        """INSTANCE OF (X.681, annex C)."""
        self.expect("OF", "X.681, C.1")
        return tree.InstanceOfType(place, self.expect_kind(Kind.UPPER, "the name of a class", "X.681, C.1").text)

    # ---- members

    def members(self, clause: str) -> tuple[list[Union[tree.ComponentsOf, tree.Member]], bool, bool]:
        """The members in braces, whether there is an extension marker, and whether members come after a second one."""
        opening = self.expect("{", clause)
        found, markers, group, bracketed = [], 0, 0, False
        version, continues = None, False
        while not self.at("}"):
            if self.now.kind is Kind.END:
                raise NotationError(opening.place, "`{` isn't closed by `}`", clause)
            if self.accept("..."):
                markers += 1
                if self.accept("!"):
                    self.exception()
            elif self.accept("[["):
                group, bracketed, version = group + 1, True, self.version()
                continue
            elif self.accept("]]"):
                bracketed = False
            else:
                group += markers == 1 and not bracketed
                continues = markers > 1
                found.append(self.member(clause, group if markers == 1 else None, version if bracketed else None))
            if not self.at("}", "]]"):
                self.comma(opening, clause)
        self.take()
        return found, markers > 0, continues

    def version(self) -> Optional[int]:
        """The number of a version, if it is there (X.680, 25.1)."""
        if self.now.kind is not Kind.NUMBER:
            return None
        number = self.take().text
        self.expect(":", "X.680, 25.1")
        return int(number)

    def comma(self, opening: Union[Token, tree.NamedNumber], clause: str) -> None:
        """The comma between members. One that is missing or of no use is accepted where it is plain what is meant."""
        if not self.accept(","):
            if not (self.at_name() and self.now.place.line > self.tokens[self.index - 1].place.line):
                self.refuse("`,` or `}`", clause)
            self.problems.deviation(self.now.place, f"expected `,`, found {self.now.shown()}", clause)
        while self.at(","):
            self.problems.deviation(self.take().place, "expected a member, found `,`", clause)
        if self.at("}"):
            self.problems.deviation(self.now.place, "expected a member, found `}`", clause)

    def member(self, clause: str, group: Optional[int], version: Optional[int]) -> Union[tree.ComponentsOf, tree.Member]:
        """A member, or COMPONENTS OF."""
        if self.at("COMPONENTS") and clause != _CHOICE:
            place = self.take().place
            self.expect("OF", "X.680, 25.1")
            return tree.ComponentsOf(place, self.type(), group)
        name = self.now
        unnamed = name.kind is Kind.UPPER and (not self.at_name() or not self.begins_type(self.ahead()))
        if unnamed and self.begins_type(name):
            self.problems.deviation(name.place, f"expected the name of a member, found {name.shown()}", clause)
            text = ""
        else:
            text = self.small_name("the name of a member", clause).text
        start = self.index
        found = tree.Member(name.place, text, self.type(), group=group, version=version)
        if clause == _CHOICE and self.at("OPTIONAL", "DEFAULT"):
            self.problems.deviation(self.now.place, f"an alternative isn't {self.now.shown()}", _CHOICE)
        if self.accept("OPTIONAL"):
            found.presence = tree.Presence.OPTIONAL
        elif self.accept("DEFAULT"):
            found.presence, found.default = tree.Presence.DEFAULT, self.value()
        found.comment, found.text = self.comment(name), self.source(start)
        return found

    @staticmethod
    def begins_type(token: Token) -> bool:
        """Whether a type can begin with this item."""
        if token.kind is Kind.UPPER:
            return token.text not in ("OPTIONAL", "DEFAULT", "FROM", "COMPONENTS")
        return token.kind is Kind.LOWER or token.is_symbol("[")

    # ---- references

    def reference(self) -> tree.Type:
        """A name of a type (X.680, 14.1), a field of a class (X.681, 14.1) or a type with arguments (X.683, 9.2)."""
        token = self.take()
        module, name = None, token.text
        if self.at(".") and self.ahead().kind is Kind.UPPER:
            self.take()
            module, name = name, self.take().text
        if self.at(".") and self.ahead().kind is Kind.FIELD:
            return tree.FieldType(token.place, name, self.fields())
        arguments = self.arguments() if self.at("{") else None
        return tree.ReferenceType(token.place, name, module, arguments)

    def arguments(self) -> list[tree.Argument]:
        """The arguments in braces (X.683, 9.5)."""
        opening = self.now
        return [self.within(part, opening.place).argument() for part in split(self.braced("X.683, 9.5"), ",")]

    def argument(self) -> tree.Argument:
        """One argument: a type, a value or a set."""
        place = self.now.place
        text = self.source(0, len(self.tokens) - 1)
        if self.at("{"):
            return tree.Argument(place, set_tokens=self.braced("X.683, 9.5"), text=text)
        if self.now.kind in (Kind.UPPER, Kind.SYMBOL) and not self.at("-", "TRUE", "FALSE"):
            found = tree.Argument(place, type=self.type(), text=text)
        else:
            found = tree.Argument(place, value=self.value(), text=text)
        if self.now.kind is not Kind.END:
            self.refuse("`,` or `}`", "X.683, 9.5")
        return found


_READERS = {
    "INTEGER": "integer",
    "BIT": "bit_string",
    "ENUMERATED": "enumerated",
    "SEQUENCE": "sequence",
    "SET": "set",
    "CHOICE": "choice",
    "ANY": "any",
    "INSTANCE": "instance_of",
}
