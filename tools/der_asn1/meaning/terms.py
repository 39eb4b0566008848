"""Types of the notation as terms of der_types, in the forms of its specs/NotationForms.antt."""
import re
from dataclasses import dataclass, field, replace
from typing import Iterable, Optional, Union

from ..parse import tree
from ..parse.tree import TagClass, TagMode

_CLASSES = {
    TagClass.UNIVERSAL: "UNIVERSAL",
    TagClass.APPLICATION: "APPLICATION",
    TagClass.CONTEXT: "CONTEXT",
    TagClass.PRIVATE: "PRIVATE",
}
# what is between the members of a SEQUENCE or a SET, and between the alternatives of a CHOICE
_MEMBERS, _ALTERNATIVES = "⨾", "∣"


@dataclass(frozen=True)
class Item:
    """A member or an alternative: its text in the module, how it is there, and its term."""

    text: str
    presence: str
    term: "Term"


@dataclass(frozen=True)
class Term:
    """A term: its first words with the term of what is inside, if there is one, or with members or alternatives and the word after the last.

    One with members or alternatives has a name, for where it is too long. `names` has the names of items, numbers or bits with their numbers.
    """

    head: str
    inner: Optional["Term"] = None
    items: Optional[tuple] = None
    end: str = ""
    name: str = ""
    names: tuple[tuple[str, int], ...] = field(default=(), compare=False)

    def inline(self) -> str:
        """The term on one line."""
        if self.items is not None:
            return f"{self.head} ({f' {self.between()} '.join([*map(item_inline, self.items), self.end])})"
        return f"{self.head} {argument(self.inner)}" if self.inner else self.head

    def between(self) -> str:
        """The operator between the items."""
        return _ALTERNATIVES if self.head in ("CHOICE", "CHOICE-extensible", "one-of") else _MEMBERS

    def group(self) -> "Optional[Term]":
        """The term with members or alternatives that it is, or that is inside of its tags, or None."""
        return self if self.items is not None else self.inner and self.inner.group()

    def shortened(self) -> "Term":
        """The term with the name in place of the members or alternatives."""
        return Term(self.name) if self.items is not None else replace(self, inner=self.inner.shortened())


def argument(term: Term) -> str:
    """A term as an argument."""
    text = term.inline()
    return f"({text})" if " " in text else text


def item_inline(item: Item) -> str:
    """A member or an alternative on one line."""
    return f"{item.presence} {argument(item.term)}" if item.presence else item.term.inline()


def wider(term: Term) -> Term:
    """The term of what the library has in place of a type."""
    return term if term.head == "wider" else Term("wider", term)


def any_content(tag: int) -> Term:
    """Any content under an identifier byte."""
    return Term(f"any-content 0x{tag:02X}")


def content_under(tag: int, inner: Term) -> Term:
    """A content under an identifier byte in place of its own."""
    return Term(f"content-under 0x{tag:02X}", inner)


def value_word(number: int) -> str:
    """A number as the value of a default or a bound."""
    return f"number {number}" if number >= 0 else f"minus {-number}"


def sized(low: int, high: Union[int, str], inner: Term) -> Term:
    """A type with a size."""
    return Term(f"SIZE {low} {high}", inner)


def default_tags(module: str) -> str:
    """The name of the mode of the tags of a module that say none."""
    return f"TAGS-{module}"


def tagged(tag: tree.Tag, number: int, inner: Term, module: str, is_explicit: bool) -> Term:
    """A type under a tag. `is_explicit` says that it is EXPLICIT by a rule that the text doesn't show."""
    mode = tag.mode.name if tag.mode else default_tags(module)
    if tag.is_automatic:
        mode = "AUTOMATIC"
    return Term(f"{_CLASSES[tag.tag_class]} {number} {TagMode.EXPLICIT.name if is_explicit else mode}", inner)


def number_list(values: Iterable[int]) -> str:
    """A list of numbers."""
    return f"({' ∷ '.join([*map(str, values), '[]'])})"


def byte_list(content: bytes) -> str:
    """A list of bytes."""
    return " ∷ ".join([*(f"0x{it:02X}" for it in content), "[]"])


def content_list(contents: Iterable[bytes]) -> str:
    """A list of lists of bytes."""
    return f"({' ∷ '.join([*(f'({byte_list(it)})' if it else '[]' for it in contents), '[]'])})"


def names_of(lines: list[str]) -> set[str]:
    """The names and the operators in lines of terms, without those of comments."""
    text = "\n".join(it for it in lines if not it.lstrip().startswith("--"))
    return set(re.findall(r"[A-Za-z][\w-]*(?:::[A-Za-z]\w*)*", text)) | {f"◌{it}◌" for it in (_MEMBERS, _ALTERNATIVES, "∷") if it in text}
