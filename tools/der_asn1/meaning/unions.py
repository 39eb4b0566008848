"""Types that are one of several, which the whole element distinguishes: as the rows of a table of objects (X.682, 10)."""
from dataclasses import dataclass, replace
from typing import TYPE_CHECKING, Optional

from ..parse import tree
from .declarations import Field, Hint, UnionDeclaration
from .library import ANY_FIRST, Core, Rust
from .meaning import Meaning
from .rust_types import of
from .scopes import Scope
from .structures import declare, unique
from .terms import Item, Term
from .wording import variant

if TYPE_CHECKING:
    from .types import Meanings


@dataclass(frozen=True)
class Choice:
    """One of the types: its name, its meaning, and what a comment says of it."""

    name: str
    meaning: Meaning
    text: str


def union(
    meanings: "Meanings",
    type_: tree.Type,
    scope: Scope,
    hint: Hint,
    choices: list[Choice],
    fallback: Optional[Meaning],
    is_open: bool = False,
) -> Optional[Meaning]:
    """The type that is one of these, which is declared.

    `fallback` is another type, for where the first byte has to be known. `is_open` says that it is an extensible CHOICE, so that each tag over it
    is EXPLICIT: the last of the types is that of the alternatives of later versions, which its term doesn't name.
    """
    if any(it.meaning.rust is None for it in choices):
        return None
    found = Meaning(None).containing(*(it.meaning for it in choices))
    variants = [Field(variant(it.name), it.meaning.rust.type, notation=it.text) for it in choices]
    declared = UnionDeclaration("", type_.place, scope.module.name, hint.text, variants=unique(variants))
    name = declare(meanings, declared, type_, scope, hint, found, "element")
    items = tuple(Item(it.text, "", it.meaning.rust.term) for it in choices if not (is_open and it is choices[-1]))
    term = Term("CHOICE-extensible" if is_open else "one-of", items=items, end="none", name=name)
    return found.as_(Rust(of(name), Core.UNION, ANY_FIRST, term=term, choices=tuple(choices), fallback=fallback, is_open=is_open))


def tagged_union(meanings: "Meanings", inner: Meaning, tag: tree.Tag, number: int, scope: Scope, under: object) -> Optional[Meaning]:
    """The same under an IMPLICIT tag, which is that of each of the types. `under` puts it on one."""
    rust = inner.rust
    choices = [replace(it, meaning=under(it.meaning)) for it in rust.choices]
    fallback = rust.fallback and under(rust.fallback)
    hint = Hint(f"{rust.text}-{tag.tag_class.name if tag.tag_class is not tree.TagClass.CONTEXT else 'tag'}-{number}")
    found = union(meanings, tree.Type(tag.place), scope, hint, choices, fallback)
    return found and replace(found, features=inner.features | found.features, causes=inner.causes | found.causes)
