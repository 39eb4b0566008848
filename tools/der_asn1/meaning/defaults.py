"""Defaults that no type of the library says, as those of texts, identifiers and structures: the type of all other values (X.690, 11.5).

The member is an `Option` of that type, in which `None` is the default.
"""
from dataclasses import replace
from typing import TYPE_CHECKING, Optional

from ..parse import tree
from .contents import Contents, content_of
from .declarations import AliasDeclaration, Hint
from .encodings import encoding_of, header_size
from .library import Core, Rust
from .listed import ACCESSED, declared_list
from .meaning import Meaning
from .rust_types import RustType, of
from .scopes import resolve
from .structures import Default, Part
from .terms import Term

if TYPE_CHECKING:
    from .types import Meanings

# what an encoded value is in a term
ENCODED = "encoded"


def other_values(meanings: "Meanings", part: Part, hint: Hint, is_last: bool) -> Optional[Default]:
    """The type of all values of a member but its default. None if the default isn't worked out, or if no type is there for the others.

    `is_last` says that no member comes after it, so that it may begin with any byte.
    """
    outer, rust, layers = part.meaning.rust, part.meaning.rust, 0
    if outer is None or outer.core is Core.UNION:
        return None
    while rust.core in (Core.EXPLICIT, Core.IMPLICIT) and rust.inner and not rust.is_foreign:
        layers, rust = layers + 1, rust.inner
    found = _by_content(meanings, part, rust, hint)
    if found is None and _is_explicit(outer, rust, is_last):
        found = _by_encoding(meanings, part, rust, layers, hint)
    type_ = found and _within(outer, rust, found.rust.type)
    if type_ is None:
        return None
    return Default(others=type_, word="default-as-optional", term=_term_within(outer.term, rust.term, found.rust.term, layers))


def _is_explicit(outer: Rust, rust: Rust, is_last: bool) -> bool:
    """Whether a value may begin with any byte there: in an EXPLICIT tag, or as the last member."""
    while outer is not rust and outer.inner is not rust:
        outer = outer.inner
    return is_last if outer is rust else outer.core is Core.EXPLICIT


def _by_content(meanings: "Meanings", part: Part, rust: Rust, hint: Hint) -> Optional[Meaning]:
    """The type of the other contents of a type without parts."""
    plain = _without_name(meanings, rust)
    base = resolve(meanings.program, part.resolved.member.type, part.resolved.scope)
    if plain.text not in ACCESSED or plain.own or plain.bounded or base.type is None:
        return None
    content = content_of(meanings.program, part.resolved.member.default, part.resolved.scope, base.type, base.scope)
    return None if content is None else _declared(meanings, plain, part, hint, content)


def _without_name(meanings: "Meanings", rust: Rust) -> Rust:
    """The type of the library that a name stands for."""
    found = meanings.declarations.by_name.get(rust.text)
    while type(found) is AliasDeclaration:
        rust = replace(rust, type=found.type)
        found = meanings.declarations.by_name.get(rust.text)
    return rust


def _by_encoding(meanings: "Meanings", part: Part, rust: Rust, layers: int, hint: Hint) -> Optional[Meaning]:
    """The type of the other encodings of any type, each of which is kept with its value."""
    member, scope = part.resolved.member, part.resolved.scope
    encoding = encoding_of(meanings.program, member.default, scope, member.type, scope)
    for _ in range(layers):
        encoding = encoding and encoding[header_size(encoding) :]
    if not encoding or rust.core is Core.ELEMENT:
        return None
    kept = Rust(of("Encoded", rust.type), Core.ELEMENT, rust.firsts, is_open=True, term=Term(ENCODED, rust.term))
    return _declared(meanings, kept, part, hint, encoding)


def _declared(meanings: "Meanings", rust: Rust, part: Part, hint: Hint, content: bytes) -> Meaning:
    """The type of the values without this content, or this encoding."""
    member = part.resolved.member
    written = tree.Type(member.place, text=f"{member.text.partition(' DEFAULT ')[0]}, but its default")
    return declared_list(meanings, Meaning(rust), written, part.resolved.scope, Hint(f"{hint.text}-other", root=hint.root), Contents(frozenset((content,))))


def _within(outer: Rust, rust: Rust, inside: RustType) -> Optional[RustType]:
    """The type with its tags around another one. None if the type with its tags has another name."""
    if outer is rust:
        return inside
    found = _within(outer.inner, rust, inside) if outer.inner.type in outer.type.arguments else None
    return found and outer.type.replaced(outer.inner.type, found)


def _term_within(outer: Term, rust: Term, inside: Term, layers: int) -> Term:
    """The term with its tags around another one."""
    return inside if layers == 0 or outer.inner is None else replace(outer, inner=_term_within(outer.inner, rust, inside, layers - 1))
