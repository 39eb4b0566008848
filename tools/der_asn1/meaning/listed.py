"""Single values as constraints (X.680, 51.2): a struct round those values of another type that have listed contents, or others."""
from dataclasses import dataclass, replace
from typing import TYPE_CHECKING, Optional

from ..parse import tree
from .contents import ANY_CONTENT, Contents
from .declarations import Hint, ListedDeclaration
from .intervals import NATURAL
from .library import Core, Rust
from .meaning import Meaning
from .rust_types import of
from .scopes import Scope
from .structures import declare
from .subtypes import Limits
from .terms import Term, byte_list, content_list, sized
from .wording import snake

if TYPE_CHECKING:
    from .types import Meanings

# the contents of a BOOLEAN (X.690, 11.1)
FALSE_CONTENT, TRUE_CONTENT = b"\x00", b"\xff"
# the name of the field, and of the ghost field by which its content is a listed one
PART, GHOST = "value", "listed"


@dataclass(frozen=True)
class Access:
    """How the content of a value is found: in code, and in a clause."""

    code: str
    clause: str


_BOOLEAN = Access(PART, PART)
_CONTENT = Access(f"{PART}.content()", f"{PART}.content.items")
_STRING = Access(f"{PART}.as_bytes()", f"{PART}.content.items")
_ACCESSES = {
    "bool": _BOOLEAN,
    "Asn1RawDer": Access(f"{PART}.0.first()", f"{PART}.0.items"),
    "Encoded": Access(f"{PART}.encoding().0.as_slice()", f"{PART}.encoding.0.items"),
    "ObjectIdentifier": _CONTENT,
    "BitString": _CONTENT,
    "NamedBits": _CONTENT,
    "ByteBuf": Access(f"{PART}.0.as_slice()", f"{PART}.0.items"),
    "TaggedBytes": Access(f"{PART}.0.as_slice()", f"{PART}.0.items"),
    "String": Access(f"{PART}.as_bytes()", f"(string_bytes {PART})"),
    **dict.fromkeys(
        """NumericString PrintableString TeletexString Ia5String VisibleString GeneralString VideotexString GraphicString ObjectDescriptor
        UniversalString BmpString""".split(),
        _STRING,
    ),
}


# the types of the library whose contents may be listed, or other ones
ACCESSED = frozenset(_ACCESSES) - {"Asn1RawDer", "Encoded", "TaggedBytes"}


def access_of(declared: ListedDeclaration) -> Access:
    """How the content of a value of the type inside is found."""
    return _ACCESSES[declared.type.name]


def term_of(declared: ListedDeclaration, inner: Rust) -> Term:
    """The term of a type of listed values, of those of the type inside."""
    if declared.most is not None:
        return sized(0, declared.most, inner.term)
    if inner.text == "Asn1RawDer":
        return Term(f"begun-otherwise ({byte_list(b''.join(listed_contents(declared)))})")
    if inner.core is Core.BOOL:
        return Term(f"listed {content_list([truth_content(declared)])}", inner.term)
    word = "unlisted" if declared.contents.is_other else "listed"
    return Term(f"{word} {content_list(listed_contents(declared))}", inner.term)


def listed_contents(declared: ListedDeclaration) -> list[bytes]:
    """The contents that are listed, in their order."""
    return sorted(declared.contents.listed)


def is_true(declared: ListedDeclaration) -> bool:
    """Whether TRUE is the value of a BOOLEAN that is left."""
    return (TRUE_CONTENT in declared.contents.listed) != declared.contents.is_other


def truth_content(declared: ListedDeclaration) -> bytes:
    """The content of the value of a BOOLEAN that is left (X.690, 8.2)."""
    return TRUE_CONTENT if is_true(declared) else FALSE_CONTENT


def listed(meanings: "Meanings", meaning: Meaning, type_: tree.Type, scope: Scope, hint: Hint, limits: Limits) -> tuple[Meaning, Limits]:
    """The type of the values with listed contents, which is declared, and the limits that are left then."""
    rust, contents = meaning.rust, limits.contents
    if contents.is_all() or rust is None or rust.own or rust.bounded or rust.text not in ACCESSED:
        return meaning, limits
    if rust.core is Core.BOOL:
        contents = Contents(frozenset(filter(contents.has, (FALSE_CONTENT, TRUE_CONTENT))), False)
        if len(contents.listed) > 1:
            return meaning, replace(limits, contents=ANY_CONTENT)
    if not contents.is_other and limits.alphabet == NATURAL:
        contents = Contents(frozenset(it for it in contents.listed if _fits(it, limits, rust)), False)
        limits = replace(limits, size=NATURAL)
    if limits.size != NATURAL or limits.alphabet != NATURAL or not contents.is_other and not contents.listed:
        return meaning, limits
    return declared_list(meanings, meaning, type_, scope, hint, contents), replace(limits, contents=ANY_CONTENT)


def _fits(content: bytes, limits: Limits, rust: Rust) -> bool:
    """Whether a content has a size that the limits allow. The size of characters of several bytes isn't looked at."""
    size = len(content.decode("utf-8")) if rust.core is Core.UTF8 else len(content)
    return limits.size == NATURAL or any(low <= size <= high for low, high in limits.size.pairs)


def most_bits(meanings: "Meanings", meaning: Meaning, type_: tree.Type, scope: Scope, hint: Hint, most: int) -> Meaning:
    """The type of bits with names of which none above this number of bits is one (X.680, 22.7; X.690, 11.2.2)."""
    return declared_list(meanings, meaning, type_, scope, hint, ANY_CONTENT, most)


def declared_list(
    meanings: "Meanings",
    meaning: Meaning,
    type_: tree.Type,
    scope: Scope,
    hint: Hint,
    contents: Contents,
    most: Optional[int] = None,
) -> Meaning:
    """The type of the values with these contents, of a type that can have them, or of as many bits at most."""
    rust = meaning.rust
    declared = ListedDeclaration("", type_.place, scope.module.name, hint.text, type=rust.type, part=PART, contents=contents, most=most)
    declared.notation, declared.ghost, declared.by_reference = type_.text, GHOST, rust.core is not Core.BOOL
    name = declare(meanings, declared, type_, scope, hint, meaning, "values")
    declared.function = f"is_{snake(name)}"
    declared.test = f"{declared.function} {access_of(declared).clause}"
    is_open = rust.core is Core.ELEMENT
    return meaning.as_(Rust(of(name), Core.OWN, rust.firsts, inner=rust, is_open=is_open, term=term_of(declared, rust)))
