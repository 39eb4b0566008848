"""The structs and enums of a Rust file as declarations, by their fields and their notes."""
import re
from dataclasses import dataclass
from typing import Optional

from ..emit.copies import is_copied
from ..emit.struct import REFERENCES
from ..meaning.declarations import AddedDeclaration, ChoiceDeclaration, Declaration, EnumDeclaration, Field, Item as Named, NewtypeDeclaration, StructDeclaration, TestedDeclaration
from ..meaning.examples import has_example
from ..meaning.library import ONE_BYTE
from ..meaning.rust_types import RustType, of
from ..parse.tree import Presence
from .first_tags import FirstTags, clashes
from .rust_items import Item, Part, RustFile
from .rust_tokens import Source

MOST_MEMBERS = 2 * REFERENCES
_INTEGER, _ENUMERATED = 0x02, 0x0A
_UNSIGNED = re.compile(r"u(8|16|32|64|128|size)$")
_SIGNED = re.compile(r"i(8|16|32|64|128)$")
# types without an ASN.1 type, and what to use
_REFUSED = {"f32": "no number of ASN.1", "f64": "no number of ASN.1", "str": "not owned: use `String`", "Box": "no type that can be written"}
# the notes of a type and of a field; one with `=` has a word after it
_TYPE_NOTES = ("skip", "set", "added", "integer", "notated", "exact", "faithful", "clone", "test")
_FIELD_NOTES = ("element", "default")
# the types of a last field that has no member of its own, but further ones
_LAST = ("Added", "LaterElements", "LaterElementsFrom", "LaterMembers", "LaterMembersFrom")


@dataclass
class Derived:
    """A declaration, and which traits are written for it besides those that every type has."""

    declaration: Declaration
    notated: bool = False
    exact: bool = False
    faithful: bool = False
    cloned: bool = False

    @property
    def inhabited(self) -> bool:
        """Whether a readable value is found by the notation, which types with parameters don't say."""
        generics = self.declaration.generics if isinstance(self.declaration, StructDeclaration) else None
        if isinstance(self.declaration, AddedDeclaration):
            return False
        return self.exact and not (generics and generics.parameters) and has_example(self.declaration, {})


class Notes:
    """The notes of a type or a field, by their first words."""

    def __init__(self, source: Source, line: int, words: tuple[str, ...], known: tuple[str, ...]) -> None:
        self.found = {}
        for it in words:
            name, _, rest = it.partition(" ")
            if name not in known:
                raise source.error(line, f"the note `{it}` isn't one of {', '.join(f'`{one}`' for one in known)}")
            self.found[name] = rest.strip()

    def has(self, name: str) -> bool:
        """Whether there is this note."""
        return name in self.found

    def after(self, name: str) -> str:
        """What is after the first word of this note, or an empty text."""
        return self.found.get(name, "")


def derived_types(file: RustFile, module: str) -> list[Derived]:
    """The types of a file but for those with the note `skip`."""
    found = []
    for it in file.items:
        notes = Notes(file.source, it.line, it.notes, _TYPE_NOTES)
        if not notes.has("skip"):
            found.append(_derived(file, it, notes, module))
    return found


def _derived(file: RustFile, it: Item, notes: Notes, module: str) -> Derived:
    """One type, with the traits that its notes name."""
    _check_derives(file, it)
    if not it.is_enum:
        declaration = _newtype(file, it, notes, module) if it.is_tuple or notes.has("test") else _struct(file, it, notes, module)
    elif any(part.type for part in it.parts):
        declaration = _choice(file, it, module)
    else:
        declaration = _enumeration(file, it, notes, module)
    exact, faithful = notes.has("exact"), notes.has("faithful")
    if (exact or notes.has("notated")) and isinstance(declaration, TestedDeclaration):
        raise file.source.error(it.line, f"`{it.name}` has a test, which no notation has: it can't be `notated` or `exact`")
    if notes.has("clone") and not (is_copied(declaration) or isinstance(declaration, TestedDeclaration)):
        raise file.source.error(it.line, f"`{it.name}` has no several fields and no test, so `#[derive(Clone)]` is enough")
    if notes.has("clone") and "Clone" in it.derives:
        raise file.source.error(it.line, f"`{it.name}` has `Clone` already")
    return Derived(declaration, exact or notes.has("notated"), exact, faithful, notes.has("clone"))


def _check_derives(file: RustFile, it: Item) -> None:
    """Each type has `==` and may be dropped. An enumeration is also copied, since its number is one."""
    is_number = it.is_enum and not any(part.type for part in it.parts)
    wanted = ("Copy", "Clone", "PartialEq") if is_number else ("Drop", "PartialEq")
    if not it.parts:
        raise file.source.error(it.line, f"`{it.name}` has no {'variants' if it.is_enum else 'fields'}")
    if any(name not in it.derives for name in wanted):
        line = "Debug, Clone, Copy, PartialEq, Eq" if is_number else "Debug, Drop, PartialEq, Eq"
        raise file.source.error(it.line, f"`{it.name}` needs `#[derive({line})]`, or the note `// asn1: skip`")


def _common(file: RustFile, it: Item, module: str) -> dict:
    """What each declaration has."""
    return {"name": it.name, "place": file.source.place(it.line), "module": module, "source": it.name}


def _struct(file: RustFile, it: Item, notes: Notes, module: str) -> StructDeclaration:
    """A SEQUENCE, or the members of a SET."""
    parameters = {one.argument for one in it.generics.parameters}
    fields = [_member(file, part, parameters) for part in it.parts]
    later = fields.pop() if fields[-1].type.name in _LAST else None
    _check_tags(file, it, fields)
    if len(fields) > MOST_MEMBERS or not fields:
        raise file.source.error(it.line, f"`{it.name}` has {len(fields)} members, and not 1 to {MOST_MEMBERS}")
    unused = parameters - set().union(*(one.type.words() for one in [*fields, *([later] if later else [])]))
    if unused:
        raise file.source.error(it.line, f"no field of `{it.name}` has the parameter `{min(unused)}`")
    if notes.has("added"):
        if it.generics.parameters:
            raise file.source.error(it.line, f"`{it.name}` has parameters, so that its members aren't known")
        return AddedDeclaration(**_common(file, it, module), fields=fields, later=later)
    return StructDeclaration(**_common(file, it, module), fields=fields, is_set=notes.has("set"), later=later, generics=it.generics)


def _member(file: RustFile, part: Part, parameters: set[str]) -> Field:
    """A field of a struct as a member."""
    notes, type_ = Notes(file.source, part.line, part.notes, _FIELD_NOTES), part.type
    for name in sorted(type_.names() & _REFUSED.keys()):
        raise file.source.error(part.line, f"`{name}` is {_REFUSED[name]}")
    if notes.has("default"):
        return Field(part.name, type_, Presence.DEFAULT, _default(file, part, notes.after("default")))
    if notes.has("element") or type_.name in parameters:
        return Field(part.name, type_, is_element=True)
    if type_.name == "Option":
        return Field(part.name, type_.arguments[0], Presence.OPTIONAL)
    return Field(part.name, type_)


def _check_tags(file: RustFile, it: Item, fields: list[Field]) -> None:
    """The next byte says whether a member that may be absent is there."""
    parts = [(part, one.type, one.presence is not Presence.REQUIRED) for part, one in zip(it.parts, fields)]
    for part, later, tag in clashes(FirstTags(file), parts):
        raise file.source.error(later.line, f"`{later.name}`, and `{part.name}` before it, which may be absent, can both begin with {tag:02X}")


def _default(file: RustFile, part: Part, word: str) -> RustType:
    """The type that says a default: of a boolean, of a number of this type, or one with this name."""
    if word in ("TRUE", "true", "FALSE", "false"):
        return of(word.capitalize())
    if re.fullmatch(r"-?\d+", word):
        inner = _innermost(part.type)
        if not _UNSIGNED.match(inner) and not _SIGNED.match(inner):
            raise file.source.error(part.line, f"`{inner}` has no default that is a number: use `Option<OtherThan<{inner}, {word}>>`")
        return of("Number" if _UNSIGNED.match(inner) else "SignedNumber", word)
    if not re.fullmatch(r"[\w:]+", word):
        raise file.source.error(part.line, "a default is `TRUE`, `FALSE`, a number or the name of a type with `DefaultOf`")
    return of(word)


def _innermost(type_: RustType) -> str:
    """The name of the type below all tags."""
    while type_.arguments and "Tag" in type_.name:
        type_ = type_.arguments[0]
    return type_.name


def _choice(file: RustFile, it: Item, module: str) -> ChoiceDeclaration:
    """A CHOICE."""
    if it.generics.parameters:
        raise file.source.error(it.line, f"`{it.name}` has parameters, so that the first bytes of its alternatives aren't known")
    for part in it.parts:
        Notes(file.source, part.line, part.notes, ())
        if not part.type:
            raise file.source.error(part.line, f"`{part.name}` has no type, unlike other variants: use `()` for NULL")
    alternatives = [(part, part.type, True) for part in it.parts]
    for part, later, tag in clashes(FirstTags(file), alternatives):
        raise file.source.error(later.line, f"`{later.name}` and `{part.name}` before it can both begin with {tag:02X}")
    return ChoiceDeclaration(**_common(file, it, module), variants=[Field(part.name, part.type) for part in it.parts])


def _enumeration(file: RustFile, it: Item, notes: Notes, module: str) -> EnumDeclaration:
    """An ENUMERATED, or an INTEGER with a name for each number. A variant without a number has the one after that before it."""
    items, number = [], -1
    for part in it.parts:
        number = part.number if part.number is not None else number + 1
        if number not in ONE_BYTE or number in [one.number for one in items]:
            raise file.source.error(part.line, f"`{part.name}` is {number}: each variant has another number from 0 to {ONE_BYTE[-1]}")
        items.append(Named(part.name, part.name, number))
    return EnumDeclaration(**_common(file, it, module), items=items, tag=_INTEGER if notes.has("integer") else _ENUMERATED)


def _newtype(file: RustFile, it: Item, notes: Notes, module: str) -> NewtypeDeclaration:
    """A struct round another type, all of whose values it has, or those that pass a test."""
    if len(it.parts) != 1 or it.generics.parameters:
        raise file.source.error(it.line, f"`{it.name}` has more than one type in it, or parameters: give its fields names")
    part, common = it.parts[0], _common(file, it, module)
    if not notes.has("test"):
        if it.ghosts:
            raise file.source.error(it.line, f"`{it.name}` has a ghost field: name its test, as `// asn1: test is_even`")
        return NewtypeDeclaration(**common, type=part.type, part=part.name)
    function = notes.after("test")
    given = file.functions.get(function)
    if given not in (part.type, of("&", part.type)):
        raise file.source.error(it.line, f"the file has no function `{function}` of a `{part.type}`, or of a reference to one")
    ghost, test = _test(file, it)
    by_reference = given.name == "&"
    return TestedDeclaration(**common, type=part.type, part=part.name, function=function, by_reference=by_reference, test=test, ghost=ghost)


def _test(file: RustFile, it: Item) -> tuple[str, str]:
    """The ghost field that says that the value passes the test, and the term of the test."""
    clauses = {name: re.fullmatch(r"(.*\S)\s*≡\s*true", text, re.S) for name, text in it.ghosts.items()}
    if it.is_tuple or len(clauses) != 1 or not all(clauses.values()):
        raise file.source.error(it.line, f"`{it.name}` needs a named field and one ghost field, as `ghost even: {{ (number % 2 == 0) ≡ true }}`")
    (name, found), = clauses.items()
    return name, " ".join(found[1].split())


def determined(declared: TestedDeclaration) -> Optional[tuple[str, str, dict[str, set[str]]]]:
    """The proof that the encoding alone decides the test, or None if none is known for the type inside.

    An encoding has the number, or the bytes, of its value. Given are the function of these, why they are the same, and what to import.
    """
    part, type_ = declared.part, declared.type
    width = _UNSIGNED.match(type_.name)
    if width:
        bits = "64" if width[1] == "size" else width[1]
        return f"(λ {part}. {declared.test})", f"(unsigned_tree-same (2 ^ {bits} - 1) x y e)", {
            "Rattle.std.specs.Prelude": {"◌-◌", "◌^◌"},
            "Rattle.picky_der_core.specs.UnsignedTreeLaws": {"unsigned_tree-same"},
        }
    width = _SIGNED.match(type_.name)
    if width:
        return f"(λ {part}. {declared.test})", f"((Decides-int_eq x y).0 (int_injective (fits_signed {width[1]}) x y e))", {
            "Rattle.std.proofs.lemmas.Bool.Decides": {"Decides-int_eq"},
            "Rattle.picky_der_core.specs.Integer": {"fits_signed"},
            "Rattle.picky_der_de.specs.InjectiveLaws": {"int_injective"},
        }
    for path in (rf"\(?string_bytes {part}(?![\w.])\)?", rf"(?<![\w.]){part}\.content\.items\b", rf"(?<![\w.]){part}\.0\.items\b"):
        test = re.sub(path, "(tree_bytes t)", declared.test)
        if test != declared.test and not re.search(rf"(?<![\w.]){part}\b", test):
            return f"(λ t. {test})", "e", {"Rattle.der_types.specs.Constraints": {"tree_bytes"}}
    return None
