"""The files of a crate's types: which file each type is in, and the lines of a file."""
from dataclasses import dataclass, field

from ..meaning.declarations import AddedDeclaration, AliasDeclaration, ChoiceDeclaration, Declaration, EnumDeclaration, ListedDeclaration
from ..meaning.declarations import NewtypeDeclaration, SetDeclaration, StructDeclaration, UnionDeclaration
from ..meaning.examples import has_example
from ..meaning.wording import snake
from .added import added_lines, added_uses
from .character_set import set_lines, set_uses
from .choice import choice_lines, choice_uses
from .comments import difference_note, sentence
from .copies import clone_impl, copies_uses, is_copied
from .derives import derived, with_derives
from .enum import TERMS_FILE, enum_lines, enum_uses
from .faithful import faithful_default_impl, faithful_default_uses, faithful_impl, faithful_uses, inhabited_impl, inhabited_uses
from .imports import Uses
from .layout import assigned, comment
from .listed import is_encoded, listed_lines, listed_uses
from .many import many_uses
from .newtype import newtype_lines, newtype_uses
from .private_names import PrivateNames
from .struct import struct_lines, struct_uses
from .union import union_lines, union_uses

# the file of the types of a crate of one module, without those of groups
ONLY = "types"


@dataclass(frozen=True)
class Context:
    """What the lines of a file depend on: the crate, the crates of types that are named, the names of what is private, the crate's types, and
    the traits that all types derive, too."""

    crate: str
    homes: dict[str, str]
    names: PrivateNames
    types: dict[str, Declaration] = field(default_factory=dict)
    derives: tuple[str, ...] = ()


def stems_of(types: list[Declaration], groups: dict[str, list[str]], taken: frozenset[str]) -> dict[str, str]:
    """The name of the file of each type, by the name of the type.

    A type is in the file of the group that has it, or that has what it is a part of. All others of a module are in its file, which is
    `types` if the crate is of one module alone. No file of a module has a name in `taken`.
    """
    group_of = {source: stem for stem, sources in groups.items() for source in sources}
    is_one_module = len({it.module for it in types}) == 1
    return {it.name: group_of.get(it.root) or (ONLY if is_one_module else module_stem(it.module, taken)) for it in types}


def module_stem(module: str, taken: frozenset[str]) -> str:
    """The name of the file of a module."""
    found = snake(module)
    return f"{found}_types" if found in taken else found


def types_file(types: list[Declaration], stem: str, context: Context) -> list[str]:
    """The lines of a file of types, after its first one: their items in the order of the modules."""
    uses, body = Uses(), []
    for it in types:
        uses.add(uses_of(it, context))
        uses.add(many_uses(it, context.crate))
        body += ["", *with_derives(lines_of(it, stem, context), derived(it, context.derives))]
        for more, lines in promises(it, stem, context):
            uses.add(more)
            body += ["", *lines]
    own = {it.name for it in types} | {name for it in types for name in getattr(it, "defaults", [])}
    terms, rust = uses.term_lines(), uses.rust_lines(context.homes, own)
    modules = list(dict.fromkeys(it.module for it in types))
    about = comment("", "//!", f"Types of {', '.join(modules)}.")
    return [*about, *terms, *([""] if rust else []), *rust, *body]


def uses_of(declared: Declaration, context: Context) -> Uses:
    """What the items of a type name."""
    if isinstance(declared, ListedDeclaration):
        return listed_uses(declared, context.crate)
    if isinstance(declared, UnionDeclaration):
        return union_uses(declared)
    if isinstance(declared, NewtypeDeclaration):
        return newtype_uses(declared)
    if isinstance(declared, AddedDeclaration):
        return added_uses(declared)
    if isinstance(declared, StructDeclaration):
        return struct_uses(declared)
    if isinstance(declared, ChoiceDeclaration):
        return choice_uses(declared)
    if isinstance(declared, EnumDeclaration):
        return enum_uses(declared, context.crate)
    if isinstance(declared, SetDeclaration):
        return set_uses(declared)
    return Uses(declared.type.names())


def lines_of(declared: Declaration, stem: str, context: Context) -> list[str]:
    """The items of a type."""
    home = home_of_terms(stem, context)
    if isinstance(declared, ListedDeclaration):
        return listed_lines(declared, context.crate)
    if isinstance(declared, UnionDeclaration):
        return union_lines(declared, context.names, home)
    if isinstance(declared, NewtypeDeclaration):
        return newtype_lines(declared)
    if isinstance(declared, AddedDeclaration):
        return added_lines(declared, context.names)
    if isinstance(declared, StructDeclaration):
        return struct_lines(declared, context.names)
    if isinstance(declared, ChoiceDeclaration):
        return choice_lines(declared, context.names, home)
    if isinstance(declared, EnumDeclaration):
        return enum_lines(declared, home)
    return set_lines(declared) if isinstance(declared, SetDeclaration) else alias_lines(declared)


def promises(declared: Declaration, stem: str, context: Context) -> list[tuple[Uses, list[str]]]:
    """What says that a type's `==` is sameness of encodings, and that a value of it is readable; and the `Clone` that isn't derived.

    A name of another type has what that has, and members that were added are no type.
    """
    copied = [(copies_uses(declared), clone_impl(declared))] if "Clone" in context.derives and is_copied(declared) else []
    is_name = isinstance(declared, AliasDeclaration) and not isinstance(declared, NewtypeDeclaration)
    is_kept = isinstance(declared, UnionDeclaration) or isinstance(declared, ListedDeclaration) and is_encoded(declared)
    if isinstance(declared, (AddedDeclaration, SetDeclaration)) or is_name or is_kept:
        return copied
    inner = context.names.of(declared, "Parts") if isinstance(declared, (StructDeclaration, ChoiceDeclaration)) else ""
    terms = f"Rattle.{context.crate}.specs.{TERMS_FILE}"
    found = [(faithful_uses(declared, terms), faithful_impl(declared, inner, home_of_terms(stem, context)))]
    if isinstance(declared, EnumDeclaration):
        found += [(faithful_default_uses(), faithful_default_impl(it, declared.name)) for it in declared.defaults]
    is_inhabited = has_example(declared, context.types)
    return [*copied, *found, *([(inhabited_uses(), inhabited_impl(declared.name))] if is_inhabited else [])]


def home_of_terms(stem: str, context: Context) -> str:
    """The module of terms of the types of a file."""
    return f"Rattle.{context.crate}.specs.declared.{stem}"


def alias_lines(declared: AliasDeclaration) -> list[str]:
    """A name of another type."""
    return [
        *comment("", "///", f"{sentence(declared.comment)} `{declared.source}` of {declared.module}: `{declared.notation}`."),
        *difference_note(declared),
        *assigned("", f"pub type {declared.name} =", str(declared.type), ";"),
    ]
