"""What says that the `==` of a type is sameness of encodings, and that some value of it is readable."""
from typing import Union

from ..meaning.declarations import AddedDeclaration, ChoiceDeclaration, EnumDeclaration, NewtypeDeclaration, StructDeclaration
from .added import faithful_impl as added_faithful
from .choice import equal_alternatives, variants_import
from .enum import content_words, default_proof, default_term, respects_proof
from .imports import PRELUDE, Uses
from .layout import GHOST_WIDTH, STEP

_TWO = STEP * 2
_FAITHFUL = "Rattle.picky_der_de.specs.Faithful"
_SAMENESS = "Rattle.der_types.specs.Sameness"
_EXAMPLES = "Rattle.der_types.specs.SampleTrees"

# what has an implementation of its own: no name of another type
Own = Union[StructDeclaration, ChoiceDeclaration, EnumDeclaration, NewtypeDeclaration]


def faithful_uses(declared: Own, terms: str) -> Uses:
    """What the implementation of `Faithful` names. `terms` is the module of the terms of enumerations."""
    if isinstance(declared, AddedDeclaration):
        return Uses({"FaithfulMembers"}, terms={_FAITHFUL: {"members_at"}})
    if isinstance(declared, StructDeclaration):
        return Uses({"Faithful", "FaithfulMembers"}, terms={_FAITHFUL: {"struct_sameness"}})
    if isinstance(declared, ChoiceDeclaration):
        return Uses({"Faithful", "FaithfulAlternatives"}, terms={_FAITHFUL: {"choice_sameness"}})
    if isinstance(declared, EnumDeclaration):
        return Uses({"Faithful"}, terms={_SAMENESS: {"content_sameness"}, terms: {respects_proof(declared)}})
    return Uses({"Faithful"}, terms={_SAMENESS: {"newtype_sameness"}})


def faithful_impl(declared: Own, inner: str, home: str) -> list[str]:
    """The implementation of `Faithful`. The members of a struct, or the alternatives of a choice, have the type `inner`.

    `home` is the module of terms of the types of the file.
    """
    if isinstance(declared, AddedDeclaration):
        return added_faithful(declared, inner)
    if isinstance(declared, StructDeclaration):
        words = [f"struct_sameness ⟦<{inner} as FaithfulMembers>⟧.sameness", "⟦<Self as Struct>⟧.parts"]
        return faithful(declared.shown, sameness_lines(words), declared.generics.declared("Faithful"))
    if isinstance(declared, ChoiceDeclaration):
        sameness = f"choice_sameness ⟦<{inner} as FaithfulAlternatives>⟧.sameness ⟦<Self as Choice>⟧.parts ⟦<Self as PartialEq>⟧.eq"
        lines = [f"{STEP}ghost sameness = {{ {sameness}", f"{_TWO}({equal_alternatives(declared)}) }};"]
        return faithful(declared.name, [*variants_import(declared, home), *lines])
    if isinstance(declared, EnumDeclaration):
        words = [f"content_sameness {content_words(declared)}", "⟦<Self as PartialEq>⟧.eq", respects_proof(declared)]
        return faithful(declared.name, sameness_lines(words))
    facts = [f"⟦<{declared.type} as {trait}>⟧.{it}" for trait, it in (("Faithful", "sameness"), ("PartialEq", "eq"), ("Serialize", "meaning"))]
    return faithful(declared.name, sameness_lines([f"newtype_sameness {' '.join(facts)}", f"(λ it. it.{declared.part})"]))


def sameness_lines(words: list[str]) -> list[str]:
    """What is owed, on one line if that fits, or with the first words alone on their line."""
    line = f"{STEP}ghost sameness = {{ {' '.join(words)} }};"
    return [line] if len(line) <= GHOST_WIDTH else [f"{STEP}ghost sameness = {{ {words[0]}", f"{_TWO}{' '.join(words[1:])} }};"]


def faithful(name: str, sameness: list[str], generics: str = "") -> list[str]:
    """An implementation of `Faithful`, for all types of these generics, with these lines of what is owed."""
    return [f"impl{generics} Faithful for {name} {{", *sameness, "", f"{STEP}ghost respects = {{ Prim.assumption }};", "}"]


def faithful_default_uses() -> Uses:
    """What the implementation of `FaithfulDefault` names."""
    return Uses({"FaithfulDefault"}, terms={_SAMENESS: {"default_sameness"}})


def faithful_default_impl(name: str, of: str) -> list[str]:
    """The implementation of `FaithfulDefault` for the type that says the default of a member of the type `of`."""
    return [
        f"impl FaithfulDefault<{of}> for {name} {{",
        f"{STEP}ghost sameness = {{ default_sameness ⟦<{of} as PartialEq>⟧.eq ⟦<{of} as Serialize>⟧.meaning {default_term(name)}",
        f"{_TWO}{default_proof(name)} ⟦<{of} as Faithful>⟧.sameness }};",
        "",
        f"{STEP}ghost respects = {{ Prim.assumption }};",
        "}",
    ]


def inhabited_uses() -> Uses:
    """What the implementation of `Inhabited` names."""
    return Uses({"Inhabited"}, terms={PRELUDE: {"refl"}, _EXAMPLES: {"exact_example"}})


def inhabited_impl(name: str) -> list[str]:
    """The implementation of `Inhabited` for a type with `Exact`: a tree of its notation is found when the program is checked."""
    return [
        f"impl Inhabited for {name} {{",
        f"{STEP}ghost example = {{ exact_example ⟦<Self as Exact>⟧.values ⟦<Self as Notated>⟧.notation ⟦<Self as Serialize>⟧.meaning refl Prim.assumption }};",
        "}",
    ]
