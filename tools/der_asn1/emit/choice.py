"""A choice, in the form of docs/YOUR_TYPES.md, with the proof of what it writes."""
from collections.abc import Sequence

from ..meaning.declarations import ChoiceDeclaration, Declaration, Field
from ..meaning.library import FOUR, parts_type
from ..meaning.rust_types import RustType
from ..meaning.wording import snake
from .comments import difference_note, sentence
from .imports import PRELUDE, Uses
from .layout import GHOST_WIDTH, STEP, WIDTH, comment, signature, type_lines
from .many import Quoted, has_many, many_lines
from .private_names import PrivateNames

_TWO = STEP * 2
_THREE = STEP * 3
_FOUR_NAMES = ["First", "Second", "Third", "Fourth"]
_VARIANTS = "Rattle.picky_der_de.specs.declared.{}.TheVariants"
# the constructors of the alternatives, by their types, and the modules of terms that have them
_CONSTRUCTORS = {"OneOf": ("This", "Other"), "Choice4": (*_FOUR_NAMES, "Later")}
_CONSTRUCTOR_HOMES = {"OneOf": _VARIANTS.format("alternatives.OneOf"), "Choice4": _VARIANTS.format("choice4.Choice4")}

_NAMES = ["First", "Second", "Third", "Fourth"]
# how wide a line of imports of variants is, which are terms
_VARIANTS_WIDTH = 140

# variants that another name in the file hides, so that they are named by their choice
_HIDDEN = frozenset(["This", "Other", "Later", *_FOUR_NAMES, "Some", "None", "Ok", "Err"])

_EXACT = frozenset(("Exact", "ExactAlternatives", "choice_values"))
_NAMES = """ReadExt WriteExt Alternatives Choice Deserialize Deserializer NoneOf Result Serialize Serializer Begins
deserialize_choice_as Tag Notated NotatedAlternatives Exact ExactAlternatives""".split()


def place(index: int, count: int) -> list[str]:
    """The constructors around an alternative, the outermost first: in fours, and the last three one by one."""
    if count - index // FOUR * FOUR >= FOUR:
        return ["Later"] * (index // FOUR) + [_FOUR_NAMES[index % FOUR]]
    return ["Later"] * (index // FOUR) + ["Other"] * (index % FOUR) + ["This"]


def outside(count: int) -> list[str]:
    """The constructors around what is none of so many alternatives, the outermost first."""
    return ["Later"] * (count // FOUR) + ["Other"] * (count % FOUR)


def term(constructors: list[str], value: str) -> str:
    """A value in these constructors."""
    for index, it in enumerate(reversed(constructors)):
        value = f"{it} {value}" if index == 0 else f"{it} ({value})"
    return value


def pattern(constructors: list[str], value: str) -> str:
    """The same as a pattern of Rust."""
    for it in reversed(constructors):
        value = f"{it}({value})"
    return value


def choice_uses(declared: ChoiceDeclaration, is_exact: bool = True) -> Uses:
    """What the items of a choice name, with or without those of `Exact`."""
    types = [it.type for it in declared.variants]
    terms = {
        PRELUDE: {"refl"},
        "Rattle.picky_der_core.specs.Shape": {"Shape"},
        "Rattle.picky_der_de.specs.ChoiceFacts": {"choice_facts"},
        "Rattle.der_types.specs.Notation": {"Notation"},
        "Rattle.der_types.specs.ExactChoices": {"choice_values"},
    }
    found = Uses({*_NAMES}, by_type(_constructors(len(types))), terms)
    found.add(alternatives_uses(types, is_exact))
    return found if is_exact else found.without(_EXACT)


def alternatives_uses(types: list[RustType], is_exact: bool) -> Uses:
    """What terms of alternatives of these types name, with or without those of `Exact`."""
    count = len(types)
    around = _constructors(count).union(outside(count) if is_exact else [])
    return Uses({*parts_type(types).names()}, terms={_CONSTRUCTOR_HOMES[it]: found for it, found in by_type(around).items()})


def _constructors(count: int) -> set[str]:
    """The constructors of so many alternatives."""
    return {name for index in range(count) for name in place(index, count)}


def cases_of(variants: list[Field]) -> list[str]:
    """Each variant as one of the alternatives."""
    return [f"variants.{it.name} x ↦ {term(place(index, len(variants)), 'x')}" for index, it in enumerate(variants)]


def made_cases(variants: list[Field]) -> list[str]:
    """Each alternative as that of a variant, and none after the last."""
    count = len(variants)
    cases = [f"{term(place(at, count), 'x')} ↦ (variants.{it.name} x, refl)" for at, it in enumerate(variants)]
    return [*cases, f"{term(outside(count), 'x')} ↦ elim x [ ]"]


def by_type(constructors: set[str]) -> dict[str, set[str]]:
    """These constructors by the types that they are of."""
    return {it: constructors.intersection(own) for it, own in _CONSTRUCTORS.items() if constructors.intersection(own)}


def choice_lines(declared: ChoiceDeclaration, names: PrivateNames, home: str) -> list[str]:
    """The items of a choice. `home` is the module of terms of the types of its file."""
    parts, variants = names.of(declared, "Parts"), variants_import(declared, home)
    quoted = Quoted([it.type for it in declared.variants], declared, names)
    own = [*definition(declared), "", *quoted.lines, *choice_impls(declared, names, home), "", *notated_impl(declared, parts)]
    return [*own, "", *exact_impl(declared, parts, variants, quoted.types)]


def choice_impls(declared: ChoiceDeclaration, names: PrivateNames, home: str) -> list[str]:
    """What each choice has, but for its definition."""
    parts, variants = names.of(declared, "Parts"), variants_import(declared, home)
    return [
        *type_lines("", f"type {parts} = ", str(parts_type([it.type for it in declared.variants])), ";"),
        "",
        *choice_impl(declared, parts, variants),
        "",
        *serialize_impl(declared, parts),
        "",
        *deserialize_impl(declared, parts, variants),
        "",
        *begins_impl(declared, parts),
    ]


def variants_import(declared: Declaration, home: str) -> list[str]:
    """The import of the variants of a type, as `variants`, for an implementation that names them. `home` is the module of terms of its file.

    The module of variants imports the implementations of the types in them, and these import what their file does. So an import by the file
    would go in a circle.
    """
    return [f"{STEP}ghost use {home}.{declared.name}.TheVariants as variants;", ""]


def definition(declared: ChoiceDeclaration) -> list[str]:
    """The enum with its comments."""
    lines = comment("", "///", f"{sentence(declared.comment)} `{declared.source}` of {declared.module}, as a CHOICE.")
    lines += difference_note(declared)
    lines += ["#[derive(Debug, Drop, PartialEq, Eq)]", f"pub enum {declared.name} {{"]
    for it in declared.variants:
        lines += comment(STEP, "///", f"{sentence(it.comment)} `{it.notation}`.")
        lines += variant_lines(it)
    return [*lines, "}"]


def variant_lines(it: Field) -> list[str]:
    """A variant with its type."""
    line = f"{STEP}{it.name}({it.type}),"
    return [line] if len(line) <= WIDTH else [f"{STEP}{it.name}(", *type_lines(_TWO, "", str(it.type), ","), f"{STEP}),"]


def choice_impl(declared: ChoiceDeclaration, parts: str, imported: list[str]) -> list[str]:
    """The implementation of `Choice`."""
    variants, count = declared.variants, len(declared.variants)
    cases = cases_of(variants)
    line = f"{STEP}ghost parts = {{ elim [ {' | '.join(cases)} ] }};"
    lines = [line] if len(line) <= GHOST_WIDTH else [f"{STEP}ghost parts = {{ elim [", *(f"{STEP}  | {it}" for it in cases), f"{STEP}] }};"]
    arms = []
    for index, it in enumerate(variants):
        arms += arm(pattern(place(index, count), bound(it)), f"{declared.name}::{it.name}({bound(it)})")
    return [
        f"impl Choice for {declared.name} {{",
        *imported,
        f"{STEP}type Alternatives = {parts};",
        "",
        *lines,
        "",
        *signature(STEP, "from_parts", [f"value: {parts}"], declared.name),
        f"{_TWO}match value {{",
        *arms,
        f"{_TWO}}}",
        f"{STEP}}}",
        "}",
    ]


def bound(it: Field) -> str:
    """The variable that a variant's value is bound to, which isn't the one of the function."""
    return "it" if it.name == "Serializer" else snake(it.name)


def arm(before: str, after: str) -> list[str]:
    """An arm of a match."""
    line = f"{_THREE}{before} => {after},"
    return [line] if len(line) <= WIDTH else [f"{_THREE}{before} => {{", f"{_THREE}{STEP}{after}", f"{_THREE}}}"]


def serialize_impl(declared: ChoiceDeclaration, parts: str) -> list[str]:
    """The implementation of `Serialize`."""
    arms = []
    for it in declared.variants:
        arms += arm(f"{declared.name}::{it.name}({bound(it)})", f"serializer.serialize_choice({bound(it)})")
    value = f"(⟦<{declared.name} as Choice>⟧.parts v)"
    return [
        f"impl Serialize for {declared.name} {{",
        f"{STEP}ghost meaning = {{ λ v. ⟦<{parts} as Alternatives>⟧.meaning {value} }};",
        "",
        *signature(STEP, "serialize", ["&self", "serializer: &mut Serializer<W>"], "Result<usize>", "<W: WriteExt>"),
        f"{_TWO}match self {{",
        *arms,
        f"{_TWO}}}",
        f"{STEP}}}",
        "}",
    ]


def answers_path(declared: ChoiceDeclaration, stem: str) -> str:
    """The path of the proof of `serialize`. `stem` is the name of the file of the choice."""
    return f"proofs/{stem}/{declared.name}Serialize/serialize/Answers.antt"


def serialize_answers(declared: ChoiceDeclaration, crate: str, stem: str) -> list[str]:
    """The lines of the proof of `serialize`, by alternative: what a call of `serialize_choice` ensures is what the choice owes.

    The prover finds such a proof by itself for most alternatives, but not for each struct of structs. It names the first call
    `serialize_choice`, and each other one by its alternative. With one alternative there is nothing to write.
    """
    if len(declared.variants) == 1:
        return []
    lines = [f"use Rattle.{crate}.proofs.{stem}.{declared.name}Serialize.serialize.Goals as goal"]
    for index, it in enumerate(declared.variants):
        call = f"serialize_choice-in-{it.name}" if index else "serialize_choice"
        for clause in ("wrote", "failed"):
            name = f"returns-in-{it.name}-clause-{clause}"
            lines += ["", f"pub {name} : goal.{name}", f"{name} g c = rw c.in-{it.name}.is c.{call}.ensures.{clause}"]
    return lines


def deserialize_impl(declared: ChoiceDeclaration, parts: str, imported: list[str]) -> list[str]:
    """The implementation of `Deserialize`."""
    facts = f"choice_facts ⟦<{parts} as Alternatives>⟧.facts refl ⟦<Self as Choice>⟧.parts ⟦<Self as PartialEq>⟧.eq"
    return [
        f"impl Deserialize for {declared.name} {{",
        *imported,
        f"{STEP}ghost shape = {{ Shape.choice ⟦<{parts} as Alternatives>⟧.shapes }};",
        "",
        f"{STEP}ghost facts = {{ {facts}",
        f"{_TWO}({equal_alternatives(declared)}) }};",
        "",
        f"{STEP}ghost proved = {{ Prim.assumption }};",
        "",
        *signature(STEP, "deserialize", ["deserializer: &mut Deserializer<R>"], f"Result<{declared.name}>", "<R: ReadExt>"),
        f"{_TWO}deserialize_choice_as(deserializer)",
        f"{STEP}}}",
        "}",
    ]


def equal_alternatives(declared: ChoiceDeclaration) -> str:
    """The term by which values of one alternative are equal where their fields are: it names the first variant alone."""
    first = f"variants.{declared.variants[0].name} _"
    if len(declared.variants) == 1:
        return f"elim [ {first} ↦ elim [ {first} ↦ λ h. h ] ]"
    pair = f"elim [ {first} ↦ λ h. h | _ ↦ λ h. h ]"
    return f"elim [ {first} ↦ {pair} | _ ↦ {pair} ]"


def notated_impl(declared: ChoiceDeclaration, parts: str) -> list[str]:
    """The implementation of `Notated`: a CHOICE of what the alternatives are."""
    return [
        f"impl Notated for {declared.name} {{",
        f"{STEP}ghost notation = {{ Notation.choice ⟦<{parts} as NotatedAlternatives>⟧.alternatives_notation }};",
        "",
        f"{STEP}ghost denoted = {{ refl }};",
        "}",
    ]


def exact_impl(declared: ChoiceDeclaration, parts: str, imported: list[str], types: Sequence[str] = ()) -> list[str]:
    """The implementation of `Exact`: its alternatives are exact, and each of them is that of a value. With `types` they are taken one by one."""
    begin = f"{STEP}ghost values = {{ choice_values"
    is_long = has_many(declared) and types
    return [
        f"impl Exact for {declared.name} {{",
        *imported,
        *([begin, *many_lines(types, "NoneOf")] if is_long else [f"{begin} ⟦<{parts} as ExactAlternatives>⟧.chosen_values"]),
        f"{_TWO}⟦<{parts} as NotatedAlternatives>⟧.alternatives_notation ⟦<{parts} as Alternatives>⟧.chosen ⟦<Self as Choice>⟧.parts",
        f"{_TWO}(elim [",
        *(f"{_TWO}  | {it}" for it in made_cases(declared.variants)),
        f"{_TWO}]) }};",
        "",
        f"{STEP}ghost exact = {{ Prim.assumption }};",
        "}",
    ]


def begins_impl(declared: ChoiceDeclaration, parts: str) -> list[str]:
    """What a choice needs to be a member that may be absent, or an alternative."""
    return [
        f"impl Begins for {declared.name} {{",
        f"{STEP}fn begins_with(tag: Tag) -> bool {{",
        f"{_TWO}<{parts} as Alternatives>::begins_with(tag)",
        f"{STEP}}}",
        "}",
    ]
