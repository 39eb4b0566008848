"""A struct of its own round another type, in the form of docs/YOUR_TYPES.md."""
from ..meaning.declarations import NewtypeDeclaration
from .comments import difference_note, sentence
from .imports import PRELUDE, Uses
from .layout import STEP, WIDTH, comment, signature

_TWO = STEP * 2

_TERMS = {
    PRELUDE: {"refl"},
    "Rattle.picky_der_de.specs.Facts": {"facts_as"},
    "Rattle.der_types.specs.Exact": {"newtype_values"},
}
_NAMES = "ReadExt WriteExt Via Deserialize Deserializer Result Serialize Serializer deserialize_as Begins Tag Notated Exact".split()


def newtype_uses(declared: NewtypeDeclaration) -> Uses:
    """What the items of a struct round another type name."""
    return Uses({*_NAMES, *declared.type.names()}, terms=_TERMS)


def newtype_lines(declared: NewtypeDeclaration) -> list[str]:
    """The items of a struct round another type."""
    return [*definition(declared), "", *newtype_impls(declared), "", *notated_impl(declared), "", *exact_impl(declared)]


def newtype_impls(declared: NewtypeDeclaration) -> list[str]:
    """What each struct round another type has, but for its definition."""
    return [
        *serialize_impl(declared),
        "",
        *alike_impl(declared),
        "",
        *deserialize_impl(declared),
        "",
        *begins_impl(declared),
    ]


def quoted(declared: NewtypeDeclaration, trait: str) -> str:
    """The implementation of a trait for the type inside, in a term."""
    return f"⟦<{declared.type} as {trait}>⟧"


def definition(declared: NewtypeDeclaration) -> list[str]:
    """The struct with its comments."""
    lines = comment("", "///", f"{sentence(declared.comment)} `{declared.source}` of {declared.module}: `{declared.notation}`.")
    lines += difference_note(declared)
    lines += ["#[derive(Debug, Drop, PartialEq, Eq)]"]
    line = f"pub struct {declared.name}(pub {declared.type});"
    return [*lines, line] if len(line) <= WIDTH else [*lines, f"pub struct {declared.name}(", f"{STEP}pub {declared.type},", ");"]


def serialize_impl(declared: NewtypeDeclaration) -> list[str]:
    """The implementation of `Serialize`: as the type inside."""
    return [
        f"impl Serialize for {declared.name} {{",
        f"{STEP}ghost meaning = {{ λ it. {quoted(declared, 'Serialize')}.meaning it.{declared.part} }};",
        "",
        *signature(STEP, "serialize", ["&self", "serializer: &mut Serializer<W>"], "Result<usize>", "<W: WriteExt>"),
        f"{_TWO}self.{declared.part}.serialize(serializer)",
        f"{STEP}}}",
        "}",
    ]


def alike_impl(declared: NewtypeDeclaration) -> list[str]:
    """The implementation of `Via`, whose twin is the type inside."""
    return [
        f"impl Via for {declared.name} {{",
        f"{STEP}type As = {declared.type};",
        "",
        f"{STEP}ghost parts = {{ λ it. it.{declared.part} }};",
        "",
        *signature(STEP, "from_parts", [f"value: {declared.type}"], declared.name),
        f"{_TWO}{declared.name}(value)",
        f"{STEP}}}",
        "}",
    ]


def deserialize_impl(declared: NewtypeDeclaration, function: str = "deserialize_as", tested: bool = False) -> list[str]:
    """The implementation of `Deserialize`: as the type inside, by this function."""
    inner = f"{quoted(declared, 'Deserialize')}.facts"
    facts = f"tested_facts {inner} {quoted(declared, 'Serialize')}.meaning" if tested else f"facts_as {inner}"
    return [
        f"impl Deserialize for {declared.name} {{",
        f"{STEP}ghost shape = {{ {quoted(declared, 'Deserialize')}.shape }};",
        "",
        f"{STEP}ghost facts = {{ {facts} (λ it. it.{declared.part}) }};",
        "",
        f"{STEP}ghost proved = {{ Prim.assumption }};",
        "",
        *signature(STEP, "deserialize", ["deserializer: &mut Deserializer<R>"], f"Result<{declared.name}>", "<R: ReadExt>"),
        f"{_TWO}{function}(deserializer)",
        f"{STEP}}}",
        "}",
    ]


def begins_impl(declared: NewtypeDeclaration) -> list[str]:
    """What it needs to be a member that may be absent, or an alternative."""
    return [
        f"impl Begins for {declared.name} {{",
        f"{STEP}fn begins_with(tag: Tag) -> bool {{",
        f"{_TWO}<{declared.type} as Begins>::begins_with(tag)",
        f"{STEP}}}",
        "}",
    ]


def notated_impl(declared: NewtypeDeclaration) -> list[str]:
    """The implementation of `Notated`: the type of ASN.1 that the type inside is."""
    return [
        f"impl Notated for {declared.name} {{",
        f"{STEP}ghost notation = {{ {quoted(declared, 'Notated')}.notation }};",
        "",
        f"{STEP}ghost denoted = {{ refl }};",
        "}",
    ]


def exact_impl(declared: NewtypeDeclaration) -> list[str]:
    """The implementation of `Exact`: the type inside is exact."""
    facts = " ".join(f"{quoted(declared, trait)}.{name}" for trait, name in (("Exact", "values"), ("Notated", "notation"), ("Serialize", "meaning")))
    return [
        f"impl Exact for {declared.name} {{",
        f"{STEP}ghost values = {{ newtype_values {facts}",
        f"{_TWO}(λ it. it.{declared.part}) (λ x. (record {{ {declared.part} = x }}, refl)) }};",
        "",
        f"{STEP}ghost exact = {{ Prim.assumption }};",
        "}",
    ]
