"""A type that is one of several, which the whole element distinguishes: rows of a table, parts of a constraint, or later alternatives.

It is written and read as any element, of which each type is tried in turn. `Encoded` of der_types has the element with its value.
"""
from ..meaning.declarations import Field, UnionDeclaration
from ..meaning.library import parts_type
from ..meaning.rust_types import RustType, of
from .choice import alternatives_uses, cases_of, made_cases, variant_lines, variants_import
from .comments import difference_note, sentence
from .imports import PRELUDE, Uses
from .layout import STEP, comment, signature, type_lines
from .many import Quoted, has_many, many_lines
from .private_names import PrivateNames

# the file of the function that tries a type, and its name
ELEMENTS, TRIED = "elements", "encoded_if"
_TWO, _THREE = STEP * 2, STEP * 3
_NAMES = """TryVia Asn1DerError Asn1RawDer Deserialize Deserializer Result Serialize Serializer try_deserialize_as Begins Tag Faithful
ReadExt WriteExt Encoded""".split()
_TERMS = {
    "Rattle.std.proofs.Common": {"rules"},
    PRELUDE: {"◌≡◌"},
    "Rattle.std.specs.Cmp.Rules": {"comparing"},
    "Rattle.std.specs.Ordering": {"on"},
    "Rattle.picky_der_de.specs.Facts": {"tested_facts"},
    "Rattle.der_types.specs.Sameness": {"newtype_sameness"},
}

_FILE = """
Elements of which several types are tried.
ghost use Rattle.std.specs.Prelude.{◌≡◌, IfErr, IfNone, IfOk, IfSome};
ghost use Rattle.picky_der_de.specs.Twins.{IsNoValue};

use der_types::Encoded;
use picky_asn1_der::{Asn1DerError, Asn1RawDer, Deserialize, Result, Serialize, TryVia};

// The element with its value, or `None` if it isn't the encoding of a `T`. `OutOfMemory` if an allocation fails.
pub fn encoded_if<T: Deserialize>(element: &Asn1RawDer) -> Result<Option<Encoded<T>>>
    ensures some { IfOk result (λ found. IfSome found (λ it. ⟦<Asn1RawDer as Serialize>⟧.meaning it.encoding
        ≡ ⟦<Asn1RawDer as Serialize>⟧.meaning element.now)) }
    ensures none { IfOk result (λ found. IfNone found (IsNoValue ⟦<Asn1RawDer as Serialize>⟧.meaning
        ⟦<Encoded<T> as TryVia>⟧.parts element.now Asn1DerError.InvalidData)) }
    ensures err { IfErr result (λ e. e ≡ Asn1DerError.OutOfMemory) }
{
    match Encoded::from_encoding(element.clone()?) {
        Ok(it) => Ok(Some(it)),
        Err(error) => match error {
            Asn1DerError::OutOfMemory => Err(Asn1DerError::OutOfMemory),
            _ => Ok(None),
        },
    }
}
"""


def elements_file() -> list[str]:
    """The lines of the file of the function that tries a type, after its first one."""
    about, *lines = _FILE.strip("\n").split("\n")
    return [f"//! {about}", *lines]


def encoded(it: Field) -> Field:
    """A variant whose value is kept with its element."""
    return Field(it.name, of("Encoded", it.type), notation=it.notation, comment=it.comment)


def parts(name: str) -> str:
    """The element of a value, as a term."""
    return f"⟦<{name} as TryVia>⟧.parts"


def of_element(trait: str, name: str) -> str:
    """What any element has of a trait, as a term."""
    return f"⟦<Asn1RawDer as {trait}>⟧.{name}"


def union_uses(declared: UnionDeclaration) -> Uses:
    """What the items of such a type name."""
    found = element_uses({name for it in declared.variants for name in it.type.names()})
    found.add(alternatives_uses([encoded(it).type for it in declared.variants], is_exact=True))
    found.add(Uses({"Notated", "Exact", "Alternatives", "NotatedAlternatives", "ExactAlternatives", "NoneOf"}, terms={PRELUDE: {"refl"}}))
    found.add(Uses(terms={"Rattle.der_types.specs.Notation": {"Notation"}, "Rattle.der_types.specs.ExactEncoded": {"element_values"}}))
    return found


def element_uses(names: set[str]) -> Uses:
    """What the items of a type name that is read as any element, with these names of its parts."""
    return Uses({*_NAMES, TRIED, *names}, terms={home: set(found) for home, found in _TERMS.items()})


def union_lines(declared: UnionDeclaration, names: PrivateNames, home: str) -> list[str]:
    """The items of such a type. `home` is the module of terms of the types of its file."""
    own, quoted = names.of(declared, "Parts"), Quoted(part_types(declared), declared, names)
    items = [
        definition(declared),
        [*type_lines("", f"type {own} = ", str(parts_type(part_types(declared))), ";"), *quoted.lines],
        own_impl(declared),
        equal_impl(declared.name, parts(declared.name), "encoding()"),
        serialize_impl(declared.name, "encoding()"),
        try_via_impl(declared, home),
        *element_impls(declared.name),
        notated_impl(declared, own),
        exact_impl(declared, own, home, quoted),
    ]
    return [line for number, it in enumerate(items) for line in ([""] if number else []) + it]


def element_impls(name: str) -> list[list[str]]:
    """What each type has that is read as any element and converted by `TryVia`."""
    return [deserialize_impl(name), begins_impl(name), faithful_impl(name)]


def definition(declared: UnionDeclaration) -> list[str]:
    """The enum with its comments."""
    what = "one of several types, each with its element. Any other element is `InvalidData`."
    lines = comment("", "///", f"{sentence(declared.comment)} `{declared.source}` of {declared.module}, as {what}")
    lines += difference_note(declared)
    lines += ["#[derive(Debug, Drop)]", f"pub enum {declared.name} {{"]
    for it in declared.variants:
        lines += comment(STEP, "///", f"{sentence(it.comment)} `{it.notation}`.")
        lines += variant_lines(encoded(it))
    return [*lines, "}"]


def own_impl(declared: UnionDeclaration) -> list[str]:
    """The element of a value as a function."""
    return [
        f"impl {declared.name} {{",
        f"{STEP}/// Returns its element.",
        f"{STEP}pub fn encoding(&self) -> &Asn1RawDer",
        f"{_TWO}ensures {{ result.now ≡ {parts(declared.name)} self.now }}",
        f"{STEP}{{",
        f"{_TWO}match self {{",
        *(f"{_THREE}{declared.name}::{it.name}(it) => it.encoding()," for it in declared.variants),
        f"{_TWO}}}",
        f"{STEP}}}",
        "}",
    ]


def equal_impl(name: str, part: str, element: str) -> list[str]:
    """Two are equal exactly if their elements are, which are this term, and this in code."""
    return [
        f"impl PartialEq for {name} {{",
        f"{STEP}ghost eq = {{ on {part} {of_element('PartialEq', 'eq')} }};",
        "",
        f"{STEP}ghost laws = {{ Prim.search (comparing, rules) }};",
        "",
        f"{STEP}fn eq(&self, other: &{name}) -> bool {{",
        f"{_TWO}self.{element} == other.{element}",
        f"{STEP}}}",
        "}",
        "",
        f"impl Eq for {name} {{",
        f"{STEP}ghost laws = {{ Prim.search (comparing, rules) }};",
        "}",
    ]


def serialize_impl(name: str, element: str) -> list[str]:
    """The implementation of `Serialize`: its element, which is this in code."""
    return [
        f"impl Serialize for {name} {{",
        f"{STEP}ghost meaning = {{ λ it. {of_element('Serialize', 'meaning')} ({parts(name)} it) }};",
        "",
        *signature(STEP, "serialize", ["&self", "serializer: &mut Serializer<W>"], "Result<usize>", "<W: WriteExt>"),
        f"{_TWO}self.{element}.serialize(serializer)",
        f"{STEP}}}",
        "}",
    ]


def try_via_impl(declared: UnionDeclaration, home: str) -> list[str]:
    """The implementation of `TryVia`, whose twin is any element: each type is tried in turn."""
    cases = [f"variants.{it.name} x ↦ x.encoding" for it in declared.variants]
    tries = [
        line
        for it in declared.variants
        for line in (f"{_TWO}if let Some(it) = {TRIED}(&element)? {{", f"{_THREE}return Ok({declared.name}::{it.name}(it));", f"{_TWO}}}")
    ]
    return [
        f"impl TryVia for {declared.name} {{",
        *variants_import(declared, home),
        f"{STEP}type As = Asn1RawDer;",
        "",
        f"{STEP}ghost parts = {{ elim [",
        *(f"{STEP}  | {it}" for it in cases),
        f"{STEP}] }};",
        "",
        *signature(STEP, "try_from_parts", ["element: Asn1RawDer"], f"Result<{declared.name}>"),
        *tries,
        f"{_TWO}Err(Asn1DerError::InvalidData)",
        f"{STEP}}}",
        "}",
    ]


def deserialize_impl(name: str) -> list[str]:
    """The implementation of `Deserialize`: any element, which is tried."""
    return [
        f"impl Deserialize for {name} {{",
        f"{STEP}ghost shape = {{ {of_element('Deserialize', 'shape')} }};",
        "",
        f"{STEP}ghost facts = {{ tested_facts {of_element('Deserialize', 'facts')} {of_element('Serialize', 'meaning')}",
        f"{_TWO}{parts(name)} }};",
        "",
        f"{STEP}ghost proved = {{ Prim.assumption }};",
        "",
        *signature(STEP, "deserialize", ["deserializer: &mut Deserializer<R>"], f"Result<{name}>", "<R: ReadExt>"),
        f"{_TWO}try_deserialize_as(deserializer)",
        f"{STEP}}}",
        "}",
    ]


def begins_impl(name: str) -> list[str]:
    """It begins as any element does."""
    return [
        f"impl Begins for {name} {{",
        f"{STEP}fn begins_with(tag: Tag) -> bool {{",
        f"{_TWO}<Asn1RawDer as Begins>::begins_with(tag)",
        f"{STEP}}}",
        "}",
    ]


def part_types(declared: UnionDeclaration) -> list[RustType]:
    """The types of the variants, each with its element."""
    return [encoded(it).type for it in declared.variants]


def notated_impl(declared: UnionDeclaration, own: str) -> list[str]:
    """The implementation of `Notated`: an element of one of the types."""
    return [
        f"impl Notated for {declared.name} {{",
        f"{STEP}ghost notation = {{ Notation.element-of ⟦<{own} as NotatedAlternatives>⟧.alternatives_notation }};",
        "",
        f"{STEP}ghost denoted = {{ refl }};",
        "}",
    ]


def exact_impl(declared: UnionDeclaration, own: str, home: str, quoted: Quoted) -> list[str]:
    """The implementation of `Exact`: each type is, and an element of one of them is that of a value."""
    begin = f"{STEP}ghost values = {{ element_values"
    lists = [
        cases_of(declared.variants),
        made_cases(declared.variants),
        [f"variants.{it.name} x ↦ refl" for it in declared.variants],
    ]
    cases = [
        [f"{_TWO}(elim [", *(f"{_TWO}  | {it}" for it in one), f"{_TWO}])"]
        for one in lists
    ]
    last = cases[-1]
    return [
        f"impl Exact for {declared.name} {{",
        *variants_import(declared, home),
        *([begin, *many_lines(quoted.types, "NoneOf")] if has_many(declared) else [f"{begin} ⟦<{own} as ExactAlternatives>⟧.chosen_values"]),
        f"{_TWO}⟦<{own} as NotatedAlternatives>⟧.alternatives_notation ⟦<{own} as Alternatives>⟧.chosen",
        f"{_TWO}(λ it. ({parts(declared.name)} it).0.items)",
        *cases[0],
        *cases[1],
        *last[:-1],
        f"{last[-1]} }};",
        "",
        f"{STEP}ghost exact = {{ Prim.assumption }};",
        "}",
    ]


def faithful_impl(name: str) -> list[str]:
    """The implementation of `Faithful`: values with one element have one encoding."""
    facts = " ".join(of_element(trait, it) for trait, it in (("Faithful", "sameness"), ("PartialEq", "eq"), ("Serialize", "meaning")))
    return [
        f"impl Faithful for {name} {{",
        f"{STEP}ghost sameness = {{ newtype_sameness {facts}",
        f"{_TWO}{parts(name)} }};",
        "",
        f"{STEP}ghost respects = {{ Prim.assumption }};",
        "}",
    ]
