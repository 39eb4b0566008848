"""An enumeration, with the terms that its contracts cite, in the form of docs/YOUR_TYPES.md."""
from ..meaning.declarations import EnumDeclaration, Item
from ..meaning.wording import snake
from .choice import variants_import
from .comments import sentence
from .imports import PRELUDE, Uses
from .layout import GHOST_WIDTH, STEP, comment, signature
from .private_names import PrivateNames

_TWO = STEP * 2
_THREE = STEP * 3

_CONTENTS = "Rattle.der_types.specs.ContentsFacts"
_ENUMERATED = "Rattle.der_types.specs.ExactEnumerated"
_OWN_CONTENTS = "Rattle.der_types.specs.ExactContents"
_DEFAULTS = "Rattle.der_types.specs.ExactDefaults"
_TERMS = {
    "Rattle.std.proofs.Common": {"lit≤"},
    PRELUDE: {"◌≡◌", "[]", "◌∷◌", "refl"},
    "Rattle.picky_der_core.specs.Equality": {"IsKept"},
    _CONTENTS: {"contents_of", "contents_shape", "contents_facts"},
    "Rattle.der_types.specs.Notation": {"Notation"},
}

# the file of the terms of all enumerations, and what it imports
TERMS_FILE = "Enumerations"
_PRELUDE_ORDER = ["ℕ", "Bool", "true", "false", "◌||◌", "◌==◌", "nat_lt", "List", "[]", "◌∷◌", "◌≡◌", "refl"]
_PROOF_IMPORTS = """use Rattle.std.proofs.Common.{ap, eqb-true, sym, ◌∙◌}
use Rattle.std.proofs.lemmas.Bool.{eq-eqb}
""".splitlines()
_DEFAULT_IMPORTS = """use Rattle.picky_der_ser.specs.Defaults.{IsByTree}
use Rattle.der_types.specs.ContentsFacts.{contents_of}
""".splitlines()
# that two items are the default exactly if their trees are the same
_SAME, _OTHER = "(λ k. refl, λ e. refl)", "(λ k. cc, λ e. cc)"

# what a tag is the one of: words for a comment, the name of the tag in Rust, and the form of the notation
_FORMS = {
    0x02: ("an INTEGER with a name for each number", "INTEGER", "INTEGER-named"),
    0x0A: ("an ENUMERATED", "ENUMERATED", "ENUMERATED"),
}
# the term by which its values are exactly those with the numbers of its items
_VALUES = {0x02: "named_values", 0x0A: "enumerated_values"}

_NAMES = """Contents Notated Exact ExactContents deserialize_contents_as Tag Begins ReadExt WriteExt Deserialize Deserializer Result
Serialize Serializer""".split()


def tag_text(declared: EnumDeclaration) -> str:
    """The tag of its encoding."""
    return f"0x{declared.tag:02X}"


def content_term(declared: EnumDeclaration) -> str:
    """The term of the content of a value."""
    return f"(λ it. {number_term(declared)} it ∷ [])"


def number_term(declared: EnumDeclaration) -> str:
    """The name of the term that is the number of a value."""
    return f"{snake(declared.name)}_number"


def test_term(declared: EnumDeclaration) -> str:
    """The name of the term that is the test of a content."""
    return f"is_{snake(declared.name)}"


def same_proof(declared: EnumDeclaration) -> str:
    """The name of the proof that values with one content are equal."""
    return f"same_{snake(declared.name)}"


def respects_proof(declared: EnumDeclaration) -> str:
    """The name of the proof that equal values have one content."""
    return f"{snake(declared.name)}_respects"


def content_words(declared: EnumDeclaration) -> str:
    """The tag and the term of the content of a value."""
    return f"{tag_text(declared)} {content_term(declared)}"


def default_term(name: str) -> str:
    """The name of the term that is the test of a default."""
    return f"is_default_{snake(name)}"


def default_proof(name: str) -> str:
    """The name of the proof that the encoding distinguishes the default."""
    return f"{snake(name)}_by_tree"


def enum_uses(declared: EnumDeclaration, crate: str, file: str = TERMS_FILE) -> Uses:
    """What the items of an enumeration name. `file` is the file of its terms."""
    uses = Uses({*_NAMES}, terms={f"Rattle.{crate}.specs.{file}": own_terms(declared) - {respects_proof(declared)}})
    uses.add(Uses(terms=_TERMS))
    uses.add(Uses(terms={_ENUMERATED: {_VALUES[declared.tag]}, _OWN_CONTENTS: {"own_contents"}}))
    if declared.defaults:
        terms = {"Rattle.std.proofs.Common": {"sym"}, _DEFAULTS: {"item_default"}}
        uses.add(Uses({"DefaultOf", "NotatedDefault", "ExactDefault"}, terms=terms))
    return uses


def enum_lines(declared: EnumDeclaration, home: str) -> list[str]:
    """The items of an enumeration. `home` is the module of terms of the types of its file."""
    imported = variants_import(declared, home)
    return [
        *definition(declared),
        "",
        *enum_impls(declared, home),
        "",
        *notated_impl(declared, imported),
        "",
        *exact_impl(declared, imported),
        *(line for name, it in declared.defaults.items() for line in ["", *default_lines(declared, name, it, imported)]),
    ]


def enum_impls(declared: EnumDeclaration, home: str) -> list[str]:
    """What each enumeration has, but for its definition."""
    return [
        *own_impl(declared),
        "",
        *contents_impl(declared, variants_import(declared, home)),
        "",
        *serialize_impl(declared),
        "",
        *deserialize_impl(declared),
        "",
        *begins_impl(declared),
    ]


def definition(declared: EnumDeclaration) -> list[str]:
    """The enum with its comments: the module's comments, and the number of each item."""
    form, _, _ = _FORMS[declared.tag]
    text = f"{sentence(declared.comment)} `{declared.source}` of {declared.module}, as {form}. Every other content is refused with `InvalidData`."
    lines = [*comment("", "///", text), "#[derive(Debug, Clone, Copy, PartialEq, Eq)]", f"pub enum {declared.name} {{"]
    for it in declared.items:
        lines += comment(STEP, "///", f"{sentence(it.comment)} `{it.source}`, {it.number}.")
        lines.append(f"{STEP}{it.name},")
    return [*lines, "}"]


def own_impl(declared: EnumDeclaration) -> list[str]:
    """The law of copies, and the number of a value as a function."""
    return [
        f"impl {declared.name} {{",
        f"{STEP}/// A copy is the same.",
        f"{STEP}pub fn copies()",
        f"{_TWO}ensures {{ IsKept ⟦<{declared.name} as Clone>⟧.is_clone (λ it. it) }}",
        f"{STEP}{{}}",
        "",
        f"{STEP}// The number of the value.",
        f"{STEP}fn number(self) -> u8",
        f"{_TWO}ensures {{ result ≡ {number_term(declared)} self }}",
        f"{STEP}{{",
        f"{_TWO}match self {{",
        *(f"{_THREE}{declared.name}::{it.name} => {it.number}," for it in declared.items),
        f"{_TWO}}}",
        f"{STEP}}}",
        "}",
    ]


def contents_impl(declared: EnumDeclaration, imported: list[str]) -> list[str]:
    """The implementation of `Contents`."""
    return [
        f"impl Contents for {declared.name} {{",
        *imported,
        f"{STEP}ghost TAG = {{ {tag_text(declared)} }};",
        "",
        f"{STEP}ghost is_content = {{ {test_term(declared)} }};",
        "",
        f"{STEP}ghost content = {{ λ it. {number_term(declared)} it ∷ [] }};",
        "",
        f"{STEP}ghost equal = {{ ⟦<Self as PartialEq>⟧.eq }};",
        "",
        f"{STEP}ghost same = {{ {same_proof(declared)} }};",
        "",
        f"{STEP}const TAG: u8 = {tag_text(declared)};",
        "",
        *signature(STEP, "from_content", ["content: Vec<u8>"], f"Option<{declared.name}>"),
        f"{_TWO}match content.as_slice() {{",
        *(f"{_THREE}[{it.number}] => Some({declared.name}::{it.name})," for it in declared.items),
        f"{_THREE}_ => None,",
        f"{_TWO}}}",
        f"{STEP}}}",
        "",
        *signature(STEP, "serialize_under", ["&self", "tag: Tag", "serializer: &mut Serializer<W>"], "Result<usize>", "<W: WriteExt>"),
        f"{_TWO}serializer.serialize_tagged_bytes(tag, &[self.number()])",
        f"{STEP}}}",
        "",
        f"{STEP}ghost short = {{ lit≤ tt }};",
        "",
        f"{STEP}ghost valid = {{ elim [",
        *(f"{STEP}  | variants.{it.name} ↦ refl" for it in declared.items),
        f"{STEP}] }};",
        "",
        f"{STEP}ghost equal_so = {{ Prim.assumption }};",
        "}",
    ]


def serialize_impl(declared: EnumDeclaration) -> list[str]:
    """The implementation of `Serialize`."""
    return [
        f"impl Serialize for {declared.name} {{",
        f"{STEP}ghost meaning = {{ contents_of {tag_text(declared)} {content_term(declared)} }};",
        "",
        *signature(STEP, "serialize", ["&self", "serializer: &mut Serializer<W>"], "Result<usize>", "<W: WriteExt>"),
        f"{_TWO}self.serialize_under(Tag::{_FORMS[declared.tag][1]}, serializer)",
        f"{STEP}}}",
        "}",
    ]


def deserialize_impl(declared: EnumDeclaration) -> list[str]:
    """The implementation of `Deserialize`."""
    facts = f"contents_facts {tag_text(declared)} {content_term(declared)} ⟦<Self as PartialEq>⟧.eq ⟦<Self as Contents>⟧.is_content ⟦<Self as Contents>⟧.same"
    return [
        f"impl Deserialize for {declared.name} {{",
        f"{STEP}ghost shape = {{ contents_shape {tag_text(declared)} }};",
        "",
        f"{STEP}ghost facts = {{ {facts} }};",
        "",
        f"{STEP}ghost proved = {{ Prim.assumption }};",
        "",
        *signature(STEP, "deserialize", ["deserializer: &mut Deserializer<R>"], f"Result<{declared.name}>", "<R: ReadExt>"),
        f"{_TWO}deserialize_contents_as(deserializer)",
        f"{STEP}}}",
        "}",
    ]


def begins_impl(declared: EnumDeclaration) -> list[str]:
    """What an enumeration needs to be a member that may be absent, or an alternative."""
    return [
        f"impl Begins for {declared.name} {{",
        f"{STEP}fn begins_with(tag: Tag) -> bool {{",
        f"{_TWO}tag.inner() == {tag_text(declared)}",
        f"{STEP}}}",
        "}",
    ]


def notated_impl(declared: EnumDeclaration, imported: list[str]) -> list[str]:
    """The implementation of `Notated`: an ENUMERATED, or an INTEGER, with the numbers of the items."""
    numbers = [f"{number_term(declared)} variants.{it.name} ∷" for it in declared.items]
    return [
        f"impl Notated for {declared.name} {{",
        *imported,
        f"{STEP}ghost notation = {{ Notation.{_FORMS[declared.tag][2]} (",
        *(f"{_TWO}{it}" for it in numbers),
        f"{_TWO}[]) }};",
        "",
        f"{STEP}ghost denoted = {{ refl }};",
        "}",
    ]


def exact_impl(declared: EnumDeclaration, imported: list[str]) -> list[str]:
    """The implementations of `Exact` and `ExactContents`: each value is an item, whose number is below 128."""
    variants = " ∷ ".join([*(f"variants.{it.name}" for it in declared.items), "[]"])
    before, after = f"{STEP}ghost values = {{ {_VALUES[declared.tag]}", f"{number_term(declared)} (elim ["
    line = f"{before} ({variants}) {after}"
    listed = [f"{_TWO}variants.{it.name} ∷" for it in declared.items]
    head, indent = ([line], STEP) if len(line) <= GHOST_WIDTH else ([f"{before} (", *listed, f"{_TWO}[]) {after}"], _TWO)
    return [
        f"impl Exact for {declared.name} {{",
        *imported,
        *head,
        *(f"{indent}  | variants.{it.name} ↦ record {{ listed = refl; small = refl }}" for it in declared.items),
        f"{indent}]) }};",
        "",
        f"{STEP}ghost exact = {{ Prim.assumption }};",
        "}",
        "",
        f"impl ExactContents for {declared.name} {{",
        f"{STEP}ghost own_contents = {{ own_contents {tag_text(declared)} {content_term(declared)} (lit≤ tt) }};",
        "",
        f"{STEP}ghost exact_contents = {{ Prim.assumption }};",
        "}",
    ]


def exact_default_lines(declared: EnumDeclaration, name: str, item: Item, imported: list[str]) -> list[str]:
    """The implementation of `ExactDefault` for an item that is a default."""
    content = f"(contents_of {tag_text(declared)} {content_term(declared)})"
    return [
        f"impl ExactDefault<{declared.name}> for {name} {{",
        *imported,
        f"{STEP}ghost default = {{ item_default {content} {default_term(name)} variants.{item.name} {default_proof(name)} refl }};",
        "",
        f"{STEP}ghost exact_default = {{ Prim.assumption }};",
        "}",
    ]


def default_lines(declared: EnumDeclaration, name: str, item: Item, imported: list[str]) -> list[str]:
    """The type that says that an item is the default of a member."""
    cases = []
    for it in declared.items:
        same, other = ("λ h k. k", "λ h k. k") if it is item else ("λ h k. refl", "λ h k. h")
        rest = f" | _ ↦ {other}" if len(declared.items) > 1 else ""
        cases.append(f"{STEP}  | variants.{it.name} ↦ elim [ variants.{it.name} ↦ {same}{rest} ]")
    return [
        *comment("", "///", f"The default `{item.source}` of `{declared.source}`."),
        f"pub struct {name};",
        "",
        f"impl DefaultOf<{declared.name}> for {name} {{",
        *imported,
        f"{STEP}ghost left_out = {{ {default_term(name)} }};",
        "",
        f"{STEP}ghost equal = {{ ⟦<{declared.name} as PartialEq>⟧.eq }};",
        "",
        f"{STEP}ghost one = {{ elim [",
        *cases,
        f"{STEP}] }};",
        "",
        f"{STEP}fn is_default(value: &{declared.name}) -> bool {{",
        f"{_TWO}matches!(*value, {declared.name}::{item.name})",
        f"{STEP}}}",
        "",
        f"{STEP}fn default() -> {declared.name} {{",
        f"{_TWO}{declared.name}::{item.name}",
        f"{STEP}}}",
        "",
        f"{STEP}ghost by_tree = {{ {default_proof(name)} }};",
        "",
        f"{STEP}ghost equal_so = {{ λ x y h. h }};",
        "}",
        "",
        f"impl NotatedDefault<{declared.name}> for {name} {{",
        *imported,
        f"{STEP}ghost value = {{ contents_of {tag_text(declared)} {content_term(declared)} variants.{item.name} }};",
        "",
        f"{STEP}ghost is_value = {{ λ it h. sym (({default_proof(name)} variants.{item.name} it refl).0 h) }};",
        "}",
        "",
        *exact_default_lines(declared, name, item, imported),
    ]


def default_terms(declared: EnumDeclaration, name: str, item: Item, variants: str) -> list[str]:
    """The terms of a default: the test of it, and the proof that the encoding distinguishes it."""
    test, proof = default_term(name), default_proof(name)
    lines = ["", f"abbrev pub {test} : {declared.name} → Bool"]
    lines += [f"{test} {variants}.{it.name} = {'true' if it is item else 'false'}" for it in declared.items]
    lines += ["", f"pub {proof} : IsByTree (contents_of {tag_text(declared)} {content_term(declared)}) {test}"]
    for it in declared.items:
        if it is item:
            pairs = [(other, _SAME if other is item else _OTHER) for other in declared.items]
            lines += [f"{proof} {variants}.{it.name} {variants}.{other.name} h = {words}" for other, words in pairs]
        else:
            lines.append(f"{proof} {variants}.{it.name} y h = cc")
    return lines


def terms_file(enumerations: list[EnumDeclaration], crate: str, stems: dict[str, str]) -> list[str]:
    """The lines of the file of terms, after its first one. `stems` has the name of the file of each type."""
    names = PrivateNames(term for it in enumerations for term in own_terms(it))
    aliases = {it.name: (names.numbered(snake(it.name)), names.numbered(f"{snake(it.name)}_compared")) for it in enumerations}
    lines = [
        "-- The numbers of enumerations, which their contracts cite.",
        f"use {PRELUDE}.{{{', '.join(prelude(enumerations))}}}",
        *_PROOF_IMPORTS,
        *(_DEFAULT_IMPORTS if any(it.defaults for it in enumerations) else []),
    ]
    for it in enumerations:
        stem, (variants, compared) = stems[it.name], aliases[it.name]
        lines += [
            f"use Rattle.{crate}.specs.declared.{stem}.{it.name}.{{{it.name}}}",
            f"use Rattle.{crate}.specs.declared.{stem}.{it.name}.TheVariants as {variants}",
            f"use Rattle.{crate}.specs.contracts.{stem}.{it.name}PartialEq.TheImpl as {compared}",
        ]
    return [*lines, *(line for it in enumerations for line in ["", *enum_terms(it, *aliases[it.name])])]


def own_terms(declared: EnumDeclaration) -> set[str]:
    """The names of the terms of an enumeration that others may cite."""
    names = {number_term(declared), test_term(declared), same_proof(declared), respects_proof(declared)}
    return names | {term(it) for it in declared.defaults for term in (default_term, default_proof)}


def enum_terms(declared: EnumDeclaration, variants: str, compared: str) -> list[str]:
    """The terms of an enumeration: the number of each value, and the test of a content.

    Its variants and its `==` are in modules with these names.
    """
    number, test = number_term(declared), test_term(declared)
    return [
        f"-- {declared.source} of {declared.module}",
        f"abbrev pub {number} : {declared.name} → ℕ",
        *(f"{number} {variants}.{it.name} = {it.number}" for it in declared.items),
        "",
        "-- the content is one of these numbers",
        f"abbrev pub {test} : List ℕ → Bool",
        f"{test} (n ∷ []) = {number_test(declared)}",
        f"{test} _ = false",
        *same_terms(declared, variants, compared),
        *(line for name, it in declared.defaults.items() for line in default_terms(declared, name, it, variants)),
    ]


def same_terms(declared: EnumDeclaration, variants: str, compared: str) -> list[str]:
    """The proofs that values are equal exactly if their contents are the same, by their numbers."""
    name, number, same, respects = declared.name, number_term(declared), same_proof(declared), respects_proof(declared)
    equal = f"equal_{snake(name)}"
    rest = " | _ ↦ refl" if len(declared.items) > 1 else ""
    return [
        "",
        "-- two are equal where their numbers are",
        f"{equal} : (x y : {name}) → {compared}.ghosts.eq x y ≡ ({number} x == {number} y)",
        *(f"{equal} {variants}.{it.name} = elim [ {variants}.{it.name} ↦ refl{rest} ]" for it in declared.items),
        "",
        f"pub {same} : (x y : {name}) → {number} x ∷ [] ≡ {number} y ∷ [] → {compared}.ghosts.eq x y ≡ true",
        f"{same} x y e = {equal} x y ∙ eq-eqb _ _ cc",
        "",
        f"pub {respects} : (x y : {name}) → {compared}.ghosts.eq x y ≡ true → {number} x ∷ [] ≡ {number} y ∷ []",
        f"{respects} x y h = ap (λ n. n ∷ []) (eqb-true _ _ (sym ({equal} x y) ∙ h))",
    ]


def run_length(declared: EnumDeclaration) -> int:
    """How many numbers from 0 on are all there."""
    numbers, length = {it.number for it in declared.items}, 0
    while length in numbers:
        length += 1
    return length


def number_test(declared: EnumDeclaration) -> str:
    """The test of a number: whether it is below the length of the first run, or one of the others."""
    length = run_length(declared)
    others = sorted(it.number for it in declared.items if it.number >= length)
    return " || ".join([*([f"nat_lt n {length}"] if length else []), *(f"n == {it}" for it in others)])


def prelude(enumerations: list[EnumDeclaration]) -> list[str]:
    """The names of the prelude that the file of terms uses."""
    tests = " ".join(map(number_test, enumerations))
    unused = {it for it, word in (("◌||◌", "||"), ("nat_lt", "nat_lt")) if word not in tests}
    return [it for it in _PRELUDE_ORDER if it not in unused]
