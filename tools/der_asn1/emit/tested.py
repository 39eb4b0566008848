"""A struct round those values of another type that pass a test: `new`, `get`, `into_inner` and `Constrained`."""
import re
from typing import Optional

from ..derive.derived_types import determined
from ..meaning.declarations import TestedDeclaration
from .imports import PRELUDE, Uses
from .layout import GHOST_WIDTH, STEP, head, signature
from .newtype import begins_impl, deserialize_impl, serialize_impl

_TWO = STEP * 2
_THREE = STEP * 3
_NAMES = """Constrained ReadExt WriteExt Deserialize Deserializer Result Serialize Serializer Begins Tag deserialize_constrained_as""".split()


# the function of an encoding that decides a test, why it is the same of equal encodings, and what both import
Determined = tuple[str, str, dict[str, set[str]]]


def tested_uses(declared: TestedDeclaration, known: Optional[Determined] = None) -> Uses:
    """What the items of a type with a test name, without what its test names. `known` says by what the encoding decides the test."""
    _, _, terms = known or determined(declared)
    used = {"Rattle.std.proofs.Common": {"ap"}, "Rattle.picky_der_de.specs.Facts": {"tested_facts"}}
    found = Uses({*_NAMES, declared.name, declared.function, *declared.type.names()}, terms=used)
    found.add(Uses(terms={PRELUDE: {"◌≡◌", "true", "false", "IfSome", "IfNone"}}))
    found.add(Uses(terms={home: set(names) for home, names in terms.items()}))
    return found


def tested_impls(declared: TestedDeclaration, known: Optional[Determined] = None) -> list[str]:
    """The items of a type with a test, but for its definition. `known` says by what the encoding decides the test."""
    return [
        *constructor(declared),
        "",
        *serialize_impl(declared),
        "",
        *constrained_impl(declared, known or determined(declared)),
        "",
        *deserialize_impl(declared, "deserialize_constrained_as", tested=True),
        "",
        *begins_impl(declared),
    ]


def constructor(declared: TestedDeclaration) -> list[str]:
    """The constructor and the accessors."""
    name, part, type_ = declared.name, declared.part, declared.type
    argument = f"&{part}" if declared.by_reference else part
    return [
        f"impl {name} {{",
        f"{STEP}/// Returns the value, or `None` if it doesn't pass the test.",
        *head(STEP, "pub fn new", [f"{part}: {type_}"], f"Option<{name}>"),
        f"{_TWO}ensures some {{ IfSome result (λ it. it.{part} ≡ {part}) }}",
        f"{_TWO}ensures none {{ IfNone result ({of_value(declared, part)} ≡ false) }}",
        f"{STEP}{{",
        f"{_TWO}if {declared.function}({argument}) {{",
        f"{_THREE}Some({name} {{ {part} }})",
        f"{_TWO}}} else {{",
        f"{_THREE}None",
        f"{_TWO}}}",
        f"{STEP}}}",
        "",
        f"{STEP}/// Returns the value.",
        f"{STEP}pub fn get(&self) -> &{type_}",
        f"{_TWO}ensures value {{ result.now ≡ self.now.{part} }}",
        f"{_TWO}ensures passes {{ {of_value(declared, 'result.now')} ≡ true }}",
        f"{STEP}{{",
        f"{_TWO}&self.{part}",
        f"{STEP}}}",
        "",
        f"{STEP}/// Returns the value.",
        f"{STEP}pub fn into_inner(self) -> {type_}",
        f"{_TWO}ensures value {{ result ≡ self.{part} }}",
        f"{_TWO}ensures passes {{ {of_value(declared, 'result')} ≡ true }}",
        f"{STEP}{{",
        f"{_TWO}let {name} {{ {part} }} = self;",
        f"{_TWO}{part}",
        f"{STEP}}}",
        "}",
    ]


def of_value(declared: TestedDeclaration, value: str) -> str:
    """The test of this value, in parentheses."""
    found = re.sub(rf"(?<![\w.]){declared.part}\b", value, declared.test)
    return found if re.fullmatch(r"\([^()]*\)", found) else f"({found})"


def constrained_impl(declared: TestedDeclaration, known: Determined) -> list[str]:
    """The implementation of `Constrained`, whose values are of the type inside."""
    function, same, _ = known
    start, end = f"{STEP}ghost determined = {{ λ x y e. ap {function}", f"{same} }};"
    line = f"{start} {end}"
    return [
        f"impl Constrained for {declared.name} {{",
        f"{STEP}type Of = {declared.type};",
        "",
        f"{STEP}ghost unconstrained = {{ λ it. it.{declared.part} }};",
        "",
        f"{STEP}ghost allows = {{ λ {declared.part}. {declared.test} }};",
        "",
        *signature(STEP, "constrain", [f"value: {declared.type}"], f"Option<{declared.name}>"),
        f"{_TWO}{declared.name}::new(value)",
        f"{STEP}}}",
        "",
        f"{STEP}ghost kept = {{ λ it. it.{declared.ghost} }};",
        "",
        *([line] if len(line) <= GHOST_WIDTH else [start, f"{_TWO}{end}"]),
        "}",
    ]


def tested_clone_impl(declared: TestedDeclaration) -> list[str]:
    """The implementation of `Clone`: a copy of the value, which passes the test, too."""
    name, part = declared.name, declared.part
    return [
        "/// It has a copy of the value. A copy that fails the test, which no type of the library makes, counts as a failed",
        "/// allocation.",
        f"impl Clone for {name} {{",
        f"{STEP}ghost is_clone = {{ λ x y. ⟦<{declared.type} as Clone>⟧.is_clone x.{part} y.{part} }};",
        "",
        f"{STEP}fn clone(&self) -> std::result::Result<{name}, AllocError> {{",
        f"{_TWO}match {name}::new(self.{part}.clone()?) {{",
        f"{_THREE}Some(copy) => Ok(copy),",
        f"{_THREE}None => Err(AllocError),",
        f"{_TWO}}}",
        f"{STEP}}}",
        "}",
    ]
