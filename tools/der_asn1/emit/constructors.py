"""The file of constructors: for each struct `new`, a `with_` for each member that `new` leaves out, and an `_or_default` for numbers.
For each choice there is one of each alternative under tags. A struct whose `new` has no parameter has `Default`.

Each has a clause that says what all members of its value are, so that the check proves it by computing.
"""
from dataclasses import dataclass
from typing import Mapping, Optional, Union

from ..meaning.declarations import ChoiceDeclaration, EnumDeclaration, Field, StructDeclaration
from ..meaning.inside import NUMBER, Tagged, Types, constraints, excluded, without_tags
from ..meaning.named import plain_type
from ..meaning.rust_types import RustType
from ..meaning.wording import snake
from ..parse.tree import Presence
from .imports import PRELUDE, Uses
from .layout import GHOST_WIDTH, STEP, STRUCT_LITERAL_WIDTH, WIDTH, comment, type_lines

_TWO, _THREE = STEP * 2, STEP * 3
_FIXED = {"True": "true", "False": "false"}
# the types that have constructors
Made = Union[StructDeclaration, ChoiceDeclaration]


@dataclass(frozen=True)
class Value:
    """A value in Rust and as a term, with the names that it uses."""

    text: str
    term: str
    names: frozenset[str] = frozenset()
    terms: frozenset[str] = frozenset()


def number_value(number: int, is_signed: bool) -> Value:
    """A number of a type of Rust, whose terms are natural numbers or integers."""
    if not is_signed:
        return Value(str(number), str(number))
    word = "pos" if number >= 0 else "negsuc"
    return Value(str(number), f"{word} {number if number >= 0 else -number - 1}", terms=frozenset((word,)))


def default_value(it: Field, types: Types) -> Optional[Value]:
    """The default of a member that has its value with a default, or None if the types here don't say it."""
    tagged = without_tags(it.type, types)
    found, name = None, it.default.name
    if name in _FIXED and tagged.inner.name == "bool":
        found = Value(_FIXED[name], _FIXED[name], terms=frozenset((_FIXED[name],)))
    elif name in ("Number", "SignedNumber") and NUMBER.fullmatch(tagged.inner.name):
        found = number_value(int(str(it.default.arguments[0])), name == "SignedNumber")
    else:
        owner = types.get(tagged.inner.name)
        item = owner.defaults.get(name) if isinstance(owner, EnumDeclaration) else None
        if item:
            found = Value(f"{owner.name}::{item.name}", f"{owner.name}.{item.name}", frozenset((owner.name,)))
    return found and Value(tagged.value(found.text), tagged.term(found.term), found.names | frozenset(tagged.tags), found.terms)


@dataclass(frozen=True)
class Function:
    """A function of an `impl`: its comment, its lines, and what they name."""

    lines: list[str]
    uses: Uses


def is_made(declared: object) -> bool:
    """Whether a type has constructors."""
    if isinstance(declared, ChoiceDeclaration):
        return any(without_tags(it.type).tags for it in declared.variants)
    return isinstance(declared, StructDeclaration)


def constructor_file(made: list[Made], homes: Mapping[str, str], types: Types) -> list[str]:
    """The lines of the file, after its first one."""
    uses, body = Uses(), []
    for it in made:
        functions = functions_of(it, types)
        for function in functions:
            uses.add(function.uses)
        uses.names.add(it.name)
        inner = [line for number, function in enumerate(functions) for line in (*([""] if number else []), *function.lines)]
        body += ["", f"impl {it.name} {{", *inner, "}", *default_impl(it, types)]
    lines = ["//! Constructors of structs and choices, and numbers that have a default."]
    return [*lines, *uses.term_lines(), "", *uses.rust_lines(dict(homes), set()), *body]


def functions_of(declared: Made, types: Types) -> list[Function]:
    """The functions of a type."""
    if isinstance(declared, ChoiceDeclaration):
        return [alternative_function(declared, it) for it in declared.variants if without_tags(it.type).tags]
    found = [new_function(declared, types)]
    for it in declared.fields:
        if left_out(it, types):
            found.append(with_function(declared, it))
    return [*found, *filter(None, (default_function(it, types) for it in declared.fields if it.is_other))]


def left_out(it: Field, types: Types) -> Optional[Value]:
    """The value that `new` gives a member which isn't its parameter: none, or its default."""
    if it.presence is Presence.OPTIONAL:
        return Value("None", "None")
    return default_value(it, types) if it.presence is Presence.DEFAULT else None


def new_function(declared: StructDeclaration, types: Types) -> Function:
    """`new`, whose parameters are the members that have to be there, without their tags."""
    parameters, items, terms, uses = [], [], [], Uses(terms={PRELUDE: {"◌≡◌"}})
    for it in declared.parts():
        value = left_out(it, types)
        if value is None:
            tagged = without_tags(it.type)
            parameters.append((it.name, tagged.inner))
            value = Value(tagged.value(it.name), tagged.term(it.name), frozenset((*tagged.tags, *tagged.inner.names())))
        items.append(it.name if value.text == it.name else f"{it.name}: {value.text}")
        terms.append(f"{it.name} = {value.term}")
        uses.add(Uses(set(value.names), terms={PRELUDE: set(value.terms)}))
    lines = comment(STEP, "///", about_new(declared, bool(parameters), types))
    lines += head("new", parameters, declared.name)
    lines += [*clause("record {", terms, "}"), *body(literal(declared.name, items))]
    return Function(lines, uses)


def default_impl(declared: Made, types: Types) -> list[str]:
    """The implementation of `Default`, by `new`, if no member has to be there."""
    if isinstance(declared, ChoiceDeclaration) or declared.later or not all(left_out(it, types) for it in declared.fields):
        return []
    terms = [f"{it.name} = {left_out(it, types).term}" for it in declared.fields]
    line = f"{STEP}ghost is_default = {{ λ it. it ≡ record {{ {'; '.join(terms)} }} }};"
    broken = [f"{STEP}ghost is_default = {{ λ it. it ≡ record {{", *(f"{STEP}  {it};" for it in terms), f"{STEP}}} }};"]
    return [
        "",
        f"impl Default for {declared.name} {{",
        *([line] if len(line) <= GHOST_WIDTH else broken),
        "",
        f"{STEP}fn default() -> {declared.name} {{",
        f"{_TWO}{declared.name}::new()",
        f"{STEP}}}",
        "}",
    ]


def about_new(declared: StructDeclaration, has_parameters: bool, types: Types) -> str:
    """What `new` returns, in words."""
    left = [it for it in declared.fields if left_out(it, types)]
    absent = any(it.presence is Presence.OPTIONAL and not it.is_other for it in left)
    default = any(it.presence is Presence.DEFAULT or it.is_other for it in left)
    others = " or ".join([*(["are absent"] if absent else []), *(["have their defaults"] if default else [])])
    if not has_parameters:
        return f"Returns the value whose members {others}."
    return f"Returns the value with these members.{f' The others {others}.' if others else ''}"


def with_function(declared: StructDeclaration, it: Field) -> Function:
    """`with_` and the name of a member that `new` leaves out."""
    tagged = without_tags(it.type)
    value, term = tagged.value(it.name), tagged.term(it.name)
    if it.presence is Presence.OPTIONAL:
        value, term = f"Some({value})", f"Some ({term})" if tagged.tags else f"Some {term}"
    items = [it.name if value == it.name else f"{it.name}: {value}"]
    is_all = len(declared.parts()) == 1
    lines = comment(STEP, "///", f"Returns the same value with this `{it.name}`.")
    lines += head(f"with_{it.name}", ["self", (it.name, tagged.inner)], declared.name)
    lines += clause("record {" if is_all else "record self {", [f"{it.name} = {term}"], "}")
    lines += body(literal(declared.name, items, "" if is_all else "..self"))
    return Function(lines, Uses({*tagged.tags, *tagged.inner.names()}, terms={PRELUDE: {"◌≡◌"}}))


def alternative_function(declared: ChoiceDeclaration, it: Field) -> Function:
    """An alternative, whose parameter is without its tags."""
    tagged, name = without_tags(it.type), snake(it.name)
    lines = comment(STEP, "///", f"Returns the alternative `{it.name}` with this value.")
    lines += head(name, [(name, tagged.inner)], declared.name)
    before, after = f"{_TWO}ensures {{ result", f"≡ {declared.name}.{it.name} ({tagged.term(name)}) }}"
    lines += [f"{before} {after}"] if len(f"{before} {after}") <= GHOST_WIDTH else [before, f"{_THREE}{after}"]
    lines += body([f"{_TWO}{declared.name}::{it.name}({tagged.value(name)})"])
    return Function(lines, Uses({*tagged.tags, *tagged.inner.names()}, terms={PRELUDE: {"◌≡◌"}}))


def default_function(it: Field, types: Types) -> Optional[Function]:
    """The number of a member of which `None` is the default, if it is a number of a type of Rust, or else of a plain INTEGER."""
    tagged = without_tags(it.type, types)
    around, number = constraints(tagged.inner, types)
    if around and number.name == "Integer":
        return plain_default_function(it, tagged, around)
    if not around or not NUMBER.fullmatch(number.name):
        return None
    default = number_value(excluded(around[0]), number.name[0] == "i")
    inside = ".0" * len(tagged.tags)
    wanted = "result" if number.name[0] == "i" else "pos result"
    lines = comment(STEP, "///", f"Returns the number of `{it.name}`, which is {default.text} if it is absent.")
    lines += head(f"{it.name}_or_default", ["&self"], number.name)
    lines += [
        f"{_TWO}ensures default {{ self.now.{it.name} ≡ None → result ≡ {default.term} }}",
        *some_clause("some", it.name, f"⟦<{tagged.inner} as WholeNumber>⟧.number it{inside}", f"≡ {wanted}) }}"),
        *default_body(it.name, f"*{it.name}{inside}{'.get()' * len(around)}", default.text),
    ]
    terms = {"◌≡◌", "IfSome", *default.terms, *([] if number.name[0] == "i" else ["pos"])}
    return Function(lines, Uses({"WholeNumber", *tagged.inner.names()}, terms={PRELUDE: terms}))


def plain_default_function(it: Field, tagged: Tagged, around: list[RustType]) -> Function:
    """The same of a plain INTEGER, as far as its number is one of 64 bits, or of 128 if the default has more."""
    number = excluded(around[0])
    rust, default = plain_type([number]), number_value(number, True)
    inside = ".0" * len(tagged.tags)
    there = f"⟦<{tagged.inner} as WholeNumber>⟧.number it{inside}"
    about = f"Returns the number of `{it.name}`, which is {default.text} if it is absent, or `None` if an `{rust}` can't be it."
    lines = comment(STEP, "///", about)
    lines += head(f"{it.name}_or_default", ["&self"], f"Option<{rust}>")
    lines += [
        f"{_TWO}ensures default {{ self.now.{it.name} ≡ None → result ≡ Some ({default.term}) }}",
        *some_clause("some", it.name, "IfSome result", f"(λ number. {there} ≡ number)) }}"),
        *some_clause("beyond", it.name, "IfNone result", f"(fits_signed {rust[1:]} ({there}) ≡ false)) }}"),
        *default_body(it.name, f"{it.name}{inside}{'.get()' * len(around)}.to_int()", f"Some({default.text})"),
    ]
    terms = {PRELUDE: {"◌≡◌", "IfNone", "IfSome", "None", "Some", "false", *default.terms}, "Rattle.picky_der_core.specs.Integer": {"fits_signed"}}
    return Function(lines, Uses({"WholeNumber", *tagged.inner.names()}, terms=terms))


def some_clause(label: str, name: str, before: str, after: str) -> list[str]:
    """A clause of a member that is there, on two lines if one is too long."""
    first = f"{_TWO}ensures {label} {{ IfSome self.now.{name} (λ it. {before}"
    line = f"{first} {after}"
    return [line] if len(line) <= GHOST_WIDTH else [first, f"{_THREE}{after}"]


def default_body(name: str, there: str, absent: str) -> list[str]:
    """The body that returns one of these, as the member is there or absent."""
    return body([f"{_TWO}match &self.{name} {{", f"{_THREE}Some({name}) => {there},", f"{_THREE}None => {absent},", f"{_TWO}}}"])


def head(name: str, parameters: list, result: str) -> list[str]:
    """The first line of a function, or its lines with a parameter on each. A parameter is its text, or its name and its type."""
    shown = [it if isinstance(it, str) else f"{it[0]}: {it[1]}" for it in parameters]
    line = f"{STEP}pub fn {name}({', '.join(shown)}) -> {result}"
    if len(line) <= WIDTH:
        return [line]
    lines = [f"{STEP}pub fn {name}("]
    for it in parameters:
        lines += [f"{_TWO}{it},"] if isinstance(it, str) else type_lines(_TWO, f"{it[0]}: ", str(it[1]), ",")
    return [*lines, f"{STEP}) -> {result}"]


def clause(before: str, items: list[str], after: str) -> list[str]:
    """The clause that says what the result is: on one line if that fits, or else with each member on its own."""
    line = f"{_TWO}ensures {{ result ≡ {before} {'; '.join(items)} {after} }}"
    if len(line) <= GHOST_WIDTH:
        return [line]
    return [f"{_TWO}ensures {{ result ≡ {before}", *(f"{_TWO}  {it};" for it in items), f"{_TWO}{after} }}"]


def body(lines: list[str]) -> list[str]:
    """The lines of a body in braces."""
    return [f"{STEP}{{", *lines, f"{STEP}}}"]


def literal(name: str, items: list[str], rest: str = "") -> list[str]:
    """The value of a struct, with what is left of another one."""
    line = ", ".join([*items, *([rest] if rest else [])])
    if len(line) <= STRUCT_LITERAL_WIDTH:
        return [f"{_TWO}{name} {{ {line} }}"]
    return [f"{_TWO}{name} {{", *(f"{_THREE}{it}," for it in items), *([f"{_THREE}{rest}"] if rest else []), f"{_TWO}}}"]
