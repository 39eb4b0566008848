"""The file of the values of modules: object identifiers, and what else is a constant of Rust."""
from dataclasses import dataclass
from typing import Iterable

from ..meaning.contents import identifier_content
from ..meaning.named import Constant
from ..meaning.scopes import Program
from ..meaning.values import arcs_of
from ..meaning.wording import KEYWORDS, words
from ..parse import tree
from .constructors import Value as Term, number_value
from .imports import PRELUDE, term_imports, term_line
from .layout import GHOST_WIDTH, STEP, WIDTH, comment, filled

# how many bytes `rt fmt` leaves on the line of the name
_SHORT = 60
# what the laws name, and what a list of numbers does
_ORDER = ("◌≡◌", "[]", "◌∷◌")
_LIST = frozenset(_ORDER[1:])
_ARCS = "Rattle.der_types.specs.ObjectIdentifier"


@dataclass
class Value:
    """An object identifier that has a name, by its arcs."""

    name: str
    source: str
    arcs: list[int]
    module: str = ""

    def content(self) -> list[int]:
        """The bytes of its content (X.690, 8.19)."""
        return list(identifier_content(self.arcs))


def values_of(program: Program, modules: list[tree.Module]) -> list[Value]:
    """The object identifiers of modules, each under its name in Rust."""
    found = {}
    for module in modules:
        for it in module.assignments:
            arcs = None
            if isinstance(it, tree.ValueAssignment) and not it.parameters and isinstance(it.type, (tree.SimpleType, tree.ReferenceType)):
                arcs = arcs_of(program, it.value, program.scope_of(module))
            if arcs and len(arcs) > 1:
                name = "_".join(words(it.name)).upper()
                found.setdefault(name, Value(name, it.name, arcs, module.name))
    return list(found.values())


def value_file(values: list[Value], constants: Iterable[Constant] = ()) -> list[str]:
    """The lines of the file, after its first one: object identifiers, and then other values, with the laws of both."""
    terms = [(it, term_of(it)) for it in constants]
    named = {"◌≡◌"}.union(_LIST if values else (), *(term.terms for _, term in terms))
    lines = ["//! Object identifiers, by their contents: `identifier.is(values::NAME)`."] if values else ["//! Values."]
    lines += term_imports(PRELUDE, [*(it for it in _ORDER if it in named), *sorted(named.difference(_ORDER))])
    lines += [term_line(_ARCS, ["arcs_of"])] if values else []
    for value in values:
        content = [f"0x{byte:02X}" for byte in value.content()]
        lines += ["", *comment("", "///", f"`{value.source}`, {'.'.join(map(str, value.arcs))}.")]
        lines += value_lines(f"pub const {value.name}: &[u8] =", content)
    for it, _ in terms:
        lines += ["", *comment("", "///", f"`{it.source}`, `{it.notation}`."), *constant_lines(it)]
    laws = [*([arcs_law(values)] if values else []), *([others_law(terms)] if terms else [])]
    return [*lines, *(line for law in laws for line in ("", *law))]


def constant_lines(constant: Constant) -> list[str]:
    """A value that isn't an object identifier."""
    before = f"pub const {constant.name}: {constant.type} ="
    if isinstance(constant.value, list):
        return value_lines(before, [f"0x{it:02X}" for it in constant.value])
    value = quoted(constant.value) if constant.type == "&str" else constant.value
    line = f"{before} {value};"
    return [line] if len(line) <= WIDTH else [before, f"{STEP}{value};"]


def quoted(text: str) -> str:
    """A text as Rust has it."""
    return '"' + "".join(f"\\{it}" if it in '\\"' else it if it.isprintable() else f"\\u{{{ord(it):X}}}" for it in text) + '"'


def term_of(constant: Constant) -> Term:
    """A value that isn't an object identifier, as a term: a text is the bytes of its UTF-8."""
    if isinstance(constant.value, list):
        return list_term(constant.value)
    if constant.type == "bool":
        return Term(constant.value, constant.value, terms=frozenset((constant.value,)))
    if constant.type == "&str":
        return list_term(list(constant.value.encode()))
    return number_value(int(constant.value), True)


def list_term(items: list[int]) -> Term:
    """A list of numbers as a term."""
    text = " ∷ ".join([*map(str, items), "[]"])
    return Term(text, text, terms=_LIST if items else frozenset(("[]",)))


def arcs_law(values: list[Value]) -> list[str]:
    """The law of the arcs of each constant. It is proved by computing them."""
    items = [(it.name, f"arcs_of {it.name}.now", f"{' ∷ '.join(map(str, it.arcs))} ∷ []") for it in values]
    return constants_law("The arcs of the object identifiers whose contents these are.", "arcs", items)


def others_law(terms: list[tuple[Constant, Term]]) -> list[str]:
    """The law of what each other constant is. It is proved by computing them."""
    items = [(it.name, f"{it.name}.now" if it.type.startswith("&") else it.name, term.term) for it, term in terms]
    return constants_law("Which values the other constants are: a text by the bytes of its UTF-8.", "constants", items)


def constants_law(about: str, name: str, items: list[tuple[str, str, str]], indent: str = "") -> list[str]:
    """A function of clauses, each by the name of a constant, a term of it, and what that is."""
    lines = [f"{indent}/// {about}", f"{indent}pub fn {name}()"]
    for constant, value, wanted in items:
        label = constant.lower() + "_" * (constant.lower() in KEYWORDS)
        before, after = f"{indent}{STEP}ensures {label} {{ {value}", f"≡ {wanted} }}"
        lines += [f"{before} {after}"] if len(f"{before} {after}") <= GHOST_WIDTH else [before, f"{indent}{STEP * 2}{after}"]
    return [*lines, f"{indent}{{}}"]


def value_lines(before: str, content: list[str]) -> list[str]:
    """A slice of bytes: on one line if `rt fmt` leaves it there, or else as many on each line as fit."""
    items = ", ".join(content)
    line = f"{before} &[{items}];"
    if len(line) <= WIDTH and len(items) <= _SHORT:
        return [line]
    if len(f"{before} &[") > WIDTH:
        return [before, f"{STEP}&[{items}];"]
    lines = filled("", "", content, "")
    return [f"{before} &[", *(lines[1:-1] if len(lines) > 1 else [f"    {items},"]), "];"]
