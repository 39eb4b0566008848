"""`Clone` of a struct of several members, by the functions of `der_types::copies`, which copy several values at once.

What is derived returns at each member whose copy fails, after it has dropped the copies of those before. So its proof grows with the square of
their number. The functions are generic, so that this is proved once.
"""
from ..meaning.declarations import Declaration, Field, StructDeclaration
from ..meaning.rust_types import RustType, of
from ..parse.tree import Presence
from .imports import Uses
from .layout import GHOST_WIDTH, STEP, STRUCT_LITERAL_WIDTH, TUPLE_WIDTH, WIDTH

COPIES = "copies"  # the module of the functions
MOST = 8  # values that one function copies
_WORDS = ["", "", "two", "three", "four", "five", "six", "seven", "eight"]
_TWO, _THREE = STEP * 2, STEP * 3


def is_copied(declared: Declaration) -> bool:
    """Whether the type's `Clone` is by the functions of `der_types::copies`. That of every other type is derived: other crates can't read the contract
    of an implementation that quotes a type with a block in it, as `{ usize::MAX }`."""
    return isinstance(declared, StructDeclaration) and len(declared.parts()) > 1 and not any("{" in str(type_of(it)) for it in declared.parts())


def copies_uses(declared: StructDeclaration) -> Uses:
    """What the implementation of `Clone` names."""
    return Uses({"AllocError", COPIES})


def clone_impl(declared: StructDeclaration) -> list[str]:
    """The implementation of `Clone`: each member is a copy of the value's."""
    return [
        f"impl{declared.generics.declared('Clone')} Clone for {declared.shown} {{",
        *is_clone(declared),
        "",
        f"{STEP}fn clone(&self) -> std::result::Result<{declared.shown}, AllocError> {{",
        *(line for part in parts_of(declared) for line in copied(part)),
        *literal(declared),
        f"{STEP}}}",
        "}",
    ]


def parts_of(declared: StructDeclaration) -> list[list[Field]]:
    """The members in as few parts as functions can copy, about equally long, so that none has one member alone."""
    members = declared.parts()
    count = -(-len(members) // MOST)
    ends = [len(members) * it // count for it in range(count + 1)]
    return [members[start:end] for start, end in zip(ends, ends[1:])]


def function_name(count: int) -> str:
    """The function that copies so many values."""
    return _WORDS[count]


def is_clone(declared: StructDeclaration) -> list[str]:
    """What a copy is: each member is a copy."""
    items = [f"⟦<{type_of(it)} as Clone>⟧.is_clone x.{it.name} y.{it.name}" for it in declared.parts()]
    lines = [f"{STEP}ghost is_clone = {{ λ x y. {items[0]}", *(f"{_TWO}× {it}" for it in items[1:])]
    whole = f"{lines[0]} {' '.join(it.strip() for it in lines[1:])} }};"
    return [whole] if len(whole) <= GHOST_WIDTH else [*lines[:-1], f"{lines[-1]} }};"]


def type_of(it: Field) -> RustType:
    """The type of a field."""
    return of("Option", it.type) if it.presence is Presence.OPTIONAL else it.type


def copied(part: list[Field]) -> list[str]:
    """The lines that copy these members."""
    names = [it.name for it in part]
    function, given = f"{COPIES}::{function_name(len(part))}", [f"&self.{it}" for it in names]
    pattern = f"{_TWO}let ({', '.join(names)}) ="
    if len(pattern) > WIDTH:
        return [f"{_TWO}let (", *(f"{_THREE}{it}," for it in names), *call(f"{_TWO}) = ", _TWO, function, given)]
    if len(f"{pattern} {function}(") > WIDTH:
        return [pattern, *call(_THREE, _THREE, function, given)]
    return call(f"{pattern} ", _TWO, function, given)


def call(before: str, indent: str, function: str, given: list[str]) -> list[str]:
    """The call of a function after `before`: on one line, or with an argument on each."""
    line = f"{before}{function}({', '.join(given)})?;"
    if len(line) <= WIDTH and len(", ".join(given)) <= TUPLE_WIDTH:
        return [line]
    return [f"{before}{function}(", *(f"{indent}{STEP}{it}," for it in given), f"{indent})?;"]


def literal(declared: StructDeclaration) -> list[str]:
    """The copy."""
    names = [it.name for it in declared.parts()]
    if len(", ".join(names)) <= STRUCT_LITERAL_WIDTH:
        return [f"{_TWO}Ok({declared.name} {{ {', '.join(names)} }})"]
    return [f"{_TWO}Ok({declared.name} {{", *(f"{_THREE}{it}," for it in names), f"{_TWO}}})"]
