"""The file of the names of bits, numbers and items: a module of constants for each type that has some, and the law of their numbers."""
from ..meaning.named import Name, Names
from .comments import sentence
from .constructors import Value, number_value
from .imports import PRELUDE, term_imports
from .layout import STEP, comment
from .values import constants_law


def named_file(names: list[Names]) -> list[str]:
    """The lines of the file, after its first one."""
    found = names[0]
    lines = comment("", "//!", f"Names of bits, numbers and items, as `named::{found.name}::{found.names[0].name}`.")
    lines += term_imports(PRELUDE, sorted({"◌≡◌"}.union(*(number_of(name).terms for it in names for name in it.names))))
    for it in names:
        lines += ["", *comment("", "///", f"{it.about}."), f"pub mod {it.name} {{"]
        for name in it.names:
            lines += [*constant(name), ""]
        lines += [*law(it.names), "}"]
    return lines


def number_of(name: Name) -> Value:
    """The number of a name."""
    return number_value(name.number, name.type[0] == "i")


def constant(name: Name) -> list[str]:
    """A name as a constant."""
    about = comment(STEP, "///", f"{sentence(name.comment)} `{name.source}`.")
    return [*about, f"{STEP}pub const {name.name}: {name.type} = {name.number};"]


def law(names: tuple[Name, ...]) -> list[str]:
    """Which number each constant is. It is proved by computing them."""
    return constants_law("Which numbers these are.", "numbers", [(it.name, it.name, number_of(it).term) for it in names], STEP)
