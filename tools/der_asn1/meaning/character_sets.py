"""The sets of characters that a crate declares: those of a string type with a permitted alphabet (X.680, 51.7)."""
from typing import Optional

from ..parse import tree
from ..parse.built_in import ROWS
from .alphabets import set_of_type
from .declarations import Declarations, Hint, SetDeclaration
from .intervals import NATURAL, Intervals
from .library import Core, Rust
from .rust_types import of
from .scopes import Scope
from .terms import Term

# the row of types.toml of each string type
SETS = {name: row for row in ROWS["characters"] for name in row["asn1"]}
# how many bytes a character has
WIDTHS = {"One": 1, "Two": 2, "Four": 4}


def characters_of(name: str) -> Intervals:
    """The numbers that the characters of a string type may have: any that fit their bytes, if a content doesn't say which they are."""
    found = set_of_type(name)
    if found is None and name in SETS:
        return Intervals.of((0, 256 ** WIDTHS[SETS[name]["width"]] - 1))
    return found or NATURAL


def has_all(name: str, alphabet: Intervals) -> bool:
    """Whether a permitted alphabet has all characters of a string type."""
    return characters_of(name).intersection(alphabet) == characters_of(name)


def own_set(declarations: Declarations, type_: tree.SimpleType, alphabet: Intervals, hint: Hint, scope: Scope) -> Optional[Rust]:
    """The strings of a set that a crate declares, for a type with this alphabet. None if the alphabet has all characters, or none."""
    row = SETS.get(type_.name)
    if row is None or alphabet == NATURAL or has_all(type_.name, alphabet):
        return None
    ranges = characters_of(type_.name).intersection(alphabet).pairs
    if not ranges:
        return None
    name = _declared(declarations, type_, row["name"], ranges, hint, scope)
    term = Term(f"FROM ({' ∷ '.join([*(f'({low}, {high})' for low, high in ranges), '[]'])})", Term(type_.name))
    return Rust(of("RestrictedString", of(name)), Core.CONTENTS, frozenset((row["tag"],)), term=term)


def _declared(declarations: Declarations, type_: tree.SimpleType, base: str, ranges: tuple, hint: Hint, scope: Scope) -> str:
    """The name of the set, which is declared unless an equal one is."""
    for it in declarations.by_name.values():
        if isinstance(it, SetDeclaration) and it.parts() == (base, ranges):
            return it.name
    name = declarations.fresh(f"{hint.text}-characters", ("characters", base, ranges), scope.module.name)
    source = hint.root or hint.text
    declarations.add(SetDeclaration(name, type_.place, scope.module.name, source, root=hint.root, base=base, ranges=ranges))
    return name
