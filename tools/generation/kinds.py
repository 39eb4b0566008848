"""What der_types says of each type of one primitive kind: its notation, and that it is exact."""
from string import Template

from generation.files import Files, Lines, pieces, source
from generation.table import Kind, kinds

IMPLEMENTATIONS = """
impl Notated for $name {
    ghost notation = { Notation.$term };

    ghost denoted = { refl };
}

impl Exact for $name {
    ghost values = { plain_values Notation.$term $meaning $exact };

    ghost exact = { Prim.assumption };
}
"""


def as_one(term: str) -> str:
    """A term as an argument."""
    return f"({term})" if " " in term else term


def implementations(row: Kind) -> Lines:
    """The implementations of a type."""
    words = {"name": row.name, "term": row.term, "meaning": as_one(row.meaning), "exact": as_one(row.exact)}
    return pieces(Template(IMPLEMENTATIONS).substitute(words))


def ghost_uses(rows: list[Kind]) -> Lines:
    """The imports of contracts, a line a file of specs."""
    names: dict[str, list[str]] = {}
    for home, _, name in (it.partition(".") for row in rows for it in row.cites):
        names.setdefault(home, []).append(name)
    return [f"ghost use Rattle.der_types.specs.{home}.{{{', '.join(dict.fromkeys(found))}}};" for home, found in sorted(names.items())]


def files() -> Files:
    """The file of all such types."""
    rows = kinds()
    lines = [
        *source("The types of one primitive kind each, as types of ASN.1."),
        "ghost use Rattle.std.specs.Prelude.{◌≡◌, encode_utf8, refl, string_bytes};",
        "ghost use Rattle.picky_der_core.specs.Primitive.{Primitive};",
        "ghost use Rattle.picky_der_core.specs.Tree.{Tree};",
        "ghost use Rattle.der_types.specs.Exact.{plain_values};",
        *ghost_uses(rows),
        "ghost use Rattle.der_types.specs.Notation.{Notation};",
        "",
        "use crate::{Exact, Notated};",
        *(f"use {row.home}::{row.name};" for row in rows if row.home),
        "",
    ]
    return {"crates/der_types/src/generated/kinds.rt": [*lines, *(line for row in rows for line in implementations(row))]}
