"""The tables of schemas, as crates/der_schemas has them."""
import re

from der_asn1.schema.nodes import Table
from der_asn1.schema.read import read_table

from .crates import ROOT

TABLES = ROOT / "crates" / "der_schemas" / "src"
# the type of a function, and the index of its node
FUNCTION = re.compile(r"^/// The schema of `([^`]+)`\.\n.*?^        root: (\d+),$", re.M | re.S)
# the name of a type in its module, and in Rust
NAMES = re.compile(r"^/// The schema of `([^`]+)`\.\n.*?⟦<(\w+) as Notated>⟧", re.M | re.S)
# what a file uses of a crate
USED = re.compile(r"^use (der_\w+)::([^;]+);", re.M)


def schemas() -> dict[str, tuple[Table, int]]:
    """The table and the index of each type that has a function."""
    found = {}
    for path in sorted(TABLES.glob("*.rt")):
        if path.name != "lib.rt":
            text = path.read_text(encoding="utf-8")
            table = read_table(text)
            found.update({name: (table, int(index)) for name, index in FUNCTION.findall(text)})
    return found


def names() -> dict[str, str]:
    """The name in its module of each type that has a function, by its crate and its name in Rust."""
    found = {}
    for path in sorted(TABLES.glob("*.rt")):
        text = path.read_text(encoding="utf-8")
        crates = {word: crate for crate, words in USED.findall(text) for word in re.findall(r"\w+", words)}
        found.update({f"{crates[rust]}::{rust}": name for name, rust in NAMES.findall(text)})
    return found
