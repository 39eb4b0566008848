"""The types whose notation is their name alone, with the clause of each (X.680, 18 to 48).

Those that the library has are the rows of crates/der_types/types.toml.
"""
import pathlib
import tomllib
from collections.abc import Iterator
from typing import Any

_TABLE = pathlib.Path(__file__).resolve().parents[3] / "crates/der_types/types.toml"
ROWS: dict[str, list[dict[str, Any]]] = tomllib.loads(_TABLE.read_text(encoding="utf-8"))
_STRINGS = "X.680, 41.1"
# types whose notation may go on after the name, with a list
_LISTED = frozenset(("INTEGER", "BIT STRING", "ENUMERATED"))
# types that the library may have no row for
_OTHERS = {
    "ObjectDescriptor": "X.680, 48.1",
    "EXTERNAL": "X.680, 37.1",
    "REAL": "X.680, 21.1",
    "EMBEDDED PDV": "X.680, 36.1",
    "VideotexString": _STRINGS,
    "GraphicString": _STRINGS,
    "CHARACTER STRING": "X.680, 44.1",
}


def _clauses() -> Iterator[tuple[str, str]]:
    for row in (*ROWS["kind"], *ROWS["content"]):
        if row.get("asn1", "INTEGER") not in _LISTED and not row.get("named"):
            yield row["asn1"], f"X.680, {row['clause']}.1"
    for row in ROWS["characters"]:
        yield from ((name, _STRINGS) for name in row["asn1"])


# the clause of each type by its name
CLAUSES = {**_OTHERS, **dict(_clauses())}
