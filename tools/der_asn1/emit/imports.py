"""The imports of a file: which names its items use, and where they are from."""
from dataclasses import dataclass, field
from typing import Iterable

from ..meaning.library_table import HOME_ORDER, home_of
from .layout import filled, natural

_ROOT_PATH = "picky_asn1_der"
_ORDER = ["der_types", "picky_asn1_der::Choice4", "picky_asn1_der::OneOf", *HOME_ORDER[1:]]

PRELUDE = "Rattle.std.specs.Prelude"
# with more names than these `rt fmt` has each import on a line of its own
MOST_GROUPED = 100
# the modules of terms that files of any crate import, in the order of imports
_TERM_ORDER = [
    "Rattle.std.proofs.Common",
    PRELUDE,
    "Rattle.std.specs.Cmp.Rules",
    "Rattle.std.specs.Ordering",
    "Rattle.picky_der_core.specs.Equality",
    "Rattle.picky_der_core.specs.Shape",
    "Rattle.picky_der_de.specs.declared.alternatives.OneOf.TheVariants",
    "Rattle.picky_der_de.specs.declared.choice4.Choice4.TheVariants",
    "Rattle.picky_der_de.specs.Facts",
    "Rattle.picky_der_de.specs.ChoiceFacts",
    "Rattle.picky_der_de.specs.Faithful",
    "Rattle.picky_der_de.specs.MembersFacts",
    "Rattle.der_types.specs.Alphabets",
    "Rattle.der_types.specs.CharacterSetLaws",
    "Rattle.der_types.specs.ContentTypes",
    "Rattle.der_types.specs.ContentsFacts",
    "Rattle.der_types.specs.Notation",
    "Rattle.der_types.specs.Exact",
    "Rattle.der_types.specs.ExactAdded",
    "Rattle.der_types.specs.ExactChoices",
    "Rattle.der_types.specs.ExactContents",
    "Rattle.der_types.specs.ExactDefaults",
    "Rattle.der_types.specs.ExactEnumerated",
    "Rattle.der_types.specs.ExactMembers",
    "Rattle.der_types.specs.Sameness",
    "Rattle.der_types.specs.SampleTrees",
]
# how wide a line of imports of terms is
_TERMS_WIDTH = 140


@dataclass
class Uses:
    """What the items of a file name.

    `names` are names of Rust, and `parts` the constructors of a choice's parts by the type that they are of. `terms` are names of terms by
    their modules.
    """

    names: set[str] = field(default_factory=set)
    parts: dict[str, set[str]] = field(default_factory=dict)
    terms: dict[str, set[str]] = field(default_factory=dict)

    def add(self, other: "Uses") -> None:
        """Takes over what other items name."""
        self.names |= other.names
        for mine, others in ((self.parts, other.parts), (self.terms, other.terms)):
            for home, names in others.items():
                mine.setdefault(home, set()).update(names)

    def without(self, unused: frozenset[str]) -> "Uses":
        """The same without these names, of Rust and of terms."""
        terms = {home: names - unused for home, names in self.terms.items() if names - unused}
        return Uses(self.names - unused, self.parts, terms)

    def rust_lines(self, homes: dict[str, str], own: set[str]) -> list[str]:
        """The imports of Rust, without those of the file's own types."""
        return imports(self.names - own, homes, [(f"picky_asn1_der::{it}", found) for it, found in self.parts.items()])

    def term_lines(self) -> list[str]:
        """The imports of terms."""
        lines = []
        for home in sorted(self.terms, key=lambda it: (_TERM_ORDER.index(it) if it in _TERM_ORDER else len(_TERM_ORDER), it)):
            lines += term_imports(home, sorted(self.terms[home], key=natural))
        return lines


def term_imports(home: str, names: list[str]) -> list[str]:
    """The imports of these terms of a module: as many on each line as fit."""
    lines, now = [], []
    for it in names:
        if now and len(term_line(home, [*now, it])) > _TERMS_WIDTH:
            lines.append(term_line(home, now))
            now = []
        now.append(it)
    return [*lines, term_line(home, now)]


def term_line(home: str, names: list[str]) -> str:
    """An import of terms."""
    return f"ghost use {home}.{{{', '.join(names)}}};"


def imports(names: Iterable[str], homes: dict[str, str], variants: Iterable[tuple[str, Iterable[str]]] = ()) -> list[str]:
    """The lines of the imports of these names: of those in `homes` from the crate there, of others from the library.

    Those of the crate's own types come first, and those of a choice's parts as they are. Many names have a line each.
    """
    by_home: dict[str, list[str]] = {}
    for it in names:
        home = homes.get(it) or home_of(it)
        if home:
            by_home.setdefault(home, []).append(it)
    for home, found in variants:
        by_home[home] = list(found)
    if sum(len(set(it)) for it in by_home.values()) > MOST_GROUPED:
        return [f"use {it};" for it in sorted({f"{home}::{name}" for home, found in by_home.items() for name in found}, key=natural)]
    lines = []
    for home in sorted(by_home, key=lambda it: order(it, by_home[it])):
        found = sorted(set(by_home[home]), key=natural)
        lines += [f"use {home}::{found[0]};"] if len(found) == 1 else filled("", f"use {home}::", found, ";")
    return lines


def order(home: str, names: list[str]) -> tuple[int, object]:
    """Where the import of a module comes. A single type of the root comes before the modules of the crate, and several after them."""
    if home.partition("::")[0] in ("super", "crate"):
        return 0, (home.startswith("crate"), home)
    if home not in _ORDER or home in ("der_elements", "der_types"):
        return (1 if home < _ROOT_PATH else 4), home
    is_single_type = home == _ROOT_PATH and len(names) == 1 and names[0][0].isupper()
    return (2, home) if is_single_type else (3, _ORDER.index(home))
