"""The types of a crate as terms below their texts, and the law that each type is the one of its term."""
from typing import Iterable

from ..meaning.declarations import Declaration
from ..meaning.library_table import TERM_HOMES
from ..meaning.terms import default_tags, names_of
from ..meaning.wording import snake
from ..parse import tree
from ..parse.tree import TagMode
from .comments import levels_text
from .imports import imports
from .layout import natural
from .terms import definition

_TAGS = "TAGS"

_PRELUDE = ("[]", "◌∷◌")
_EACH = (
    "/// Each type has exactly the values of the notation that its module gives it. `specs/Notation.antt` has that notation as a term, below",
    "/// its text.",
)


def defined(types: Iterable[Declaration]) -> list[Declaration]:
    """The types that assignments define, each after those that it names."""
    named = {it.name: it for it in types if it.term}
    found = {}

    def add(it: Declaration) -> None:
        if it.name not in found:
            for name in sorted(names_of([it.term.inline()]) & named.keys() - {it.name}, key=natural):
                add(named[name])
            found[it.name] = it

    for it in types:
        if it.term:
            add(it)
    return list(found.values())


def notation_terms(types: list[Declaration], modules: list[tree.Module], homes: dict[str, str]) -> list[str]:
    """The lines of the file of terms. `modules` are those that the types are of, and `homes` the crates of types that are named."""
    known = {it.name for it in types}
    body = [line for it in types for line in ["", *type_lines(it, known)]]
    used = [it for it in modules if default_tags(it.name) in names_of(body)]
    modes = [line for it in used for line in mode_lines(it)]
    if len(used) == 1:
        body = [it.replace(default_tags(used[0].name), _TAGS) for it in body]
        modes = [it.replace(default_tags(used[0].name), _TAGS) for it in modes]
    names = names_of([*body, *modes])
    prelude = ["use Rattle.std.specs.Prelude.{" + ", ".join(_PRELUDE) + "}"] if "◌∷◌" in names else []
    return [
        "-- The types as terms. Above each is its name in its module, and above each member the member's text.",
        *prelude,
        *form_imports(names),
        *crate_imports(names, homes),
        *modes,
        *body,
    ]


def form_imports(names: set[str]) -> list[str]:
    """The imports of these names from der_types."""
    lines = []
    for home, own in TERM_HOMES.items():
        found = sorted(names & own, key=natural)
        found = (["Notation"] if home == "Notation" else []) + found
        if found:
            lines.append(f"use Rattle.der_types.specs.{home}.{{{', '.join(found)}}}")
    return lines


def crate_imports(names: set[str], homes: dict[str, str]) -> list[str]:
    """The imports of the terms that other crates have."""
    lines = []
    for crate in sorted({it for it in homes.values() if it != "crate"}):
        found = sorted((it for it in names if homes.get(it) == crate), key=natural)
        if found:
            lines.append(f"use Rattle.{crate}.specs.Notation.{{{', '.join(found)}}}")
    return lines


def mode_lines(module: tree.Module) -> list[str]:
    """The mode of the tags of a module that say none (X.680, 13.2)."""
    name, mode = default_tags(module.name), module.tag_default
    value = TagMode.EXPLICIT if mode is TagMode.EXPLICIT else TagMode.IMPLICIT
    return ["", f"-- {module.name} DEFINITIONS {mode.name} TAGS", f"abbrev {name} : Mode", f"{name} = {value.name}"]


def type_lines(declared: Declaration, known: set[str]) -> list[str]:
    """A type as a term. Parts whose names are `known` are defined already."""
    text = getattr(declared, "notation", "") if not declared.term.group() else ""
    levels = f", with {levels_text(declared.levels)}" if declared.inner else ""
    return definition(declared.name, declared.term, [f"{declared.source} of {declared.module}{levels}{f': {text}' if text else ''}"], known)


def notation_file(types: list[Declaration], homes: dict[str, str], crate: str) -> list[str]:
    """The lines of the file of the law."""
    ordered = sorted(types, key=lambda it: natural(it.name))
    names = [it.name for it in ordered]
    return [
        "//! The ASN.1 type of each type.",
        "ghost use Rattle.std.specs.Prelude.{◌≡◌};",
        f"ghost use Rattle.{crate}.specs.Notation as notation;",
        "",
        *imports({*names, "Exact"}, homes),
        *law(names),
    ]


def law(names: list[str]) -> list[str]:
    """The law that the notation of each of these types is that of its term."""
    clauses = [f"    ensures {snake(it)} {{ ⟦<{it} as Exact>⟧.values.notation ≡ notation.{it} }}" for it in names]
    return ["", *_EACH, "pub fn types()", *clauses, "{}"]
