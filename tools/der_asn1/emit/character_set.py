"""A permitted alphabet (X.680, 51.7): a set of characters of a string type, whose strings are `RestrictedString` of it."""
from string import Template
from typing import Any

from ..meaning.character_sets import SETS, WIDTHS
from ..meaning.declarations import SetDeclaration
from .imports import PRELUDE, Uses
from .layout import STEP, WIDTH, comment

_ALPHABETS = "Rattle.der_types.specs.Alphabets"
_LAWS = "Rattle.der_types.specs.CharacterSetLaws"
_ASCII = 0x80
# the lemma that the characters of a wide string type are those of Unicode, by its set
_UNICODE = {"Universal": "universal_is_unicode", "Bmp": "bmp_is_unicode"}

_SET = """pub struct $name;

impl CharacterSet for $name {
    ghost TAG = { $tag };

    ghost WIDTH = { string_width $tag };

    ghost is_character = { is_permitted $tag ($ranges) };

    const TAG: u8 = $tag;

    const WIDTH: Width = Width::$width;

    fn is_character(code: u32) -> bool {
$test
    }

    ghost short = { lit≤ tt };

    ghost narrow = { permitted_is_below $tag ($ranges) (2 ^ $bits) refl };
}

impl NotatedSet for $name {
    ghost permitted = { Some ($ranges) };

    ghost is_set = { Prim.assumption };
}
"""

_TRAIT = """
impl Unicode for $name {
    ghost scalar = { $scalar };
}
"""

_OF_ASCII = """
impl Ascii for $name {
    ghost one_byte = { refl };

    ghost ascii = { permitted_is_below $tag ($ranges) 0x80 refl };
}
"""


def row_of(declared: SetDeclaration) -> dict[str, Any]:
    """The row of types.toml of its string type."""
    return next(it for it in SETS.values() if it["name"] == declared.base)


def is_ascii(declared: SetDeclaration) -> bool:
    """Whether its characters are of ASCII, in one byte each."""
    return row_of(declared)["width"] == "One" and all(high < _ASCII for _, high in declared.ranges)


def is_unicode(declared: SetDeclaration) -> bool:
    """Whether its characters are those of Unicode with the same numbers."""
    return is_ascii(declared) or declared.base in _UNICODE


def set_uses(declared: SetDeclaration) -> Uses:
    """What the items of a set name."""
    terms = {
        "Rattle.std.proofs.Common": {"lit≤"},
        PRELUDE: {"◌^◌", "[]", "◌∷◌", "Some", "refl"},
        "Rattle.der_types.specs.ContentTypes": {"string_width"},
        _ALPHABETS: {"is_permitted", "permitted_is_below"},
    }
    names = {"CharacterSet", "NotatedSet", "Width"}
    if is_unicode(declared):
        names.add("Unicode")
        terms[_LAWS] = {"ascii_is_unicode"} if is_ascii(declared) else {_UNICODE[declared.base]}
    if is_ascii(declared):
        names.add("Ascii")
    elif is_unicode(declared):
        terms[_ALPHABETS].add("permitted_is_of")
    return Uses(names, terms=terms)


def set_lines(declared: SetDeclaration) -> list[str]:
    """The items of a set."""
    row = row_of(declared)
    words = {
        "name": declared.name,
        "tag": f"0x{row['tag']:02X}",
        "width": row["width"],
        "bits": str(8 * WIDTHS[row["width"]]),
        "base": declared.base,
        "ranges": " ∷ ".join([*(f"({low}, {high})" for low, high in declared.ranges), "[]"]),
        "patterns": " | ".join(_pattern(*it) for it in declared.ranges),
    }
    words["test"] = "\n".join(_test(declared.base, words["patterns"]))
    words["scalar"] = Template(_scalar(declared)).substitute(words)
    text = _SET + (_TRAIT if is_unicode(declared) else "") + (_OF_ASCII if is_ascii(declared) else "")
    doc = comment("", "///", f"The characters that `{declared.source}` of {declared.module} permits, of those of a {row['string']}.")
    return [*doc, *Template(text).substitute(words).rstrip("\n").split("\n")]


def _test(base: str, patterns: str) -> list[str]:
    """The test of a character, on one line if it fits."""
    own, more = f"{STEP * 2}der_types::character_sets::{base}::is_character(code)", f"&& matches!(code, {patterns})"
    line = f"{own} {more}"
    return [line] if len(line) <= WIDTH else [own, f"{STEP * 3}{more}"]


def _pattern(low: int, high: int) -> str:
    """A range as a pattern."""
    return f"0x{low:02X}" if low == high else f"0x{low:02X}..=0x{high:02X}"


def _scalar(declared: SetDeclaration) -> str:
    """The proof that each character is one of Unicode."""
    if is_ascii(declared):
        return "ascii_is_unicode (is_permitted $tag ($ranges)) (permitted_is_below $tag ($ranges) 0x80 refl)"
    lemma = _UNICODE.get(declared.base, "")
    return f"λ c e. {lemma} c (permitted_is_of $tag ($ranges) c e)"
