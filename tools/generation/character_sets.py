"""The sets of characters of der_types."""
from string import Template
from textwrap import indent

from generation.files import Files, Lines, source
from generation.table import Characters, characters

SET = """
$doc
pub struct $name;

impl CharacterSet for $name {
    ghost TAG = { $tag };

    ghost WIDTH = { $width };

    ghost is_character = { $test };

    const TAG: u8 = $tag;

    const WIDTH: Width = Width::$width;

    fn is_character(code: u32) -> bool {
$code
    }

    ghost short = { lit≤ tt };

    ghost narrow = { $narrow };
}

impl NotatedSet for $name {
    ghost permitted = { None };

    ghost is_set = { Prim.assumption };
}
"""

UNICODE = """
impl Unicode for $name {
    ghost scalar = { $scalar };
}
"""

ASCII = """
impl Ascii for $name {
    ghost one_byte = { refl };

    ghost ascii = { $stem_is_ascii };
}
"""

# by the kind of the characters: that each fits its bytes, that each is one of Unicode, and the traits
NARROW = {"ascii": "ascii_is_narrow $test ${stem}_is_ascii", "unicode": "${stem}_is_narrow", "bytes": "byte_is_narrow"}
SCALAR = {"ascii": "ascii_is_unicode $test ${stem}_is_ascii", "unicode": "${stem}_is_unicode", "bytes": ""}
TRAITS = {"ascii": UNICODE + ASCII, "unicode": UNICODE, "bytes": ""}


def filled(template: str, words: dict[str, str]) -> str:
    """The template with these words."""
    return Template(template).substitute(words)


def character_set(row: Characters) -> str:
    """A set with its traits."""
    stem = row.test.removeprefix("is_")
    words = {"name": row.name, "tag": f"0x{row.tag:02X}", "width": row.width, "test": row.test, "stem": stem}
    words["doc"] = "\n".join(f"/// {line}" for line in row.doc.split("\n"))
    words["code"] = indent(row.code.strip("\n"), " " * 8)
    words["stem_is_ascii"] = f"{stem}_is_ascii"
    words["narrow"] = filled(NARROW[row.kind], words)
    words["scalar"] = filled(SCALAR[row.kind], words)
    return filled(SET + TRAITS[row.kind], words)


def lemmas(rows: list[Characters]) -> list[str]:
    """The lemmas that the proofs name."""
    ascii_tests = [row.test.removeprefix("is_") for row in rows if row.kind == "ascii"]
    unicode_tests = [row.test.removeprefix("is_") for row in rows if row.kind == "unicode"]
    return [
        *(f"{it}_is_ascii" for it in ascii_tests),
        "ascii_is_narrow",
        "ascii_is_unicode",
        "byte_is_narrow",
        *(f"{it}_is_{what}" for it in unicode_tests for what in ("narrow", "unicode")),
    ]


def files() -> Files:
    """The file of all sets."""
    rows = characters()
    text: Lines = [
        *source("The sets of characters of the string types (X.680, 41)."),
        "ghost use Rattle.std.proofs.Common.{lit≤};",
        "ghost use Rattle.std.specs.Prelude.{◌≡◌, ℕ, true, None, refl};",
        "ghost use Rattle.der_types.specs.declared.width.Width.TheVariants.{One, Two, Four};",
        f"ghost use Rattle.der_types.specs.CharacterStrings.{{{', '.join(dict.fromkeys(row.test for row in rows))}}};",
        f"ghost use Rattle.der_types.specs.CharacterSetLaws.{{{', '.join(lemmas(rows))}}};",
        "",
        "use crate::{Ascii, CharacterSet, NotatedSet, Unicode, Width};",
        *[line for row in rows for line in character_set(row).rstrip("\n").split("\n")],
    ]
    return {"crates/der_types/src/generated/character_sets.rt": text}
