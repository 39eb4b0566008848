"""What der_types says of each type of numbers: its notation, that it is exact, its defaults, and its numbers as whole numbers."""
from string import Template

from generation.files import Files, Lines, source
from generation.numbers import SIGNED, UNSIGNED, USIZE, Number, each

UNSIGNED_TYPE = """
impl Notated for $name {
    ghost notation = { Notation.unsigned $bits };

    ghost denoted = { refl };
}

impl Exact for $name {
    ghost values = { unsigned_values $bits refl };

    ghost exact = { Prim.assumption };
}

impl ExactNumber for $name {
    ghost numbered = { numbered_unsigned (2 ^ $bits - 1) };

    ghost exact_number = { Prim.assumption };
}

impl<const N: u8> NotatedDefault<$name> for Number<N> {
    ghost value = { unsigned_tree (2 ^ $bits - 1) N };

    ghost is_value = { λ it h. ap (unsigned_tree (2 ^ $bits - 1)) (eqb-true it N h) };
}

impl<const N: u8> ExactDefault<$name> for Number<N> {
    ghost default = { number_default (2 ^ $bits - 1) N };

    ghost exact_default = { Prim.assumption };
}
"""

SIGNED_TYPE = """
impl Notated for $name {
    ghost notation = { Notation.signed $bits };

    ghost denoted = { refl };
}

impl Exact for $name {
    ghost values = { signed_values $bits };

    ghost exact = { Prim.assumption };
}

impl ExactNumber for $name {
    ghost numbered = { numbered_signed $bits };

    ghost exact_number = { Prim.assumption };
}

impl<const N: i8> NotatedDefault<$name> for SignedNumber<N> {
    ghost value = { int_tree (fits_signed $bits) N };

    ghost is_value = { λ it h. ap (int_tree (fits_signed $bits)) ((Decides-int_eq it N).0 h) };
}

impl<const N: i8> ExactDefault<$name> for SignedNumber<N> {
    ghost default = { signed_default (fits_signed $bits) N };

    ghost exact_default = { Prim.assumption };
}
"""

WHOLE_NUMBER = """
impl WholeNumber for $name {
    ghost number = { $shown };

    fn is_at_least(&self, least: i128) -> bool {
        $at_least
    }

    fn is_at_most(&self, most: i128) -> bool {
        $at_most
    }

    ghost determined = { λ x y e. $determined };
}
"""

# a number as one of the type of the bounds
WIDENED = {"usize": "i128::from(*self as u64)", "i128": "*self"}


def whole_number(number: Number, shown: str, determined: str) -> Lines:
    """A type as one of whole numbers: what its number is, and why its encoding decides that."""
    wide = WIDENED.get(number.name, "i128::from(*self)")
    words = {
        "at_least": f"least <= {wide}",
        "at_most": f"{wide} <= most",
        "shown": shown,
        "determined": Template(determined).substitute(bits=number.bits),
    }
    return each(WHOLE_NUMBER, [number], **words)


def whole_numbers() -> Lines:
    """All types as whole numbers, but for `u128`, which may be above all bounds."""
    unsigned = "ap pos (unsigned_tree-same (2 ^ $bits - 1) x y e)"
    signed = "(Decides-int_eq x y).0 (int_injective (fits_signed $bits) x y e)"
    return [
        *(line for it in [*UNSIGNED, USIZE] if it.bits < 128 for line in whole_number(it, "pos", unsigned)),
        *(line for it in SIGNED for line in whole_number(it, "λ z. z", signed)),
    ]


def notated_numbers() -> Lines:
    """The file of the types of numbers."""
    return [
        *source("The types of numbers of each width as types of ASN.1."),
        "ghost use Rattle.std.proofs.Common.{ap, eqb-true};",
        "ghost use Rattle.std.proofs.lemmas.Bool.Decides.{Decides-int_eq};",
        "ghost use Rattle.std.specs.Prelude.{◌≡◌, ◌^◌, ◌-◌, int_le, pos, true, refl};",
        "ghost use Rattle.picky_der_core.specs.Integer.{fits_signed, int_tree, unsigned_tree};",
        "ghost use Rattle.picky_der_core.specs.UnsignedTreeLaws.{unsigned_tree-same};",
        "ghost use Rattle.picky_der_de.specs.InjectiveLaws.{int_injective};",
        "ghost use Rattle.der_types.specs.ExactConstraints.{numbered_signed, numbered_unsigned};",
        "ghost use Rattle.der_types.specs.ExactContents.{signed_values, unsigned_values};",
        "ghost use Rattle.der_types.specs.ExactDefaults.{number_default, signed_default};",
        "ghost use Rattle.der_types.specs.Notation.{Notation};",
        "",
        "use crate::{Exact, ExactDefault, ExactNumber, Notated, NotatedDefault, WholeNumber};",
        "use picky_der_ser::{Number, SignedNumber};",
        "",
        *each(UNSIGNED_TYPE, [*UNSIGNED, USIZE]),
        *each(SIGNED_TYPE, SIGNED),
        *whole_numbers(),
    ]


FROM_INTEGER = """
/// The number of an INTEGER; `UnsupportedValue` if it doesn't fit the type.
impl TryFrom<&Integer> for $name {
    type Error = Asn1DerError;

    ghost try_from_gives = { λ integer made.
        IfOk made (λ n. $number ≡ integer_value integer.now.content.items)
        × IfErr made (λ e. (e ≡ UnsupportedValue)
            × ($fits $bits (integer_value integer.now.content.items) ≡ false)) };

    fn try_from(integer: &Integer) -> Result<$name> {
        match number_of(integer.content()) {
            Some(number) => Ok(number),
            None => Err(Asn1DerError::UnsupportedValue),
        }
    }
}
"""


def numbers_of_integers() -> Lines:
    """The file of numbers of INTEGERs as numbers of each type."""
    return [
        *source("The numbers of INTEGERs, in each type that has them."),
        "ghost use Rattle.std.specs.Prelude.{◌≡◌, pos, false, IfOk, IfErr};",
        "ghost use Rattle.picky_der_core.specs.Integer.{fits_signed, fits_unsigned, integer_value};",
        "ghost use Rattle.picky_der_core.specs.declared.error.Asn1DerError.TheVariants.{UnsupportedValue};",
        "",
        "use crate::Integer;",
        "use picky_der_core::integer::number_of;",
        "use picky_der_core::{Asn1DerError, Result};",
        "use std::convert::TryFrom;",
        "",
        *each(FROM_INTEGER, UNSIGNED, number="pos n", fits="fits_unsigned"),
        *each(FROM_INTEGER, SIGNED, number="n", fits="fits_signed"),
    ]


def files() -> Files:
    """The files of der_types."""
    return {"crates/der_types/src/generated/numbers.rt": notated_numbers(), "crates/der_types/src/generated/integer_numbers.rt": numbers_of_integers()}
