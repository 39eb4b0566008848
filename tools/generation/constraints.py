"""The types of der_types whose values a constraint allows: one template for all."""
from string import Template

from generation.files import Files, Lines, source
from generation.table import Constraint, constraints

TYPE = """
ghost use Rattle.std.proofs.Common.{ap};
ghost use Rattle.std.specs.Prelude.{◌≡◌, ${order}true, false, not, refl, IfSome, IfNone, IfOk, IfErr};
ghost use Rattle.picky_der_core.specs.Equality.{IsThatOf};
ghost use Rattle.picky_der_de.specs.Reading.{Reads, Refuses};
ghost use Rattle.picky_der_de.specs.Facts.{tested_part_facts};
ghost use Rattle.picky_der_de.specs.RefusesBy.{RefusesBy};
ghost use Rattle.picky_der_de.specs.Rules.{tested_rule};
ghost use Rattle.der_types.specs.Constraints.{$test_imports};
ghost use Rattle.der_types.specs.ExactConstraints.{$lemmas};
ghost use Rattle.der_types.specs.Notation.{Notation};
ghost use Rattle.der_types.specs.Sameness.{newtype_sameness};

use crate::{${bound_use}Constrained, Exact, $uses, deserialize_constrained_as};
use picky_der_core::Result;
use picky_der_core::asn1::Tag;
use picky_der_core::misc::{ReadExt, WriteExt};
use picky_der_de::{Begins, Deserialize, Deserializer, Faithful};
use picky_der_ser::{$list_use Serialize, Serializer};
use std::alloc::AllocError;
use std::fmt;
$phantom_use
$doc
$derives
pub struct $name<T: $of, $parameters> {
    value: T,
$fields    ghost allowed: { $test_value ≡ $holds },
}

impl<T: $of, $parameters> $type {
    /// Returns the $value, or `None` if $refused.
    pub fn new(value: T) -> Option<$type>
    where
        T: Drop,
        ensures some { IfSome result (λ it. it.value ≡ value) }
        ensures none { IfNone result ($test_value ≡ $fails) }
    {
$first        if $code {
            $then
        } else {
            $else
        }
    }

    /// Returns the $value.
    pub fn get(&self) -> &T
        ensures value { result.now ≡ self.now.value }
        ensures allowed { $test_now ≡ $holds }
    {
        &self.value
    }

    /// Returns the $value.
    pub fn into_inner(self) -> T
        ensures value { result ≡ self.value }
        ensures allowed { $test_result ≡ $holds }
    {
        let $taken = self;
        value
    }
}

/// It has a copy of the $value. A copy that the bounds don't allow, which no type of this library makes, counts as a failed
/// allocation.
impl<T: $of + Clone, $parameters> Clone for $type {
    ghost is_clone = { λ x y. T.is_clone x.value y.value };

    fn clone(&self) -> std::result::Result<$type, AllocError> {
        match Self::new(self.value.clone()?) {
            Some(copy) => Ok(copy),
            None => Err(AllocError),
        }
    }
}

/// It prints as the $value.
impl<T: $of + fmt::Debug, $parameters> fmt::Debug for $type {
    ghost debug_output = { λ it. T.debug_output it.value };

    fn fmt<W: fmt::Write>(&self, f: &mut fmt::Formatter<W>) -> fmt::Result {
        self.value.fmt(f)
    }
}

/// It prints as the $value.
impl<T: $of + fmt::Display, $parameters> fmt::Display for $type {
    ghost output = { λ it. T.output it.value };

    fn fmt<W: fmt::Write>(&self, f: &mut fmt::Formatter<W>) -> fmt::Result {
        self.value.fmt(f)
    }
}

impl<T: $of + PartialEq, $parameters> $type {
    /// Two are equal exactly if their ${value}s are.
    pub fn equality()
        ensures { IsThatOf ⟦<$type as PartialEq>⟧.eq (λ it. it.value) T.eq }
    {}
}

impl<T: $of + Deserialize, $parameters> Constrained for $type {
    type Of = T;

    ghost unconstrained = { λ it. it.value };

    ghost allows = { λ value. $allows };

    fn constrain(value: T) -> Option<$type> {
        $name::new(value)
    }

    ghost kept = { λ it. $kept };

    ghost determined = { λ x y e. ap $compared (T.determined x y e) };
}

impl<T: $of, $parameters> Serialize for $type {
    ghost meaning = { λ it. T.meaning it.value };

    fn serialize<W: WriteExt>(&self, serializer: &mut Serializer<W>) -> Result<usize> {
        self.value.serialize(serializer)
    }
}

$list
impl<T: $of + Deserialize, $parameters> Deserialize for $type {
    ghost shape = { T.shape };

    ghost facts = { tested_part_facts T.facts T.meaning T.eq (λ it. it.value) };

    ghost proved = { Prim.assumption };

    fn deserialize<R: ReadExt>(deserializer: &mut Deserializer<R>) -> Result<$type>
        ensures ok { IfOk result (λ it. Reads T.shape deserializer.old deserializer.new
            (T.meaning it.value)) }
        ensures err { IfErr result (Refuses ⟦<$type as Serialize>⟧.meaning T.shape
            deserializer.old deserializer.new) }
        ensures refused { IfErr result (RefusesConstrained T.meaning T.shape
            (λ value. $allows) deserializer.old deserializer.new) }
        ensures refused_by { IfErr result (RefusesBy (tested_rule T.meaning T.shape
            ⟦<$type as Constrained>⟧.unconstrained T.facts.rule) deserializer.old deserializer.new) }
    {
        deserialize_constrained_as(deserializer)
    }
}

impl<T: $of + Begins, $parameters> Begins for $type {
    fn begins_with(tag: Tag) -> bool {
        T::begins_with(tag)
    }
}

impl<T: Notated + $of, $parameters> Notated for $type {
    ghost notation = { Notation.$notation $bounds T.notation };

    ghost denoted = { T.denoted };
}

impl<T: $exact, $parameters> Exact for $type {
    ghost values = { $exact_values T.values T.notation T.meaning (λ it. it.value) $bounds T.$stated T.$measure (λ it. it.allowed) (λ x e. (record { value = x; ${phantoms}allowed = e }, refl)) };

    ghost exact = { Prim.assumption };
}

$number
impl<T: Faithful + $of, $parameters> Faithful for $type {
    ghost sameness = { newtype_sameness T.sameness T.eq T.meaning (λ it. it.value) };

    ghost respects = { Prim.assumption };
}
"""

# the kind of a parameter that is a type, and the fields of such parameters
BOUND = "Bound"
PHANTOMS = {"A": "least", "B": "most"}

# what a constraint measures: the trait that says it of exact types, what such a type states, and the measure
MEASURES = {"Size": ("ExactSize", "sized", "size"), "WholeNumber": ("ExactNumber", "numbered", "number")}

# the values of a type of numbers have a number, too
NUMBER = """
impl<T: WholeNumber, $parameters> WholeNumber for $type {
    ghost number = { λ it. T.number it.value };

    fn is_at_least(&self, least: i128) -> bool {
        self.value.is_at_least(least)
    }

    fn is_at_most(&self, most: i128) -> bool {
        self.value.is_at_most(most)
    }

    ghost determined = { λ x y e. T.determined x.value y.value e };
}

impl<T: ExactNumber, $parameters> ExactNumber for $type {
    ghost numbered = { numbered_by T.numbered T.number T.meaning (λ it. it.value) };

    ghost exact_number = { Prim.assumption };
}

"""

LIST = """
impl<T: $of + List, $parameters> List for $type {
    ghost is_list = { λ it. T.is_list it.value };
}

"""


def words_of(row: Constraint) -> dict[str, str]:
    """What the template names of a row. A test that has to fail is denied."""
    names = [name for name, _ in row.parameters]
    word = {True: "true", False: "false"}
    exact, stated, measure = MEASURES[row.of]
    some, none = f"Some({made(row)})", "None"
    words = {
        "name": row.name,
        "type": f"{row.name}<{', '.join(['T', *names])}>",
        "of": row.of,
        "uses": ", ".join(sorted([exact, "Notated", row.of])),
        **struct_words(row),
        "parameters": ", ".join(f"{name}: {kind}" if kind == BOUND else f"const {name}: {kind}" for name, kind in row.parameters),
        "doc": "\n".join(f"/// {line}".rstrip() for line in row.doc.split("\n")),
        "value": row.value,
        "refused": row.refused,
        "code": row.code,
        "first": f"        {row.first}\n" if row.first else "",
        "then": some if row.holds else none,
        "else": none if row.holds else some,
        "holds": word[row.holds],
        "fails": word[not row.holds],
        "kept": "it.allowed" if row.holds else "ap not it.allowed",
        "compared": f"({row.compared})" if row.holds else f"(λ z. not ({row.compared} z))",
        "test_imports": ", ".join([*([test] if (test := row.test.split()[0]) != "int_le" else []), "RefusesConstrained"]),
        "list_use": "List," if row.is_list else "",
        "notation": row.notation,
        "bounds": row.bounds or " ".join(names),
        "exact": exact,
        "exact_values": row.exact_values,
        "stated": stated,
        "measure": measure,
    }
    for key, value in (("test_value", "value"), ("test_now", "result.now"), ("test_result", "result")):
        words[key] = Template(row.test).substitute(value=value)
    words["allows"] = words["test_value"] if row.holds else f"not ({words['test_value']})"
    words["list"] = Template(LIST.lstrip("\n")).substitute(words) if row.is_list else ""
    words.update(number_words(row, words))
    return words


def phantoms_of(row: Constraint) -> list[tuple[str, str]]:
    """The fields of the parameters that are types, with these."""
    return [(PHANTOMS[name], name) for name, kind in row.parameters if kind == BOUND]


def made(row: Constraint, phantom: str = "PhantomData") -> str:
    """A value of the type in Rust, or a pattern of one, with this in its fields of types."""
    return f"{row.name} {{ {', '.join(['value', *(f'{field}: {phantom}' for field, _ in phantoms_of(row))])} }}"


def struct_words(row: Constraint) -> dict[str, str]:
    """What the template names of the struct. One with fields of types has derives that ask nothing of these."""
    found = phantoms_of(row)
    derives = "#[derive(Drop)]\n#[derive_where(PartialEq, Eq, PartialOrd, Ord, Hash; T)]" if found else "#[derive(Drop, PartialEq, Eq, PartialOrd, Ord, Hash)]"
    return {
        "derives": derives,
        "fields": "".join(f"    #[derive_where(skip)]\n    {field}: PhantomData<{name}>,\n" for field, name in found),
        "phantoms": "".join(f"{field} = record {{}}; " for field, _ in found),
        "bound_use": f"{BOUND}, " if found else "",
        "phantom_use": "use std::marker::PhantomData;\n" if found else "",
        "taken": made(row, "_"),
    }


def number_words(row: Constraint, words: dict[str, str]) -> dict[str, str]:
    """What the template names for a type of numbers alone: that its values have numbers, and the names for that."""
    is_number = row.of == "WholeNumber"
    return {
        "number": Template(NUMBER.lstrip("\n")).substitute(words) if is_number else "",
        "lemmas": ", ".join([row.exact_values, *(["numbered_by"] if is_number else [])]),
        "order": "int_le, pos, " if is_number else "",
    }


def constrained(row: Constraint) -> Lines:
    """The file of a type."""
    return [*source(row.about), *Template(TYPE.strip("\n")).substitute(words_of(row)).split("\n")]


def files() -> Files:
    """The files of all such types."""
    return {f"crates/der_types/src/generated/{row.module}.rt": constrained(row) for row in constraints()}
