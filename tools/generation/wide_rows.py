"""What the rows of der_rows write and read of each width of a tuple that no other row has."""
from generation.files import Files, Lines, source

# the numbers of elements of the tuples that are read and written, and of the members that are written one by one
READ = [6, 7]
WRITTEN = [6, 9, 10, 11, 12, 13, 14, 15]
MEMBERS = [10, 12, 13, 14, 15, 16]
# a struct that is read as three tuples, each at the end of the one before
ORDINALS = """first second third fourth fifth sixth seventh eighth ninth tenth eleventh twelfth thirteenth fourteenth fifteenth
    sixteenth seventeenth eighteenth""".split()
FIVE, SIX, SEVEN = ORDINALS[:5], ORDINALS[5:11], ORDINALS[11:]

HEAD = """
ghost use Rattle.std.specs.Prelude.{refl};
ghost use Rattle.picky_der_de.specs.MembersFacts.{struct_facts, sequence_of, sequence_shape};

use crate::answers::{RowBytes, Writing, read_as, written};
use crate::row::Row;
use picky_asn1_der::misc::{ReadExt, WriteExt};
use picky_asn1_der::{
    Deserialize, DeserializeMembers, Deserializer, Result as DerResult, Serialize,
    SerializeMembers, Serializer, Struct, deserialize_struct_as,
};
use std::alloc::{AllocError, Global};
"""


def types(count: int) -> str:
    """So many types `u8`."""
    return ", ".join(["u8"] * count)


def numbers(count: int) -> str:
    """So many numbers from 1 on."""
    return ", ".join(f"{it}u8" for it in range(1, count + 1))


def answer() -> Lines:
    """The function that reads."""
    tuples = [f"({types(count)})" for count in READ]
    names = [*tuples, f"Row<({types(READ[0])}, ())>", "Eighteen"]
    return [
        "/// The result of a row that names one of these types.",
        "pub(crate) fn answer(alloc: Global, name: &str, row: &RowBytes) -> Result<String, AllocError> {",
        "    match name {",
        *(f'        "{name}" => read_as::<{name}>(alloc, row),' for name in names),
        '        _ => String::from_str(alloc, "unknown type"),',
        "    }",
        "}",
        "",
    ]


def written_value() -> Lines:
    """The function that writes tuples."""
    names = {f"({numbers(count).replace('u8', '').replace('1', '1u8', 1)})": f"({numbers(count)})" for count in WRITTEN}
    return [
        "/// The result of a row that names one of these values.",
        "pub(crate) fn written_value(alloc: Global, how: Writing, name: &str) -> Result<String, AllocError> {",
        "    match name {",
        *(f'        "{name}" => written(alloc, how, &{value}),' for name, value in names.items()),
        '        _ => String::from_str(alloc, "unknown value"),',
        "    }",
        "}",
        "",
    ]


def serialize_members() -> Lines:
    """The function that writes members."""
    return [
        "/// What this call of a serializer returns for this many members, none of which may be absent, and for the members after them.",
        "pub(crate) fn serialize_members<W: WriteExt>(ser: &mut Serializer<W>, name: &str) -> Option<DerResult<usize>> {",
        "    match name {",
        *(f'        "serialize_sequence {count}" => Some(({numbers(count)}, ()).serialize_sequence(ser)),' for count in MEMBERS),
        "        _ => None,",
        "    }",
        "}",
        "",
    ]


def eighteen() -> Lines:
    """The struct, and how it is read as tuples."""
    part = {it: f"it.{it}" for it in ORDINALS}
    inner = ", ".join([*(part[it] for it in SEVEN), "tt"])
    middle = ", ".join([*(part[it] for it in SIX), f"({inner})"])
    parts = ", ".join([*(part[it] for it in FIVE), f"({middle})"])
    return [
        "/// Eighteen numbers, as a SEQUENCE. They are read as a tuple of five, one of six and one of seven, each at the end of the one before.",
        "#[derive(Debug, Drop, PartialEq, Eq)]",
        "pub(crate) struct Eighteen {",
        *(f"    {it}: u8," for it in ORDINALS),
        "}",
        "",
        f"type Five = ({types(len(FIVE))}, Six);",
        "",
        f"type Six = ({types(len(SIX))}, Seven);",
        "",
        f"type Seven = ({types(len(SEVEN))}, ());",
        "",
        "impl Struct for Eighteen {",
        "    type Members = Five;",
        "",
        f"    ghost parts = {{ λ it. ({parts}) }};",
        "",
        "    fn from_parts(members: Five) -> Eighteen {",
        f"        let ({', '.join(FIVE)}, others) = members;",
        f"        let ({', '.join(SIX)}, last) = others;",
        f"        let ({', '.join(SEVEN)}, ()) = last;",
        f"        Eighteen {{ {', '.join(ORDINALS)} }}",
        "    }",
        "}",
        "",
    ]


def eighteen_both_ways() -> Lines:
    """How the struct is written and read."""
    fields = {it: f"self.{it}" for it in ORDINALS}
    return [
        "impl Serialize for Eighteen {",
        "    ghost meaning = { sequence_of ⟦<Five as SerializeMembers>⟧.members ⟦<Self as Struct>⟧.parts };",
        "",
        "    fn serialize<W: WriteExt>(&self, serializer: &mut Serializer<W>) -> DerResult<usize> {",
        f"        let seven = ({', '.join(fields[it] for it in SEVEN)}, ());",
        f"        let six = ({', '.join(fields[it] for it in SIX)}, seven);",
        f"        ({', '.join(fields[it] for it in FIVE)}, six).serialize_sequence(serializer)",
        "    }",
        "}",
        "",
        "impl Deserialize for Eighteen {",
        "    ghost shape = { sequence_shape ⟦<Five as DeserializeMembers>⟧.layout };",
        "",
        "    ghost facts = { struct_facts ⟦<Five as DeserializeMembers>⟧.facts refl ⟦<Self as Struct>⟧.parts };",
        "",
        "    fn deserialize<R: ReadExt>(deserializer: &mut Deserializer<R>) -> DerResult<Eighteen> {",
        "        deserialize_struct_as(deserializer)",
        "    }",
        "",
        "    ghost proved = { Prim.assumption };",
        "}",
    ]


def files() -> Files:
    """The file of these rows."""
    about = "Tuples, rows and structs of the widths that no other row has."
    text = [*source(about), *HEAD.strip("\n").split("\n"), "", *answer(), *written_value(), *serialize_members(), *eighteen(), *eighteen_both_ways()]
    return {"crates/der_rows/src/generated/widths.rt": text}
