"""What `derive` reads of a file of Rust, and what it writes and refuses."""
import contextlib
import io
import os
import tempfile
import unittest
from pathlib import Path

from .. import command
from ..derive.command import with_line
from ..derive.derived_types import derived_types
from ..derive.rust_items import read_items
from ..emit.derived import Place, derived_files
from ..parse.source import NotationError

POINT = "#[derive(Debug, Drop, PartialEq, Eq)]\npub struct Point {\n    pub x: u32,\n}\n"
STATUS = "#[derive(Debug, Clone, Copy, PartialEq, Eq)]\npub enum Status {\n    On,\n    Off = 7,\n    Broken,\n}\n"
EVEN = """// asn1: test is_even
#[derive(Debug, Drop, PartialEq, Eq)]
pub struct Even {
    number: u32,
    ghost even: { (number % 2 == 0) ≡ true },
}

fn is_even(number: u32) -> bool
    ensures { result ≡ (number % 2 == 0) }
{
    number % 2 == 0
}
"""


def struct_of(*fields, name="A", derives="Debug, Drop, PartialEq, Eq", note=""):
    """A file with a struct of these fields."""
    head = f"mod derived;\n\n{f'// asn1: {note}' if note else ''}\n#[derive({derives})]\npub struct {name} {{\n"
    return head + "".join(f"    {it}\n" for it in fields) + "}\n"


def enum_of(*variants, derives="Debug, Drop, PartialEq, Eq", note=""):
    """A file with an enum of these variants."""
    return struct_of(*variants, derives=derives, note=note).replace("struct", "enum")


def files(text, *module):
    """What is written for the file of a module of the crate `mine`."""
    return derived_files(Place("mine", Path("mine"), module or ("a",)), "a.rt", text)


def derived(text):
    """The implementations that are written for the file `a.rt`."""
    return files(text)["src/a/derived.rt"]


class Reading(unittest.TestCase):
    def test_imports(self):
        file = read_items("a.rt", "use x::y::{A, b::C, d::{E, F}};\nuse crate::G;\nghost use Rattle.x.{h};\nuse x::I as J;\n")
        self.assertEqual({"A": "x::y", "C": "x::y::b", "E": "x::y::d", "F": "x::y::d", "G": "crate"}, file.imports)

    def test_other_items_are_passed_over(self):
        text = """mod derived;
impl A { fn f() -> bool ensures { x } { '}' == "{}" } }
/// }
fn g(a: &Vec<u8>) -> bool
    ensures { (λ x. x) }
{
    // {
    true
}
pub type B = Vec<u8>;
const N: u8 = { 3 };
struct Ref<'a>(&'a u8);
struct C(u8);
"""
        file = read_items("a.rt", text)
        self.assertEqual((["C"], {"g", "B", "N"}, {"derived"}), ([it.name for it in file.items], file.names, file.modules))
        self.assertEqual("&<Vec<u8>>", str(file.functions["g"]))

    def test_types(self):
        written = ["(u8, [Vec<x::Y>; 3])", "WithSize<Vec<()>, 1, { usize::MAX }>", "T<-1, 0xA8, true>", "(u8,)"]
        file = read_items("a.rt", struct_of(*(f"a{index}: {it}," for index, it in enumerate(written))))
        self.assertEqual(written, [str(it.type) for it in file.items[0].parts])

    def test_parameters(self):
        file = read_items("a.rt", struct_of("a: T,", "b: [u8; N],", name="A<T: Size + X<u8>, const N: usize>"))
        generics = file.items[0].generics
        self.assertEqual("<T: Size + X<u8> + Y, const N: usize>", generics.declared("Y"))
        self.assertEqual("<'_, T, N>", generics.arguments(("'_",)))

    def test_notes_above_and_after(self):
        text = struct_of("/// A.", "// asn1: element", "a: Option<u8>,", "b: bool, // asn1: default TRUE", "// a comment", "c: u8, // another", note="set, exact")
        file = read_items("a.rt", text)
        self.assertEqual(("set", "exact"), file.items[0].notes)
        self.assertEqual([("element",), ("default TRUE",), ()], [it.notes for it in file.items[0].parts])

    def test_the_note_of_a_type_after_another_item(self):
        file = read_items("a.rt", f"mod derived; // asn1: skip\n\n{POINT}")
        self.assertEqual((), file.items[0].notes)

    def test_numbers_of_variants(self):
        text = enum_of("On,", "Off = 7,", "Broken,", derives="Clone, Copy, PartialEq")
        (found,) = derived_types(read_items("a.rt", text), "src/a.rt")
        self.assertEqual([("On", 0), ("Off", 7), ("Broken", 8)], [(it.name, it.number) for it in found.declaration.items])


class Writing(unittest.TestCase):
    def test_members(self):
        text = derived(struct_of("a: u8,", "b: Option<Vec<u8>>,", "c: u8, // asn1: default 5", "d: ImplicitContextTag1<i8>, // asn1: default -5", "e: LaterMembers<NoneOf>,"))
        self.assertIn("type Members = (\n    u8,\n    Optional<Vec<u8>>,\n    Defaulted<u8, Number<5>>,\n    Defaulted<ImplicitContextTag1<i8>, SignedNumber<-5>>,\n", text)
        self.assertIn("    LaterMembers<NoneOf>,\n);", text)
        self.assertIn("      record { value = it.c; default = record {} },\n", text)
        self.assertIn("        let (a, Optional(b), c, d, e) = members;\n", text)

    def test_defaults(self):
        text = derived(struct_of("a: bool, // asn1: default FALSE", "b: V, // asn1: default VersionV1", "c: ImplicitContextTag1<u8>, // asn1: default 3"))
        for it in ("Defaulted<bool, False>", "Defaulted<V, VersionV1>", "Defaulted<ImplicitContextTag1<u8>, Number<3>>"):
            self.assertIn(it, text)

    def test_a_type_parameter(self):
        text = derived(struct_of("a: T,", "b: Vec<T>,", name="A<T: Size>"))
        self.assertIn("type Members<T> = (Element<T>, Vec<T>, ());", text)
        self.assertIn("impl<T: Size + Deserialize> Struct for A<T> {\n    type Members = Members<T>;", text)
        self.assertIn("ghost meaning = { sequence_of ⟦<Members<T> as SerializeMembers>⟧.members (λ it. (record { 0 = it.a }, it.b, tt)) };", text)
        self.assertIn("let (Element(a), b, ()) = members;", text)
        self.assertIn("(&self.a, &self.b, ()).serialize_sequence", text)

    def test_parameters_of_nested_tuples(self):
        text = derived(struct_of(*(f"a{it}: u8," for it in range(17)), "b: T,", name="A<T>"))
        self.assertIn("type Members3<T> = (u8, Element<T>, ());", text)
        self.assertIn("type Members2<T> = (u8, u8, u8, u8, u8, u8, u8, u8, Members3<T>);", text)
        self.assertIn("struct Last<'a, T>(&'a A<T>);", text)
        self.assertIn("impl<T: Serialize> SerializeMembers for Last<'_, T> {", text)

    def test_parameters_of_a_part(self):
        text = derived(struct_of("a: T,", *(f"a{it}: u8," for it in range(9)), name="A<T>"))
        self.assertIn("type Members2 = (u8, u8, ());", text)
        self.assertIn("type Members<T> = (Element<T>, u8, u8, u8, u8, u8, u8, u8, Members2);", text)

    def test_imports(self):
        text = "use crate::B;\nuse super::C;\nuse self::d::D;\n" + struct_of("a: B,", "b: C,", "c: D,", "d: ByteBuf,", "e: N,") + "type N = u8;\n"
        found = files(text, "x", "a")["src/x/a/derived.rt"]
        self.assertIn("use super::{A, N};\nuse crate::B;\nuse crate::x::C;\nuse crate::x::a::d::D;\nuse picky_asn1_der::asn1::{ByteBuf, Tag};\n", found)

    def test_a_set(self):
        self.assertIn("impl TagOrdered for A {\n    ghost ordered = { refl };\n}\n", derived(struct_of("a: u8,", note="set")))
        self.assertNotIn("TagOrdered", derived(struct_of("a: u8,")))

    def test_notation_on_demand(self):
        self.assertNotIn("Notat", derived(struct_of("a: u8,")))
        text = derived(struct_of("a: u8,", note="notated"))
        self.assertIn("impl Notated for A", text)
        self.assertNotIn("Exact", text)

    def test_exact_members(self):
        fields = [*(f"a{it}: u8," for it in range(8)), "b: Option<u8>,", "c: bool, // asn1: default TRUE"]
        text = derived(struct_of(*fields, note="exact"))
        for it in ("a7 = m.7;", "b = m.8.0.0;", "c = m.8.1.value;"):
            self.assertIn(it, text)

    def test_exact_alternatives(self):
        text = derived(enum_of(*(f"{it}(X{it})," for it in "ABCDE"), note="exact"))
        self.assertIn("          | Later (This x) ↦ (variants.E x, refl)\n          | Later (Other x) ↦ elim x [ ]\n", text)

    def test_exact_enumerations(self):
        text = derived(enum_of("A,", "B,", derives="Copy, Clone, PartialEq", note="exact"))
        self.assertIn("impl ExactContents for A", text)
        self.assertIn("ghost use Rattle.der_types.specs.ExactEnumerated.{enumerated_values};\n", text)

    def test_a_copy(self):
        self.assertIn("    pub fn copies()\n", derived(enum_of("A,", "B,", derives="Copy, Clone, PartialEq")))

    def test_faithful(self):
        self.assertIn("struct_sameness ⟦<Members as FaithfulMembers>⟧.sameness", derived(struct_of("a: u8,", note="faithful")))
        self.assertIn("content_sameness 0x0A (λ it. a_number it ∷ [])", derived(enum_of("A,", derives="Copy, Clone, PartialEq", note="faithful")))

    def test_clone(self):
        text = derived(struct_of("a: u8,", "b: T,", name="A<T>", note="clone"))
        self.assertIn("impl<T: Clone> Clone for A<T> {\n", text)
        self.assertIn("        let (a, b) = copies::two(&self.a, &self.b)?;\n", text)
        self.assertIn("use der_types::copies;\n", text)
        text = derived("mod derived;\n" + EVEN.replace("is_even\n", "is_even, clone\n", 1))
        self.assertIn("        match Even::new(self.number.clone()?) {\n", text)
        self.assertNotIn("copies", text)

    def test_a_readable_value(self):
        self.assertIn("impl Inhabited for A {", derived(struct_of("a: u8,", note="exact")))
        self.assertNotIn("Inhabited", derived(struct_of("a: WithSize<ByteBuf, 2000, 2000>,", note="exact")))
        self.assertNotIn("Inhabited", derived(struct_of("a: u8,", note="faithful")))

    def test_a_choice(self):
        found = files(enum_of("A(u8),", "B(bool),"))
        self.assertIn("type Parts = OneOf<u8, OneOf<bool, NoneOf>>;", found["src/a/derived.rt"])
        self.assertIn("ghost use Rattle.mine.specs.declared.a.A.TheVariants as variants;", found["src/a/derived.rt"])
        answers = found["proofs/a/derived/ASerialize/serialize/Answers.antt"]
        self.assertIn("use Rattle.mine.proofs.a.derived.ASerialize.serialize.Goals as goal\n", answers)

    def test_names_of_several_types(self):
        text = derived(struct_of("a: u8,") + "\n" + POINT)
        self.assertIn("type AParts = (u8, ());", text)
        self.assertIn("type PointParts = (u32, ());", text)

    def test_a_name_that_is_taken(self):
        text = derived("use crate::Members;\n" + struct_of("a: Members,"))
        self.assertIn("type Members2 = (Members, ());", text)

    def test_a_newtype(self):
        text = derived("mod derived;\n#[derive(Drop, PartialEq)]\npub struct Id(pub Vec<u8>);\n")
        self.assertIn("impl Via for Id {\n    type As = Vec<u8>;\n\n    ghost parts = { λ it. it.0 };\n", text)

    def test_a_type_with_a_name_of_the_library(self):
        text = derived(struct_of("a: Integer,") + POINT.replace("Point", "Integer"))
        self.assertIn("use super::{A, Integer};\n", text)

    def test_skipped(self):
        text = derived(struct_of("a: u8,") + "// asn1: skip\nstruct Other { a: f64 }\n")
        self.assertNotIn("Other", text.replace("OtherMembers", ""))


class Tested(unittest.TestCase):
    def test_of_a_number(self):
        text = derived(f"mod derived;\nghost use Rattle.std.specs.Prelude.{{◌≡◌, ◌%◌, ◌==◌, true, list_any}};\n{EVEN}")
        self.assertIn("ensures none { IfNone result ((number % 2 == 0) ≡ false) }", text)
        self.assertIn("ensures passes { (result.now % 2 == 0) ≡ true }", text)
        self.assertIn("        if is_even(number) {\n            Some(Even { number })\n", text)
        self.assertIn("ap (λ number. (number % 2 == 0)) (unsigned_tree-same (2 ^ 32 - 1) x y e)", text)
        self.assertIn("◌%◌", text.split("\n\n")[0])
        self.assertNotIn("list_any", text)

    def test_of_a_signed_number(self):
        text = derived("mod derived;\n" + EVEN.replace("u32", "i16"))
        self.assertIn("((Decides-int_eq x y).0 (int_injective (fits_signed 16) x y e))", text)

    def test_of_bytes(self):
        text = derived("mod derived;\n" + EVEN.replace("u32", "Ia5String").replace("(number % 2 == 0)", "f number.content.items").replace("number: Ia", "number: &Ia", 2).replace("number: &Ia", "number: Ia", 1))
        self.assertIn("ghost determined = { λ x y e. ap (λ t. f (tree_bytes t)) e };", text)
        self.assertIn("        if is_even(&number) {\n", text)
        self.assertIn("ensures passes { (f result.content.items) ≡ true }", text)


class Refusing(unittest.TestCase):
    def refused(self, text):
        with self.assertRaises(NotationError) as caught:
            files(text)
        return str(caught.exception.problem)

    def test_what_cannot_be_written(self):
        rows = {
            struct_of("a: u8,").replace("mod derived;", ""): "doesn't have the line `mod derived;`",
            "mod derived;\n": "no struct or enum",
            struct_of("a: u8,", derives="Debug"): "needs `#[derive(Debug, Drop, PartialEq, Eq)]`",
            enum_of("A,", derives="Debug, Drop, PartialEq"): "needs `#[derive(Debug, Clone, Copy, PartialEq, Eq)]`",
            struct_of(): "`A` has no fields",
            struct_of("a: f64,"): "`f64` is no number of ASN.1",
            struct_of("a: Vec<str>,"): "`str` is not owned",
            struct_of("a: &u8,"): "a type with `&` can't be read",
            struct_of("a: u8,", note="sets"): "the note `sets` isn't one of",
            struct_of("a: u8, // asn1: set"): "the note `set` isn't one of",
            struct_of("a: Integer, // asn1: default 5"): "use `Option<OtherThan<Integer, 5>>`",
            struct_of("a: Integer, // asn1: default"): "a default is",
            struct_of("a: u8,", name="A<T>"): "no field of `A` has the parameter `T`",
            struct_of(*(f"a{it}: u8," for it in range(33))): "has 33 members, and not 1 to 32",
            struct_of("a: u8,") + POINT.replace("Point", "Struct"): "a type can't be called `Struct`",
            enum_of("A(u8),", "B,"): "`B` has no type",
            enum_of("A(T),").replace("enum A", "enum A<T>"): "the first bytes of its alternatives aren't known",
            enum_of("A = 128,", derives="Copy, Clone, PartialEq"): "`A` is 128: each variant has another number from 0 to 127",
            enum_of("A = 1,", "B = 1,", derives="Copy, Clone, PartialEq"): "`B` is 1",
            f"mod derived;\n{EVEN}".replace("test is_even", "test is_even, exact"): "which no notation has",
            "mod derived;\n#[derive(Drop, PartialEq)]\nstruct A(u8, u8);\n": "give its fields names",
            f"mod derived;\n{EVEN}".replace("fn is_even", "fn is_odd"): "the file has no function `is_even` of a `u32`",
            f"mod derived;\n{EVEN}".replace("} ≡ true", "}").replace(" ≡ true }", " }"): "needs a named field and one ghost field",
            f"mod derived;\n{EVEN}".replace("u32", "Vec<Point>"): "implement `Constrained` by hand",
        }
        for text, wanted in rows.items():
            with self.subTest(wanted):
                self.assertIn(wanted, self.refused(text))

    def test_members_that_begin_alike(self):
        rows = {
            struct_of("a: Option<u8>,", "b: Option<i64>,"): "`b`, and `a` before it, which may be absent, can both begin with 02",
            struct_of("a: Option<u8>,", "b: Option<bool>,", "c: Integer,").replace("mod derived;\n", "mod derived;\nuse der_types::Integer;\n", 1): "`c`, and `a` before it, which may be absent, can both begin with 02",
            struct_of("a: bool, // asn1: default FALSE", "b: bool,"): "`b`, and `a` before it, which may be absent, can both begin with 01",
            struct_of("a: Option<ExplicitContextTag1<u8>>,", "b: ImplicitList<Vec<u8>, 0xA1>,"): "`b`, and `a` before it, which may be absent, can both begin with A1",
            struct_of("a: Option<Asn1RawDer>,", "b: Vec<u8>,"): "`b`, and `a` before it, which may be absent, can both begin with 30",
            enum_of("A(u8),", "B(bool),", "C(u16),"): "`C` and `A` before it can both begin with 02",
        }
        for text, wanted in rows.items():
            with self.subTest(wanted):
                self.assertIn(wanted, self.refused(text))

    def test_members_that_may_begin_alike(self):
        for text in (
            struct_of("a: Option<u8>,", "b: bool,", "c: u8,"),
            struct_of("a: u8,", "b: u8,"),
            struct_of("a: Option<Other>,", "b: Other,").replace("mod derived;\n", "mod derived;\nuse mine::Other;\n", 1),
            struct_of("a: Option<ExplicitContextTag1<u8>>,", "b: Option<ImplicitContextTag1<u8>>,"),
        ):
            with self.subTest(text):
                files(text)

    def test_the_place(self):
        self.assertTrue(self.refused(struct_of("a: u8,", "b: f64,")).startswith("a.rt:7:1: error: "))


class Command(unittest.TestCase):
    def run_on(self, folder, *words):
        """The status of the command over the folder of a crate, and what it prints."""
        out = io.StringIO()
        with contextlib.redirect_stdout(out), contextlib.redirect_stderr(out):
            status = command.main(["derive", *words, folder])
        return status, out.getvalue().replace(folder, "mine")

    def test_files(self):
        with tempfile.TemporaryDirectory() as it:
            folder = os.path.join(it, "mine")
            source = Path(folder, "src")
            source.mkdir(parents=True)
            (source / "status.rt").write_text(f"mod derived;\n{STATUS}", encoding="utf-8")
            (source / "lib.rt").write_text("mod status;\n", encoding="utf-8")
            self.assertEqual((0, "1 passed, 0 failed\n"), self.run_on(folder))
            self.assertEqual("pub mod Status\n", Path(folder, "specs/Lib.antt").read_text(encoding="utf-8"))
            self.assertEqual((0, "1 passed, 0 failed\n"), self.run_on(folder, "--check"))
            (source / "status.rt").write_text(f"mod derived;\n{POINT}", encoding="utf-8")
            status, printed = self.run_on(folder, "--check")
            self.assertEqual(1, status)
            self.assertIn("mine/specs/Status.antt isn't what would be written\n", printed)
            self.assertIn("mine/src/status/derived.rt isn't what would be written\n", printed)
            self.run_on(folder)
            self.assertFalse(Path(folder, "specs/Status.antt").exists())

    def test_what_is_no_file_of_a_module(self):
        with tempfile.TemporaryDirectory() as it:
            path = Path(it, "mine", "src", "lib.rt")
            path.parent.mkdir(parents=True)
            path.write_text("mod derived;\n", encoding="utf-8")
            self.assertIn("give them a module", self.run_on(str(path))[1])
            self.assertIn("no file `NAME.rt`", self.run_on(os.path.join(it, "a.rt"))[1])

    def test_the_line_of_a_file_of_terms(self):
        self.assertEqual("pub mod A\npub mod B\npub mod C\n", with_line("pub mod A\npub mod C\n", "B"))
        self.assertEqual("pub mod A\n", with_line("pub mod A\n", "A"))
