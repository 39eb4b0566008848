"""Constants for the names of bits, numbers and items, and for values."""
import contextlib
import io
import os
import tempfile
import unittest
from pathlib import Path

from .. import command
from ..emit.named import named_file
from ..emit.values import constant_lines, quoted, value_file, values_of
from ..meaning.named import constant_name, constants_of, names_of, octets
from ..parse import tree
from . import given, module_text


def names(body, *types, header="EXPLICIT TAGS"):
    """The names of these types and their parts: the module of constants, and each constant with its type and number."""
    one = given(body, header)
    for it in types:
        one.meaning(it)
    found = names_of(one.program, one.meanings.declarations.by_name)
    return {it.name: [(name.name, name.type, name.number) for name in it.names] for it in found}


def constants(body, taken=()):
    """The constants of a module, by their names."""
    one = given(body)
    return {it.name: (it.type, it.value) for it in constants_of(one.program, one.program.modules, taken)}


class NamesOfTypes(unittest.TestCase):
    def test_bits(self):
        self.assertEqual({"flags": [("IS_RAW", "usize", 0), ("MEAN", "usize", 4)]}, names("Flags ::= BIT STRING { is-raw(0), mean(4) }", "Flags"))

    def test_numbers_have_the_type_of_rust_that_has_them(self):
        body = "A ::= INTEGER { one(1), two(2) } B ::= INTEGER { one(1) } (0..255) C ::= INTEGER { low(-5) } (-10..300) D ::= INTEGER { far(300) } (0..255)"
        wanted = {"a": [("ONE", "i64", 1), ("TWO", "i64", 2)], "b": [("ONE", "u8", 1)], "c": [("LOW", "i16", -5)], "d": [("FAR", "i64", 300)]}
        self.assertEqual(wanted, names(body, "A", "B", "C", "D"))

    def test_a_number_of_more_than_64_bits(self):
        self.assertEqual({"a": [("BIG", "i128", 2**64)]}, names(f"A ::= INTEGER {{ big({2**64}) }}", "A"))

    def test_items_that_an_enumeration_may_have_more_of(self):
        self.assertEqual({"e": [("A", "i64", 0), ("B", "i64", 7), ("C", "i64", 1)]}, names("E ::= ENUMERATED { a, b(7), ..., c }", "E"))

    def test_what_is_an_enum_has_names(self):
        self.assertEqual({}, names("E ::= ENUMERATED { a, b } I ::= INTEGER { a(0), b(1) } (0..1)", "E", "I"))

    def test_parts_are_called_after_their_members(self):
        body = """A ::= SEQUENCE { version INTEGER { v1(0) } (v1), kinds SEQUENCE OF ENUMERATED { a, ... }, ch CHOICE { f BIT STRING { x(0) } },
            box OCTET STRING (CONTAINING INTEGER { i(3) }) }"""
        wanted = {"a_version": [("V1", "u8", 0)], "a_kinds_item": [("A", "i64", 0)], "a_ch_f": [("X", "usize", 0)], "a_box_content": [("I", "i64", 3)]}
        self.assertEqual(wanted, names(body, "A"))

    def test_only_of_types_that_are_written(self):
        self.assertEqual(["b"], [*names("A ::= INTEGER { x(1) } B ::= INTEGER { y(2) }", "B")])

    def test_names_that_are_the_same_in_rust(self):
        self.assertEqual({"a": [("AB_C", "i64", 1), ("AB_C_2", "i64", 2)]}, names("A ::= INTEGER { ab-c(1), abC(2) }", "A"))
        self.assertEqual("N2", constant_name("2"))

    def test_a_number_by_a_value(self):
        self.assertEqual({"a": [("X", "i64", 6)]}, names("A ::= INTEGER { x(six) } six INTEGER ::= 6", "A"))

    def test_defaults(self):
        body = "A ::= SEQUENCE { a INTEGER DEFAULT 5, b [0] INTEGER (0..999) DEFAULT 300, c [1] INTEGER (-500..500) DEFAULT -1, d BOOLEAN DEFAULT TRUE }"
        self.assertEqual({"a": [("A_DEFAULT", "i64", 5), ("B_DEFAULT", "u16", 300), ("C_DEFAULT", "i16", -1)]}, names(body, "A"))


    def test_their_law(self):
        one = given("A ::= INTEGER { low(-5), type(1) } B ::= INTEGER { z(3) } (0..255)")
        for it in "AB":
            one.meaning(it)
        lines = named_file(names_of(one.program, one.meanings.declarations.by_name))
        self.assertEqual("ghost use Rattle.std.specs.Prelude.{negsuc, pos, ◌≡◌};", lines[1])
        for wanted in ("low { LOW ≡ negsuc 4 }", "type_ { TYPE ≡ pos 1 }", "z { Z ≡ 3 }"):
            self.assertIn(f"        ensures {wanted}", lines)


class Values(unittest.TestCase):
    def test_each_kind(self):
        body = """n INTEGER ::= 7 m Size ::= n Size ::= INTEGER (0..9) far INTEGER ::= 99999999999999999999 is-on BOOLEAN ::= TRUE
            title UTF8String ::= "a ""b"" \\" key OCTET STRING ::= '00FF'H bits OCTET STRING ::= '10000000 1'B"""
        wanted = {"N": ("i64", "7"), "M": ("i64", "7"), "FAR": ("i128", "99999999999999999999"), "IS_ON": ("bool", "true")}
        wanted |= {"TITLE": ("&str", 'a "b" \\'), "KEY": ("&[u8]", [0, 0xFF]), "BITS": ("&[u8]", [0x80, 0x80])}
        self.assertEqual(wanted, constants(body))

    def test_what_is_no_constant(self):
        self.assertEqual({}, constants("a OBJECT IDENTIFIER ::= { 2 5 } b NULL ::= NULL c BIT STRING ::= '1'B d ENUMERATED { x } ::= x"))

    def test_an_object_identifier_has_the_name_first(self):
        self.assertEqual({}, constants("a-b INTEGER ::= 7", taken=["A_B"]))

    def test_a_text_over_two_lines(self):
        self.assertEqual(("&str", "onetwo"), constants('a UTF8String ::= "one  \n   two"')["A"])

    def test_octets_and_texts(self):
        self.assertEqual([0x5A, 0xB0], octets(tree.BitsValue(None, "5AB", 4)))
        self.assertEqual('"\\u{7}é"', quoted("\x07é"))

    def test_their_file(self):
        one = given("n INTEGER ::= 7")
        found = constants_of(one.program, one.program.modules, ())
        wanted = ["//! Values.", "ghost use Rattle.std.specs.Prelude.{◌≡◌, pos};", "", "/// `n`, `INTEGER`.", "pub const N: i64 = 7;", ""]
        wanted += ["/// Which values the other constants are: a text by the bytes of its UTF-8.", "pub fn constants()", "    ensures n { N ≡ pos 7 }", "{}"]
        self.assertEqual(wanted, value_file([], found))
        text = constants_of(given(f'n UTF8String ::= "{"x" * 90}"').program, given(f'n UTF8String ::= "{"x" * 90}"').program.modules, ())[0]
        self.assertEqual(["pub const N: &str =", f'    "{"x" * 90}";'], constant_lines(text))

    def test_the_law_of_each_kind(self):
        one = given('n INTEGER ::= -7 a BOOLEAN ::= TRUE b UTF8String ::= "é" c OCTET STRING ::= \'00FF\'H type OCTET STRING ::= \'\'H')
        lines = value_file([], constants_of(one.program, one.program.modules, ()))
        self.assertEqual("ghost use Rattle.std.specs.Prelude.{◌≡◌, [], ◌∷◌, negsuc, true};", lines[1])
        wanted = ["n { N ≡ negsuc 6 }", "a { A ≡ true }", "b { B.now ≡ 195 ∷ 169 ∷ [] }", "c { C.now ≡ 0 ∷ 255 ∷ [] }", "type_ { TYPE.now ≡ [] }"]
        self.assertEqual([f"    ensures {it}" for it in wanted], lines[-6:-1])

    def test_their_file_with_object_identifiers(self):
        one = given("a OBJECT IDENTIFIER ::= { 2 5 4 } n INTEGER ::= 7")
        lines = value_file(values_of(one.program, one.program.modules), constants_of(one.program, one.program.modules, ()))
        self.assertEqual(["pub const A: &[u8] = &[0x55, 0x04];", "", "/// `n`, `INTEGER`.", "pub const N: i64 = 7;", ""], lines[5:10])


class Files(unittest.TestCase):
    def test_the_command(self):
        body = "A ::= BIT STRING { x(0) } -- no use\nn INTEGER ::= 7"
        with tempfile.TemporaryDirectory() as folder, contextlib.redirect_stdout(io.StringIO()):
            path, crate = os.path.join(folder, "m.asn1"), Path(folder, "it")
            Path(path).write_text(module_text(body), encoding="utf-8")
            for words, has_values in (([], True), (["--type", "A"], False)):
                self.assertEqual(0, command.main(["--out", str(crate), *words, path]))
                root = (crate / "src/lib.rt").read_text(encoding="utf-8")
                self.assertIn("pub mod named;\n", root)
                self.assertTrue((crate / "src/named.rt").exists())
                self.assertEqual(has_values, "pub mod values;\n" in root)

    def test_their_text(self):
        with tempfile.TemporaryDirectory() as folder, contextlib.redirect_stdout(io.StringIO()):
            path, crate = os.path.join(folder, "m.asn1"), Path(folder, "it")
            Path(path).write_text(module_text("A ::= BIT STRING {\n  x(0), -- only here\n  y(1) }"), encoding="utf-8")
            command.main(["--out", str(crate), path])
            lines = (crate / "src/named.rt").read_text(encoding="utf-8").split("\n")
        wanted = """//! Names of bits, numbers and items, as `named::a::X`.
ghost use Rattle.std.specs.Prelude.{◌≡◌};

/// The bits of `A` of M.
pub mod a {
    /// only here. `x`.
    pub const X: usize = 0;

    /// `y`.
    pub const Y: usize = 1;

    /// Which numbers these are.
    pub fn numbers()
        ensures x { X ≡ 0 }
        ensures y { Y ≡ 1 }
    {}
}
"""
        self.assertEqual(wanted.split("\n"), lines[2:])
