"""Constructors of structs, and the numbers of members that have a default."""
import contextlib
import io
import os
import tempfile
import unittest
from pathlib import Path

from .. import command
from ..emit.constructors import excluded, number_value
from ..meaning.causes import Allowed
from ..meaning.inside import without_tags
from ..meaning.rust_types import of
from . import module_text
from .test_emit import crate_of


def file_of(body, *names, header="EXPLICIT TAGS", only=()):
    """The constructors of these types, or of those in `only`."""
    crate = crate_of(body, *names, header=header)
    crate.constructed = Allowed(only or [""])
    return crate.files().get("src/constructors.rt", "")


class New(unittest.TestCase):
    def test_members_that_have_to_be_there(self):
        text = file_of("A ::= SEQUENCE { a NULL, b [0] INTEGER, c [1] IMPLICIT SEQUENCE OF BOOLEAN }", "A")
        self.assertIn("    /// Returns the value with these members.\n    pub fn new(a: (), b: Integer, c: Vec<bool>) -> A\n", text)
        self.assertIn("        ensures { result ≡ record { a = a; b = record { 0 = b }; c = record { 0 = c } } }\n", text)
        self.assertIn("        A {\n            a,\n            b: ExplicitContextTag(b),\n            c: ImplicitList(c),\n        }\n", text)

    def test_members_that_it_leaves_out(self):
        text = file_of("A ::= SEQUENCE { a NULL, b [0] NULL OPTIONAL, c BOOLEAN DEFAULT TRUE }", "A")
        self.assertIn("    /// Returns the value with these members. The others are absent or have their defaults.\n    pub fn new(a: ()) -> A\n", text)
        self.assertIn("        ensures { result ≡ record { a = a; b = None; c = true } }\n", text)
        self.assertIn("        A {\n            a,\n            b: None,\n            c: true,\n        }\n", text)

    def test_no_member_has_to_be_there(self):
        text = file_of("A ::= SEQUENCE { a NULL OPTIONAL }", "A")
        self.assertIn("    /// Returns the value whose members are absent.\n    pub fn new() -> A\n", text)

    def test_then_it_is_the_default(self):
        text = file_of("A ::= SEQUENCE { a NULL OPTIONAL, b BOOLEAN DEFAULT TRUE }", "A")
        self.assertIn("impl Default for A {\n    ghost is_default = { λ it. it ≡ record { a = None; b = true } };\n", text)
        self.assertIn("    fn default() -> A {\n        A::new()\n    }\n", text)
        for members in ("a NULL, b BOOLEAN DEFAULT TRUE", "a NULL OPTIONAL, ..."):
            self.assertNotIn("impl Default", file_of(f"A ::= SEQUENCE {{ {members} }}", "A"))

    def test_each_kind_of_default(self):
        body = """A ::= SEQUENCE { a [0] INTEGER (0..255) DEFAULT 7, b [1] INTEGER (-128..127) DEFAULT -3, c [2] E DEFAULT y, d [3] INTEGER DEFAULT 5,
            e [4] INTEGER (-128..127) DEFAULT 4 } E ::= ENUMERATED { x(3), y(9) }"""
        text = file_of(body, "A")
        for wanted in ("a = record { 0 = 7 };", "b = record { 0 = negsuc 2 };", "c = record { 0 = E.Y };", "d = None;", "e = record { 0 = pos 4 };"):
            self.assertIn(f"          {wanted}\n", text)
        for wanted in ("a: ExplicitContextTag(7),", "b: ExplicitContextTag(-3),", "c: ExplicitContextTag(E::Y),", "d: None,"):
            self.assertIn(f"            {wanted}\n", text)
        self.assertIn("ghost use Rattle.std.specs.Prelude.{IfNone, IfSome, None, Some, false, negsuc, pos, ◌≡◌};\n", text)
        self.assertIn("use crate::{A, E};\n", text)

    def test_a_default_under_the_tag_of_a_name(self):
        """The parameter has the name of the type, and the default the tag that the name has."""
        text = file_of("A ::= SEQUENCE { a B DEFAULT TRUE } B ::= [1] BOOLEAN", "A")
        self.assertIn("record { a = record { 0 = true } }", text)
        self.assertIn("    pub fn with_a(self, a: B) -> A\n        ensures { result ≡ record { a = a } }\n", text)

    def test_members_of_later_versions(self):
        text = file_of("A ::= SEQUENCE { a NULL, ... }", "A")
        self.assertIn("    pub fn new(a: (), later_members: LaterElements<NoneOf>) -> A\n", text)

    def test_long_parameters(self):
        members = ", ".join(f"member-number-{it} OCTET STRING (SIZE (1..4))" for it in range(3))
        text = file_of(f"A ::= SEQUENCE {{ {members} }}", "A")
        self.assertIn("    pub fn new(\n        member_number_0: WithSize<ByteBuf, 1, 4>,\n", text)
        self.assertIn("    ) -> A\n        ensures { result ≡ record {\n          member_number_0 = member_number_0;\n", text)


class With(unittest.TestCase):
    def test_a_member_that_may_be_absent(self):
        text = file_of("A ::= SEQUENCE { a NULL, b [0] NULL OPTIONAL, c NULL OPTIONAL }", "A")
        self.assertIn("    pub fn with_b(self, b: ()) -> A\n        ensures { result ≡ record self { b = Some (record { 0 = b }) } }\n", text)
        self.assertIn("        A {\n            b: Some(ExplicitContextTag(b)),\n            ..self\n        }\n", text)
        self.assertIn("        ensures { result ≡ record self { c = Some c } }\n", text)
        self.assertNotIn("with_a", text)

    def test_the_only_member(self):
        text = file_of("A ::= SEQUENCE { a NULL OPTIONAL }", "A")
        self.assertIn("        ensures { result ≡ record { a = Some a } }\n    {\n        A { a: Some(a) }\n", text)


class OrDefault(unittest.TestCase):
    def test_a_number_of_a_type_of_rust(self):
        text = file_of("A ::= SEQUENCE { a INTEGER (0..9) DEFAULT 5 }", "A")
        self.assertIn("    pub fn a_or_default(&self) -> u8\n        ensures default { self.now.a ≡ None → result ≡ 5 }\n", text)
        self.assertIn("        ensures some { IfSome self.now.a (λ it. ⟦<OtherThan<InRange<u8, 0, 9>, 5> as WholeNumber>⟧.number it\n            ≡ pos result) }\n", text)
        self.assertIn("            Some(a) => *a.get().get(),\n            None => 5,\n", text)
        self.assertIn("use der_types::{InRange, OtherThan, WholeNumber};\n", text)

    def test_a_number_below_zero(self):
        text = file_of("A ::= SEQUENCE { a [0] INTEGER (-500..9000) DEFAULT -1 }", "A")
        self.assertIn("    pub fn a_or_default(&self) -> i16\n        ensures default { self.now.a ≡ None → result ≡ negsuc 0 }\n", text)
        number = "⟦<Outside<AtMost<AtLeast<i16, Minus<500>>, Plus<9000>>, Minus<1>, Minus<1>> as WholeNumber>⟧.number it.0"
        self.assertIn(f"        ensures some {{ IfSome self.now.a (λ it. {number}\n            ≡ result) }}\n", text)
        self.assertIn("            Some(a) => *a.0.get().get().get(),\n            None => -1,\n", text)

    def test_any_integer(self):
        text = file_of("A ::= SEQUENCE { a [0] INTEGER DEFAULT -5 }", "A")
        number = "⟦<Outside<Integer, Minus<5>, Minus<5>> as WholeNumber>⟧.number it.0"
        for wanted in (
            "    pub fn a_or_default(&self) -> Option<i64>\n        ensures default { self.now.a ≡ None → result ≡ Some (negsuc 4) }\n",
            f"        ensures some {{ IfSome self.now.a (λ it. IfSome result\n            (λ number. {number} ≡ number)) }}\n",
            f"        ensures beyond {{ IfSome self.now.a (λ it. IfNone result\n            (fits_signed 64 ({number}) ≡ false)) }}\n",
            "            Some(a) => a.0.get().to_int(),\n            None => Some(-5),\n",
            "ghost use Rattle.picky_der_core.specs.Integer.{fits_signed};\n",
        ):
            self.assertIn(wanted, text)
        self.assertIn("a_or_default(&self) -> Option<i128>\n", file_of(f"A ::= SEQUENCE {{ a INTEGER DEFAULT {2**63} }}", "A"))

    def test_numbers(self):
        self.assertEqual(["5", "pos 5", "negsuc 4"], [number_value(*it).term for it in ((5, False), (5, True), (-5, True))])
        self.assertEqual([7, -7, 7], [excluded(it) for it in (of("OtherThan", of("u8"), "7"), *(of("Outside", of("i8"), of(sign, "7"), of(sign, "7")) for sign in ("Minus", "Plus")))])


class Alternatives(unittest.TestCase):
    def test_those_under_tags(self):
        text = file_of("A ::= CHOICE { dns-name [0] NULL, d BOOLEAN, if [1] EXPLICIT SEQUENCE OF NULL }", "A")
        self.assertIn("    /// Returns the alternative `DnsName` with this value.\n    pub fn dns_name(dns_name: ()) -> A\n", text)
        self.assertIn("        ensures { result ≡ A.DnsName (record { 0 = dns_name }) }\n    {\n        A::DnsName(ExplicitContextTag(dns_name))\n    }\n", text)
        self.assertIn("    pub fn if_(if_: Vec<()>) -> A\n", text)
        self.assertNotIn("fn d(", text)

    def test_none_is_under_a_tag(self):
        self.assertEqual("", file_of("A ::= CHOICE { a NULL, b BOOLEAN }", "A"))


class Tags(unittest.TestCase):
    def test_all(self):
        found = without_tags(of("ExplicitContextTag1", of("ImplicitContextTag", of("ImplicitList2", of("Vec", of("u8"))), "17")))
        self.assertEqual(("Vec<u8>", ("ExplicitContextTag", "ImplicitContextTag", "ImplicitList")), (str(found.inner), found.tags))
        self.assertEqual("ExplicitContextTag(ImplicitContextTag(ImplicitList(x)))", found.value("x"))
        self.assertEqual("record { 0 = record { 0 = record { 0 = x } } }", found.term("x"))

    def test_of_a_set(self):
        text = file_of("A ::= SEQUENCE { a SET { b NULL, c BOOLEAN } }", "A")
        self.assertIn("    pub fn new(a: AA) -> A\n        ensures { result ≡ record { a = record { 0 = a } } }\n", text)
        self.assertIn("        A { a: ImplicitSet(a) }\n", text)
        self.assertIn("use der_types::ImplicitSet;\n", text)


class Which(unittest.TestCase):
    BODY = "A ::= SEQUENCE { a B, c SEQUENCE { d NULL } } B ::= SEQUENCE { a NULL }"

    def test_of_all_types(self):
        self.assertEqual(["A", "AC", "B"], sorted(it.split()[1] for it in file_of(self.BODY, "A").split("\n") if it.startswith("impl ")))

    def test_of_some_types_with_their_parts(self):
        self.assertEqual(["A", "AC"], [it.split()[1] for it in file_of(self.BODY, "A", only=["A"]).split("\n") if it.startswith("impl ")])

    def test_no_struct(self):
        self.assertEqual("", file_of("A ::= INTEGER", "A"))

    def test_the_command(self):
        with tempfile.TemporaryDirectory() as folder, contextlib.redirect_stdout(io.StringIO()):
            path, crate = os.path.join(folder, "m.asn1"), os.path.join(folder, "it")
            Path(path).write_text(module_text(self.BODY), encoding="utf-8")
            for words, wanted in (([], False), (["--constructors"], True), (["--constructors", "B"], True), (["--constructors", "C"], False)):
                self.assertEqual(0, command.main(["--out", crate, *words, path]))
                self.assertEqual(wanted, os.path.exists(os.path.join(crate, "src/constructors.rt")))
                self.assertEqual(wanted, "mod constructors;\n" in Path(crate, "src/lib.rt").read_text(encoding="utf-8"))
