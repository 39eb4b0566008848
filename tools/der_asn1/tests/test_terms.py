"""The terms of types, worked out from X.680 and docs/ASN1.md."""
import unittest

from ..emit.notation import defined
from ..emit.terms import definition
from . import Given, given, module_text
from .test_emit import crate_of


def term_of(notation, more="", header="EXPLICIT TAGS"):
    """The term of a type, on one line."""
    one = given(f"T ::= {notation}\n{more}", header)
    return one.meanings.declarations.by_name[one.meaning("T").rust.text].term.inline()


class Terms(unittest.TestCase):
    def check(self, pairs, header="EXPLICIT TAGS"):
        for notation, wanted in pairs:
            with self.subTest(notation):
                self.assertEqual(wanted, term_of(notation, header=header))

    def test_types_without_parts(self):
        names = "BOOLEAN NULL INTEGER UTF8String PrintableString IA5String BMPString UTCTime GeneralizedTime".split()
        spaced = ["OCTET STRING", "BIT STRING", "OBJECT IDENTIFIER", "RELATIVE-OID"]
        self.check([(it, it.replace(" ", "-")) for it in [*names, *spaced]])
        self.check([("BIT STRING { a(0) }", "BIT-STRING-named"), ("ANY", "ANY"), ("ENUMERATED { a(3), b(0) }", "ENUMERATED (3 ∷ 0 ∷ [])")])
        self.check([("ENUMERATED { a, ... }", "ENUMERATED-extensible")])

    def test_ranges(self):
        self.check([("INTEGER (0..255)", "INTEGER-from-to 0 255"), ("INTEGER (5)", "INTEGER-from-to 5 5")])
        self.check([("INTEGER (-128..127)", "INTEGER-from-minus-to 128 127"), ("INTEGER (-1..5)", "INTEGER-from-minus-to 1 5")])
        self.check([("INTEGER (0..MAX)", "INTEGER-in (from-on (number 0) ∷ [])"), ("INTEGER (MIN..-5)", "INTEGER-in (up-to (minus 5) ∷ [])")])
        self.check([("INTEGER (-9..-8)", "INTEGER-in (from-to (minus 9) (minus 8) ∷ [])")])
        self.check([("INTEGER (1 | 5)", "INTEGER-in (from-to (number 1) (number 1) ∷ from-to (number 5) (number 5) ∷ [])")])

    def test_sizes(self):
        self.check([("OCTET STRING (SIZE (4..16))", "SIZE 4 16 OCTET-STRING"), ("IA5String (SIZE (3))", "SIZE 3 3 IA5String")])
        self.check([("SET SIZE (1..MAX) OF NULL", "SIZE 1 MAX (SET-OF NULL)"), ("IA5String (SIZE (1 | 3))", "wider IA5String")])

    def test_tags(self):
        self.check([("[1] INTEGER", "CONTEXT 1 TAGS-M INTEGER"), ("[1] IMPLICIT INTEGER", "CONTEXT 1 IMPLICIT INTEGER")])
        self.check([("[APPLICATION 2] EXPLICIT NULL", "APPLICATION 2 EXPLICIT NULL")])
        self.check([("[PRIVATE 3] SEQUENCE OF NULL", "PRIVATE 3 TAGS-M (SEQUENCE-OF NULL)")], "IMPLICIT TAGS")
        self.check([("[0] [1] NULL", "CONTEXT 0 TAGS-M (CONTEXT 1 TAGS-M NULL)")])

    def test_tags_that_are_explicit_by_a_rule(self):
        """The rule for a choice and for an open type is one of the terms (X.680, 31.2.7). That for a parameter isn't."""
        self.check([("[0] CHOICE { a NULL }", "CONTEXT 0 TAGS-M (CHOICE (NULL ∣ none))"), ("[0] ANY", "CONTEXT 0 TAGS-M ANY")], "IMPLICIT TAGS")
        found = term_of("P { NULL }", "P { A } ::= [0] A", header="IMPLICIT TAGS")
        self.assertEqual("PNull", found)

    def test_a_tag_that_the_library_has_for_other_values_alone(self):
        self.check([("[APPLICATION 1] BOOLEAN", "listed ((0x00 ∷ []) ∷ (0xFF ∷ []) ∷ []) (any-content 0x41)")], "IMPLICIT TAGS")
        self.check([("[APPLICATION 1] INTEGER (0..255)", "APPLICATION 1 TAGS-M (INTEGER-from-to 0 255)")], "IMPLICIT TAGS")
        self.check([("[APPLICATION 1] OCTET STRING", "APPLICATION 1 TAGS-M OCTET-STRING")], "IMPLICIT TAGS")

    def test_a_tag_over_a_set_with_a_constraint(self):
        one = given("T ::= [1] IMPLICIT S (WITH COMPONENTS { a ABSENT })\nS ::= SET { a NULL }")
        self.assertEqual("ImplicitSet<SMembers, 0xA1>", str(one.meanings.declarations.by_name[one.meaning("T").rust.text].type))

    def test_constraints_of_members_of_an_extensible_type(self):
        body = "S (WITH COMPONENTS { ..., a PRESENT, b (SIZE (1..MAX)) })\nS ::= SEQUENCE { a NULL OPTIONAL, b SET OF NULL, ... }"
        later = "SEQUENCE (required NULL ⨾ required (SIZE 1 MAX (SET-OF NULL)) ⨾ later-elements)"
        self.check([(body, later)])

    def test_a_tag_over_a_string_of_which_the_library_has_only_bytes(self):
        pairs = [("[0] CHARACTER STRING", "CONTEXT 0 TAGS-M (wider (any-content 0x3D))")]
        self.check([*pairs, ("[APPLICATION 3] CHARACTER STRING", "APPLICATION 3 TAGS-M (wider (any-content 0x3D))")], "IMPLICIT TAGS")
        self.assertEqual("TaggedBytes<0x63>", self.field())

    def field(self):
        one = given("T ::= SEQUENCE { a [APPLICATION 3] IMPLICIT CHARACTER STRING }")
        return str(one.meanings.declarations.by_name[one.meaning("T").rust.text].fields[0].type)

    def test_members(self):
        wanted = "SEQUENCE (required NULL ⨾ optional BOOLEAN ⨾ default TRUE (CONTEXT 0 TAGS-M BOOLEAN) ⨾ end)"
        self.check([("SEQUENCE { a NULL, b BOOLEAN OPTIONAL, c [0] BOOLEAN DEFAULT TRUE }", wanted)])
        self.check([("SEQUENCE { a INTEGER DEFAULT -1 }", "SEQUENCE (default-of (minus 1) INTEGER ⨾ end)")])
        wanted = "wider (SEQUENCE (default-as-optional (SET-OF NULL) ⨾ required NULL ⨾ end))"
        self.check([("SEQUENCE { a SET OF NULL DEFAULT {}, b NULL }", wanted), ("SEQUENCE {}", "SEQUENCE end")])
        self.check([("SEQUENCE { a NULL DEFAULT NULL }", "SEQUENCE (default-as-optional (unlisted ((0x05 ∷ 0x00 ∷ []) ∷ []) (encoded NULL)) ⨾ end)")])
        self.check([("SEQUENCE { a [0] INTEGER DEFAULT 7 }", "SEQUENCE (default-of (number 7) (CONTEXT 0 TAGS-M INTEGER) ⨾ end)")])

    def test_defaults(self):
        pairs = [("INTEGER (0..255) DEFAULT 7", "default (number 7) (INTEGER-from-to 0 255)")]
        pairs += [("INTEGER (-128..127) DEFAULT -1", "default (minus 1) (INTEGER-from-minus-to 128 127)")]
        pairs += [("ENUMERATED { x(3), y(1) } DEFAULT x", "default (number 3) (ENUMERATED (3 ∷ 1 ∷ []))")]
        self.check([(f"SEQUENCE {{ a {notation} }}", f"SEQUENCE ({wanted} ⨾ end)") for notation, wanted in pairs])

    def test_listed_values(self):
        pairs = [("IA5String (\"b\" | \"a\")", "listed ((0x61 ∷ []) ∷ (0x62 ∷ []) ∷ []) IA5String")]
        pairs += [("BOOLEAN (TRUE)", "listed ((0xFF ∷ []) ∷ []) BOOLEAN"), ("BOOLEAN (ALL EXCEPT TRUE)", "listed ((0x00 ∷ []) ∷ []) BOOLEAN"), ("BOOLEAN (TRUE | FALSE)", "BOOLEAN")]
        pairs += [("OBJECT IDENTIFIER (ALL EXCEPT { 1 2 3 })", "unlisted ((0x2A ∷ 0x03 ∷ []) ∷ []) OBJECT-IDENTIFIER")]
        pairs += [("OCTET STRING ('0102'H | ''H)", "listed ([] ∷ (0x01 ∷ 0x02 ∷ []) ∷ []) OCTET-STRING")]
        pairs += [("BIT STRING ('101'B | ''B)", "listed ((0x00 ∷ []) ∷ (0x05 ∷ 0xA0 ∷ []) ∷ []) BIT-STRING")]
        pairs += [("BIT STRING { a(0) } (SIZE (1..9))", "SIZE 0 9 BIT-STRING-named")]
        other = "SEQUENCE (default-as-optional (unlisted ((0x00 ∷ []) ∷ []) BIT-STRING-named) ⨾ required NULL ⨾ end)"
        self.check([*pairs, ("SEQUENCE { a BIT STRING { x(0) } DEFAULT {}, b NULL }", other)])

    def test_automatic_tags(self):
        wanted = "SEQUENCE (required (CONTEXT 0 AUTOMATIC NULL) ⨾ required (CONTEXT 1 AUTOMATIC NULL) ⨾ end)"
        self.check([("SEQUENCE { a NULL, b NULL }", wanted)], "AUTOMATIC TAGS")

    def test_a_set_has_its_members_in_the_order_of_the_text(self):
        self.check([("SET { a [1] NULL, b [0] NULL, c NULL }", "SET (required (CONTEXT 1 TAGS-M NULL) ⨾ required (CONTEXT 0 TAGS-M NULL) ⨾ required NULL ⨾ end)")])

    def test_extensions(self):
        self.check([("SEQUENCE { a NULL, ... }", "SEQUENCE (required NULL ⨾ later-elements)"), ("SEQUENCE { ... }", "SEQUENCE later-elements")])
        added = "SEQUENCE (required NULL ⨾ added (required BOOLEAN ⨾ later-elements))"
        self.check([("SEQUENCE { a NULL, ..., b BOOLEAN }", added), ("SEQUENCE { a NULL, ..., [[ b BOOLEAN ]] }", added)])
        for text, wanted in (
            ("..., b BOOLEAN OPTIONAL, c NULL", "optional BOOLEAN ⨾ added (required NULL ⨾ later-elements)"),
            ("..., b BOOLEAN, c NULL", "added (required BOOLEAN ⨾ added (required NULL ⨾ later-elements))"),
            ("..., [[ b BOOLEAN OPTIONAL, c NULL ]], d NULL OPTIONAL", "added (optional BOOLEAN ⨾ required NULL ⨾ optional NULL ⨾ later-elements)"),
        ):
            self.check([(f"SEQUENCE {{ a NULL, {text} }}", f"SEQUENCE (required NULL ⨾ {wanted})")])
        wanted = "wider (SEQUENCE (required NULL ⨾ added-as-optional BOOLEAN ⨾ required INTEGER ⨾ later-members-refused))"
        self.check([("SEQUENCE { a NULL, ..., b BOOLEAN, ..., c INTEGER }", wanted)])
        self.check([("SEQUENCE { a NULL, b ANY OPTIONAL, ... }", "wider (SEQUENCE (required NULL ⨾ optional ANY ⨾ later-members-refused))")])
        self.check([("SET { a NULL, ... }", "wider (SET (required NULL ⨾ later-members-refused))")])
        self.check([("CHOICE { a NULL, ... }", "CHOICE-extensible (NULL ∣ none)")])

    def test_what_is_kept_as_bytes(self):
        self.check([("CHARACTER STRING", "wider (any-content 0x3D)"), ("SEQUENCE { a T2 }", "SEQUENCE (required (wider any-element) ⨾ end)")])

    def test_strings_that_contain_a_value(self):
        self.check([("OCTET STRING (CONTAINING NULL)", "OCTET-STRING-CONTAINING NULL")])
        self.check([("BIT STRING (CONTAINING [0] NULL)", "BIT-STRING-CONTAINING (CONTEXT 0 TAGS-M NULL)")])

    def test_a_tag_in_place_of_that_of_a_string_that_contains_a_value(self):
        """X.690, 8.14.3: `81 03 02 01 07` of an octet string, and `81 04 00 02 01 07` of a bit string, for which the library has no type."""
        self.check([("[1] IMPLICIT OCTET STRING (CONTAINING INTEGER)", "CONTEXT 1 IMPLICIT (OCTET-STRING-CONTAINING INTEGER)")])
        self.check([("[1] IMPLICIT BIT STRING (CONTAINING INTEGER)", "wider (any-content 0x81)")])
        self.check([("[PRIVATE 1] IMPLICIT OCTET STRING (CONTAINING INTEGER)", "wider (any-content 0xC1)")])


class Definitions(unittest.TestCase):
    def text(self, body, *names, header="EXPLICIT TAGS"):
        return crate_of(body, *names, header=header).files()["specs/Notation.antt"]

    def test_each_is_after_those_that_it_names(self):
        one = given("A ::= SEQUENCE { b B, c C } B ::= SEQUENCE { c C } C ::= NULL")
        one.meaning("A")
        self.assertEqual(["C", "B", "A"], [it.name for it in defined(one.meanings.declarations.by_name.values())])

    def test_a_part_that_is_too_long_has_a_name(self):
        body = "A ::= SEQUENCE { long [0] SEQUENCE { " + ", ".join(f"a{it} UTF8String" for it in range(6)) + " } OPTIONAL }"
        lines = self.text(body, "A").split("\n")
        self.assertIn("-- Of A: long", lines)
        self.assertIn("    optional (CONTEXT 0 TAGS ALong) ⨾", lines)
        self.assertLess(lines.index("abbrev pub ALong : Notation"), lines.index("abbrev pub A : Notation"))

    def test_the_tags_of_a_module(self):
        self.assertIn("-- M DEFINITIONS IMPLICIT TAGS\nabbrev TAGS : Mode\nTAGS = IMPLICIT\n", self.text("A ::= [0] NULL", "A", header="IMPLICIT TAGS"))
        self.assertNotIn("TAGS", self.text("A ::= NULL", "A"))

    def test_the_tags_of_two_modules(self):
        one = Given(module_text("A ::= SEQUENCE { a [0] NULL, b B } IMPORTS B FROM N;"), "N DEFINITIONS IMPLICIT TAGS ::= BEGIN B ::= [1] NULL END")
        self.assertEqual("CONTEXT 1 TAGS-N NULL", self.named(one, "B", 1))

    def named(self, one, name, module):
        return one.meanings.declarations.by_name[one.meaning(name, module).rust.text].term.inline()

    def test_a_name_that_the_type_under_a_tag_has_not(self):
        crate = crate_of("A ::= SEQUENCE { b [0] IMPLICIT B } B ::= SET { c NULL }", "A")
        self.assertIn("ImplicitSet<BMembers, 0xA0>", crate.files()["src/types.rt"])
        self.assertEqual(["A", "B", "BMembers"], sorted(crate.types))

    def test_the_law(self):
        text = crate_of("A ::= SEQUENCE { b B } B ::= INTEGER", "A").files()["src/notation.rt"]
        self.assertIn("    ensures a { ⟦<A as Exact>⟧.values.notation ≡ notation.A }\n    ensures b { ⟦<B as Exact>⟧.values.notation ≡ notation.B }\n{}\n", text)

    def test_a_type_on_one_line(self):
        one = given("A ::= INTEGER (0..7)")
        one.meaning("A")
        declared = one.meanings.declarations.by_name["A"]
        self.assertEqual(["-- A of M", "abbrev pub A : Notation", "A = INTEGER-from-to 0 7"], definition("A", declared.term, ["A of M"], set()))
