"""Each form of a type and of a member, as the parser reads it (X.680, 17 to 48)."""
import unittest

from ..parse import tree
from . import read, read_clean, type_of


class Simple(unittest.TestCase):
    def test_types_with_a_name_alone(self):
        for name in ("BOOLEAN", "NULL", "REAL", "EXTERNAL", "RELATIVE-OID", "OBJECT IDENTIFIER", "OCTET STRING", "EMBEDDED PDV"):
            with self.subTest(name):
                self.assertEqual(name, type_of(self, name).name)

    def test_strings_and_times(self):
        names = """UTF8String NumericString PrintableString TeletexString T61String VideotexString IA5String GraphicString VisibleString
        ISO646String GeneralString UniversalString BMPString ObjectDescriptor UTCTime GeneralizedTime"""
        for name in (*names.split(), "CHARACTER STRING"):
            with self.subTest(name):
                self.assertEqual(name, type_of(self, name).name)

    def test_integer_with_names(self):
        found = type_of(self, "INTEGER { v1(0), less(-1), top(limit) }")
        self.assertEqual(["v1", "less", "top"], [it.name for it in found.named])
        self.assertEqual([0, -1], [it.number.number for it in found.named[:2]])
        self.assertEqual("limit", found.named[2].number.name)

    def test_bit_string_with_names(self):
        found = type_of(self, "BIT STRING { a(0), b(5) }")
        self.assertEqual([("a", 0), ("b", 5)], [(it.name, it.number.number) for it in found.named])

    def test_enumerated(self):
        found = type_of(self, "ENUMERATED { a, b(5), c }")
        self.assertEqual(["a", "b", "c"], [it.name for it in found.items])
        self.assertIsNone(found.items[0].number)
        self.assertFalse(found.extensible)

    def test_enumerated_with_an_extension(self):
        found = type_of(self, "ENUMERATED { a, ..., b, c }")
        self.assertEqual((["a"], ["b", "c"], True), ([it.name for it in found.items], [it.name for it in found.additions], found.extensible))

    def test_any(self):
        self.assertIsNone(type_of(self, "ANY").defined_by)
        self.assertEqual("id", type_of(self, "ANY DEFINED BY id").defined_by)

    def test_selection_type(self):
        found = type_of(self, "a < C")
        self.assertEqual(("a", "C"), (found.name, found.choice.name))

    def test_instance_of(self):
        self.assertEqual("TYPE-IDENTIFIER", type_of(self, "INSTANCE OF TYPE-IDENTIFIER").class_name)


class Names(unittest.TestCase):
    def test_a_name(self):
        found = type_of(self, "Other")
        self.assertEqual((None, "Other", None), (found.module, found.name, found.arguments))

    def test_a_name_with_its_module(self):
        found = type_of(self, "Mod.Other")
        self.assertEqual(("Mod", "Other"), (found.module, found.name))

    def test_arguments(self):
        found = type_of(self, "Other { INTEGER, 5, {Set}, name }")
        kinds = [(it.type is not None, it.value is not None, it.set_tokens is not None) for it in found.arguments]
        self.assertEqual([(True, False, False), (False, True, False), (False, False, True), (False, True, False)], kinds)
        self.assertEqual(["INTEGER", "5", "{ Set }", "name"], [it.text for it in found.arguments])

    def test_a_field_of_a_class(self):
        found = type_of(self, "CLASS-A.&id")
        self.assertEqual(("CLASS-A", ["&id"]), (found.class_name, found.fields))

    def test_a_type_of_an_object(self):
        self.assertIsInstance(type_of(self, "object.&Type"), tree.ObjectFieldType)


class Tags(unittest.TestCase):
    def test_the_four_classes(self):
        for text, tag_class in (
            ("[5]", tree.TagClass.CONTEXT),
            ("[UNIVERSAL 5]", tree.TagClass.UNIVERSAL),
            ("[APPLICATION 5]", tree.TagClass.APPLICATION),
            ("[PRIVATE 5]", tree.TagClass.PRIVATE),
        ):
            with self.subTest(text):
                (tag,) = type_of(self, f"{text} NULL").tags
                self.assertEqual((tag_class, 5, None), (tag.tag_class, tag.number.number, tag.mode))

    def test_modes(self):
        self.assertEqual(tree.TagMode.IMPLICIT, type_of(self, "[0] IMPLICIT NULL").tags[0].mode)
        self.assertEqual(tree.TagMode.EXPLICIT, type_of(self, "[0] EXPLICIT NULL").tags[0].mode)

    def test_the_outermost_is_first(self):
        self.assertEqual([1, 2], [it.number.number for it in type_of(self, "[1] [2] NULL").tags])

    def test_a_number_by_name(self):
        self.assertEqual("n", type_of(self, "[n] NULL").tags[0].number.name)


class Lists(unittest.TestCase):
    def test_sequence_of_and_set_of(self):
        self.assertEqual(tree.Form.SEQUENCE, type_of(self, "SEQUENCE OF NULL").form)
        self.assertEqual(tree.Form.SET, type_of(self, "SET OF NULL").form)

    def test_size_before_of(self):
        for text in ("SEQUENCE SIZE (1..4) OF NULL", "SEQUENCE (SIZE (1..4)) OF NULL"):
            with self.subTest(text):
                (constraint,) = type_of(self, text).constraints
                self.assertIsInstance(constraint.root, tree.SizeConstraint)

    def test_a_constraint_after_the_element_is_the_elements(self):
        found = type_of(self, "SEQUENCE OF INTEGER (0..5)")
        self.assertEqual((0, 1), (len(found.constraints), len(found.element.constraints)))

    def test_a_name_of_the_element(self):
        found = type_of(self, "SEQUENCE OF item INTEGER")
        self.assertEqual("item", found.element_name)

    def test_lists_in_lists(self):
        self.assertIsInstance(type_of(self, "SEQUENCE OF SET OF NULL").element, tree.ListType)


class Members(unittest.TestCase):
    def test_presence(self):
        found = type_of(self, "SEQUENCE { a NULL, b NULL OPTIONAL, c INTEGER DEFAULT 5 }")
        self.assertEqual([tree.Presence.REQUIRED, tree.Presence.OPTIONAL, tree.Presence.DEFAULT], [it.presence for it in found.members])
        self.assertEqual(5, found.members[2].default.number)

    def test_set_and_choice(self):
        self.assertEqual(tree.Form.SET, type_of(self, "SET { a NULL }").form)
        self.assertEqual(["a", "b"], [it.name for it in type_of(self, "CHOICE { a NULL, b BOOLEAN }").alternatives])

    def test_no_members(self):
        self.assertEqual([], type_of(self, "SEQUENCE {}").members)

    def test_components_of(self):
        found = type_of(self, "SEQUENCE { a NULL, COMPONENTS OF Other }")
        self.assertEqual("Other", found.members[1].type.name)

    def test_an_extension_marker(self):
        found = type_of(self, "SEQUENCE { a NULL, ... }")
        self.assertTrue(found.extensible)
        self.assertIsNone(found.members[0].group)

    def test_additions_one_by_one(self):
        found = type_of(self, "SEQUENCE { a NULL, ..., b NULL, c NULL }")
        self.assertEqual([None, 1, 2], [it.group for it in found.members])

    def test_an_addition_of_several_with_a_version(self):
        found = type_of(self, "SEQUENCE { a NULL, ..., [[2: b NULL, c NULL ]], [[ d NULL ]] }")
        self.assertEqual([(None, None), (1, 2), (1, 2), (2, None)], [(it.group, it.version) for it in found.members])

    def test_members_after_the_second_marker_are_of_the_root(self):
        found = type_of(self, "SEQUENCE { a NULL, ..., b NULL, ..., c NULL }")
        self.assertEqual([("a", None), ("b", 1), ("c", None)], [(it.name, it.group) for it in found.members])

    def test_an_exception(self):
        self.assertTrue(type_of(self, "SEQUENCE { a NULL, ... ! 5 }").extensible)

    def test_comments_stay_with_their_members(self):
        found = type_of(self, "SEQUENCE {\n  -- of a\n  a NULL, -- beside a\n          -- goes on\n  b NULL -- beside b\n}")
        self.assertEqual(["of a beside a goes on", "beside b"], [it.comment for it in found.members])

    def test_the_text_of_a_type(self):
        found = type_of(self, "SEQUENCE { a [0] IMPLICIT OCTET STRING (SIZE (1..4)) OPTIONAL }")
        self.assertEqual("[0] IMPLICIT OCTET STRING (SIZE (1..4))", found.members[0].type.text)


class Constraints(unittest.TestCase):
    def root(self, notation):
        """The set of the last constraint of a type."""
        return type_of(self, notation).constraints[-1].root

    def test_single_value(self):
        self.assertEqual(5, self.root("INTEGER (5)").value.number)

    def test_range_with_min_and_max(self):
        found = self.root("INTEGER (MIN..MAX)")
        self.assertEqual((None, None), (found.low, found.high))

    def test_open_ends(self):
        found = self.root("INTEGER (1<..<5)")
        self.assertEqual((True, True), (found.low_open, found.high_open))

    def test_negative_bounds(self):
        found = self.root("INTEGER (-5..-1)")
        self.assertEqual((-5, -1), (found.low.number, found.high.number))

    def test_unions_by_bar_and_word(self):
        self.assertEqual(3, len(self.root("INTEGER (1 | 2..3 UNION 5)").parts))

    def test_intersections_bind_closer(self):
        found = self.root("PrintableString (SIZE (1) | SIZE (2) ^ FROM (\"a\"))")
        self.assertIsInstance(found, tree.Union_)
        self.assertIsInstance(found.parts[1], tree.Intersection)

    def test_exclusions(self):
        self.assertIsInstance(self.root("INTEGER (1..5 EXCEPT 3)"), tree.Except)
        self.assertIsNone(self.root("INTEGER (ALL EXCEPT 3)").part)

    def test_extensible(self):
        found = type_of(self, "INTEGER (1..5, ..., 6)").constraints[0]
        self.assertTrue(found.extensible)
        self.assertIsNotNone(found.additions)

    def test_contained_subtype(self):
        self.assertEqual("Other", self.root("INTEGER (Other)").type.name)
        self.assertEqual("Other", self.root("INTEGER (INCLUDES Other)").type.name)

    def test_alphabet_and_pattern(self):
        self.assertIsInstance(self.root('PrintableString (FROM ("A".."Z"))'), tree.Alphabet)
        self.assertIsInstance(self.root('PrintableString (PATTERN "[a-z]*")'), tree.Pattern)

    def test_inner_subtyping(self):
        self.assertIsInstance(self.root("Other (WITH COMPONENTS { ..., a ABSENT })"), tree.InnerSubtyping)
        self.assertIsInstance(self.root("Other (WITH COMPONENT (SIZE (1)))"), tree.InnerSubtyping)

    def test_contents(self):
        found = type_of(self, "OCTET STRING (CONTAINING Other ENCODED BY { 2 1 2 1 })").constraints[0]
        self.assertEqual("Other", found.type.name)
        self.assertIsInstance(found.encoded_by, tree.BraceValue)

    def test_tables(self):
        found = type_of(self, "C.&Type ({Set}{@a.b, @c})").constraints[0]
        self.assertEqual((["Set"], ["a.b", "c"]), ([it.text for it in found.tokens], found.at))

    def test_words(self):
        self.assertIsInstance(type_of(self, "INTEGER (CONSTRAINED BY { -- by words -- })").constraints[0], tree.UserConstraint)

    def test_one_after_another(self):
        self.assertEqual(2, len(type_of(self, "INTEGER (0..9) (1..5)").constraints))


class Deviations(unittest.TestCase):
    """What modules have that the standard doesn't allow, and that is accepted with a warning."""

    def said(self, body):
        module, problems = read(body)
        return module, [str(it) for it in problems.found]

    def test_a_type_with_a_small_letter(self):
        module, said = self.said("krb5int32 ::= INTEGER\nT ::= krb5int32")
        warning = "warning: the name of a type begins with a capital letter: `krb5int32` (X.680, 12.2.1)"
        self.assertEqual([f"m.asn1:2:1: {warning}", f"m.asn1:3:7: {warning}"], said)
        self.assertEqual("krb5int32", module.assignments[1].type.name)

    def test_a_member_with_a_capital_letter(self):
        module, said = self.said("T ::= SEQUENCE { Foo INTEGER }")
        self.assertEqual(["m.asn1:2:18: warning: the name begins with a small letter: `Foo` (X.680, 12.3)"], said)
        self.assertEqual("Foo", module.assignments[0].type.members[0].name)

    def test_size_without_parentheses(self):
        module, said = self.said("T ::= OCTET STRING SIZE (16)")
        self.assertEqual(["m.asn1:2:20: warning: a size constraint of this type has parentheses around it (X.680, 49.1)"], said)
        self.assertIsInstance(module.assignments[0].type.constraints[0].root, tree.SizeConstraint)

    def test_a_missing_parenthesis(self):
        _, said = self.said("T ::= SEQUENCE { a OCTET STRING (SIZE (4) }")
        self.assertEqual(["m.asn1:2:43: warning: expected `)`, found `}`, for the `(` at 2:33 (X.680, 49.6)"], said)

    def test_a_comma_too_many(self):
        module, said = self.said("T ::= SEQUENCE { a NULL, , b NULL, }")
        self.assertEqual(
            ["m.asn1:2:26: warning: expected a member, found `,` (X.680, 25.1)", "m.asn1:2:36: warning: expected a member, found `}` (X.680, 25.1)"],
            said,
        )
        self.assertEqual(2, len(module.assignments[0].type.members))

    def test_a_missing_comma(self):
        module, said = self.said("T ::= SEQUENCE { a NULL\n b NULL }")
        self.assertEqual(["m.asn1:3:2: warning: expected `,`, found `b` (X.680, 25.1)"], said)
        self.assertEqual(2, len(module.assignments[0].type.members))

    def test_a_member_without_a_name(self):
        _, said = self.said("T ::= SEQUENCE { INTEGER, BOOLEAN }")
        self.assertEqual("m.asn1:2:18: warning: expected the name of a member, found `INTEGER` (X.680, 25.1)", said[0])

    def test_an_alternative_that_may_be_absent(self):
        _, said = self.said("T ::= CHOICE { a NULL OPTIONAL, b BOOLEAN }")
        self.assertEqual(["m.asn1:2:23: warning: an alternative isn't `OPTIONAL` (X.680, 29.1)"], said)

    def test_a_value_with_a_capital_letter(self):
        _, said = self.said("Five INTEGER ::= 5")
        self.assertEqual(["m.asn1:2:1: warning: the name of a value begins with a small letter: `Five` (X.680, 12.4)"], said)

    def test_a_strict_run_has_errors_in_their_place(self):
        _, problems = read("T ::= SEQUENCE { Foo INTEGER }", strict=True)
        self.assertEqual("m.asn1:2:18: error: the name begins with a small letter: `Foo` (X.680, 12.3)", str(problems.found[0]))


class AfterSetOf(unittest.TestCase):
    def test_a_small_name_at_the_end_is_the_type_and_not_a_members_name(self):
        module, _ = read("T ::= SET OF small\nNext ::= NULL")
        self.assertEqual(["T", "Next"], [it.name for it in module.assignments])
        self.assertEqual("small", module.assignments[0].type.element.name)

    def test_macros_of_1988_are_skipped(self):
        module, problems = read("ERROR MACRO ::= BEGIN TYPE NOTATION ::= empty END\nbad ERROR PARAMETER NULL ::= 5\nT ::= NULL")
        self.assertEqual("T", module.assignments[-1].name)
        self.assertEqual(
            [
                "m.asn1:2:1: warning: the macro `ERROR` of 1988 isn't read (X.208, annex A)",
                "m.asn1:3:1: warning: `bad`, in the notation of a macro of 1988, isn't read (X.208, annex A)",
            ],
            [str(it) for it in problems.found],
        )

    def test_all_of_a_module_is_read_in_order(self):
        module = read_clean(self, "A ::= NULL\nb INTEGER ::= 5\nC ::= CLASS { &id INTEGER }\nS INTEGER ::= { 1 | 2 }")
        kinds = [tree.TypeAssignment, tree.ValueAssignment, tree.ClassAssignment, tree.SetAssignment]
        self.assertEqual(kinds, [type(it) for it in module.assignments])
