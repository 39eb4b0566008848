"""Names, values, members, tags and objects, resolved."""
import unittest

from ..meaning.features import Level
from ..meaning.intervals import ALL, INFINITY, Intervals
from ..meaning.members import members_of
from ..meaning.objects import class_named, set_named
from ..meaning.tagging import first_bytes
from ..meaning.values import arcs_of, enumerated_numbers, integer_of
from ..parse import tree
from ..parse.source import NotationError, Severity
from ..parse.tokens import Kind, Token
from . import Given, given, module_text


class Names(unittest.TestCase):
    def test_through_imports(self):
        two = Given(
            "M DEFINITIONS ::= BEGIN IMPORTS T FROM N; U ::= SEQUENCE { a T } END",
            "N DEFINITIONS ::= BEGIN IMPORTS T FROM O; END",
            "O DEFINITIONS ::= BEGIN T ::= BOOLEAN END",
        )
        found = two.program.find("T", two.scope())
        self.assertEqual("O", found.scope.module.name)

    def test_of_a_module_in_front(self):
        two = Given("M DEFINITIONS ::= BEGIN U ::= N.T END", "N DEFINITIONS ::= BEGIN T ::= BOOLEAN END")
        self.assertEqual(0, two.meaning("U").level)
        self.assertEqual({1}, two.meaning("U").rust.firsts)

    def test_an_import_with_braces_is_of_the_module_in_which_the_name_has_parameters(self):
        plain, other = "N DEFINITIONS ::= BEGIN T ::= BOOLEAN END", "N DEFINITIONS ::= BEGIN T { A } ::= SEQUENCE { a A } END"
        three = Given("M DEFINITIONS ::= BEGIN IMPORTS T{} FROM N; U ::= T { NULL } END", plain, other)
        self.assertEqual(0, three.meaning("U").level)
        self.assertEqual([], three.problems.of(Severity.ERROR))

    def test_a_name_that_leads_nowhere_has_its_place(self):
        one = given("T ::= SEQUENCE { a Missing }")
        one.meaning("T")
        self.assertEqual(["m", "0.asn1:2:20: error: `Missing` isn't defined (X.680, 14.1)"][1:], [str(it) for it in one.problems.found])

    def test_a_name_that_should_be_imported(self):
        two = Given("M DEFINITIONS ::= BEGIN U ::= T END", "N DEFINITIONS ::= BEGIN T ::= BOOLEAN END")
        self.assertEqual(0, two.meaning("U").level)
        self.assertEqual(["0.asn1:1:31: warning: `T` of the module `N` isn't imported (X.680, 13.16)"], [str(it) for it in two.problems.found])

    def test_a_name_of_two_modules_that_should_be_imported_is_none(self):
        text = "DEFINITIONS ::= BEGIN T ::= BOOLEAN END"
        three = Given("M DEFINITIONS ::= BEGIN U ::= T END", f"N {text}", f"O {text}")
        three.meaning("U")
        self.assertEqual(1, len(three.problems.of(Severity.ERROR)))

    def test_two_assignments_of_a_name(self):
        one = given("T ::= NULL\nT ::= BOOLEAN")
        self.assertEqual(["0.asn1:3:1: error: `T` is assigned at 2:1 too, which is used (X.680, 13.10)"], [str(it) for it in one.problems.found])

    def test_arguments_that_are_missing(self):
        one = given("T { A } ::= SEQUENCE { a A }\nU ::= T { NULL, NULL }\nV ::= T")
        one.meaning("U")
        one.meaning("V")
        self.assertEqual(
            [
                "0.asn1:3:7: error: `T` has 1 parameters, and 2 arguments are given (X.683, 9.7)",
                "0.asn1:4:7: error: `T` has 1 parameters, and 0 arguments are given (X.683, 9.7)",
            ],
            [str(it) for it in one.problems.found],
        )


class Values(unittest.TestCase):
    def number(self, body, name="v"):
        one = given(body)
        assignment = one.assignment(name)[0]
        return integer_of(one.program, assignment.value, one.scope())

    def test_through_names(self):
        self.assertEqual(7, self.number("v INTEGER ::= w\nw INTEGER ::= x\nx INTEGER ::= 7"))

    def test_named_numbers_of_the_governor(self):
        self.assertEqual(2, self.number("u Version ::= v3\nVersion ::= INTEGER { v1(0), v3(2) }\nv INTEGER ::= u"))

    def test_a_circle_ends(self):
        self.assertIsNone(self.number("v INTEGER ::= w\nw INTEGER ::= v"))

    def arcs(self, body, name="v"):
        one = given(body)
        return arcs_of(one.program, one.assignment(name)[0].value, one.scope())

    def test_arcs_by_numbers_and_names(self):
        self.assertEqual([1, 2, 840, 113549], self.arcs("v OBJECT IDENTIFIER ::= { iso(1) member-body(2) us(840) 113549 }"))

    def test_arcs_by_names_alone(self):
        self.assertEqual([1, 3, 6, 1], self.arcs("v OBJECT IDENTIFIER ::= { iso identified-organization dod(6) 1 }"))
        self.assertEqual([2, 5, 4], self.arcs("v OBJECT IDENTIFIER ::= { joint-iso-itu-t ds(5) 4 }"))
        self.assertEqual([0, 4], self.arcs("v OBJECT IDENTIFIER ::= { itu-t identified-organization }"))

    def test_arcs_of_others(self):
        body = "v OBJECT IDENTIFIER ::= { id-at 3 }\nid-at OBJECT IDENTIFIER ::= { joint-iso-ccitt(2) ds(5) at }\nat INTEGER ::= 4"
        self.assertEqual([2, 5, 4, 3], self.arcs(body))

    def test_arcs_of_nothing(self):
        self.assertIsNone(self.arcs("v OBJECT IDENTIFIER ::= { missing 3 }"))


class Enumerations(unittest.TestCase):
    """The numbers of items (X.680, 20.5)."""

    def numbers(self, notation):
        one = given(f"T ::= ENUMERATED {{ {notation} }}\nseven INTEGER ::= 7")
        return enumerated_numbers(one.program, one.assignment("T")[0].type.items, one.scope())

    def test_from_zero_on(self):
        self.assertEqual([0, 1, 2], self.numbers("a, b, c"))

    def test_those_that_others_have_are_left_out(self):
        self.assertEqual([0, 1, 2], self.numbers("a, b(1), c"))
        self.assertEqual([1, 0, 2], self.numbers("a, b(0), c"))

    def test_a_number_by_name(self):
        self.assertEqual([7, 0], self.numbers("a(seven), b"))

    def test_a_number_twice(self):
        one = given("T ::= ENUMERATED { a(1), b(1) }")
        one.meaning("T")
        said = [str(it) for it in one.problems.found]
        self.assertEqual(["0.asn1:2:26: error: `b` has the number 1, as `a` has at 2:20 (X.680, 20.3)"], said)


class Members(unittest.TestCase):
    def members(self, body, header="EXPLICIT TAGS", name="T"):
        one = given(body, header)
        return members_of(one.program, one.assignment(name)[0].type, one.scope())

    def tags(self, members):
        return [(it.member.name, [tag.number.number for tag in it.member.type.tags]) for it in members]

    def test_automatic_tags_count_from_zero(self):
        self.assertEqual([("a", [0]), ("b", [1])], self.tags(self.members("T ::= SEQUENCE { a NULL, b NULL }", "AUTOMATIC TAGS")))

    def test_one_tag_that_is_written_turns_them_off(self):
        self.assertEqual([("a", [5]), ("b", [])], self.tags(self.members("T ::= SEQUENCE { a [5] NULL, b NULL }", "AUTOMATIC TAGS")))

    def test_those_of_the_root_come_before_additions(self):
        found = self.members("T ::= SEQUENCE { a NULL, ..., b NULL, ..., c NULL }", "AUTOMATIC TAGS")
        self.assertEqual([("a", [0]), ("b", [2]), ("c", [1])], self.tags(found))

    def test_components_of(self):
        found = self.members("T ::= SEQUENCE { a NULL, COMPONENTS OF U, d NULL }\nU ::= SEQUENCE { b NULL, c NULL, ..., x NULL }")
        self.assertEqual(["a", "b", "c", "d"], [it.member.name for it in found])

    def test_components_of_get_automatic_tags_in_their_place(self):
        found = self.members("T ::= SEQUENCE { a NULL, COMPONENTS OF U, d NULL }\nU ::= SEQUENCE { b NULL, c NULL }", "AUTOMATIC TAGS")
        self.assertEqual([("a", 0), ("b", 1), ("c", 2), ("d", 3)], [(name, numbers[0]) for name, numbers in self.tags(found)])

    def test_components_of_another_form(self):
        with self.assertRaises(NotationError) as caught:
            self.members("T ::= SEQUENCE { COMPONENTS OF U }\nU ::= SET { b NULL }")
        self.assertEqual("0.asn1:2:18: error: COMPONENTS OF a SET in a SEQUENCE (X.680, 25.5)", str(caught.exception.problem))

    def test_components_of_no_sequence(self):
        with self.assertRaises(NotationError) as caught:
            self.members("T ::= SEQUENCE { COMPONENTS OF NULL }")
        self.assertEqual("0.asn1:2:18: error: COMPONENTS OF a type that isn't a SEQUENCE or SET (X.680, 25.5)", str(caught.exception.problem))


class Tags(unittest.TestCase):
    """The first byte of an encoding (X.690, 8.1.2 and 8.14)."""

    def firsts(self, notation, more="", header="EXPLICIT TAGS"):
        one = given(f"T ::= {notation}\n{more}", header)
        return sorted(first_bytes(one.program, one.assignment("T")[0].type, one.scope()) or [])

    def test_universal_tags(self):
        for notation, wanted in (("BOOLEAN", 1), ("INTEGER", 2), ("SEQUENCE {}", 0x30), ("SET OF NULL", 0x31), ("UTF8String", 0x0C)):
            with self.subTest(notation):
                self.assertEqual([wanted], self.firsts(notation))

    def test_an_explicit_tag_is_constructed(self):
        self.assertEqual([0xA1], self.firsts("[1] NULL"))
        self.assertEqual([0x61], self.firsts("[APPLICATION 1] NULL"))
        self.assertEqual([0xE1], self.firsts("[PRIVATE 1] NULL"))

    def test_an_implicit_tag_is_as_the_type_is(self):
        self.assertEqual([0x81], self.firsts("[1] IMPLICIT NULL"))
        self.assertEqual([0xA1], self.firsts("[1] IMPLICIT SEQUENCE {}"))
        self.assertEqual([0x81], self.firsts("[1] NULL", header="IMPLICIT TAGS"))
        self.assertEqual([0xA1], self.firsts("[1] U", "U ::= SEQUENCE {}", "AUTOMATIC TAGS"))

    def test_implicit_over_a_choice_is_explicit(self):
        self.assertEqual([0xA1], self.firsts("[1] IMPLICIT U", "U ::= CHOICE { a NULL }"))
        self.assertEqual([0xA1], self.firsts("[1] IMPLICIT ANY"))

    def test_implicit_over_a_parameter_is_explicit(self):
        one = given("T { P } ::= SEQUENCE { a [1] P }\nU ::= T { INTEGER }", "IMPLICIT TAGS")
        one.meaning("U")
        self.assertEqual(["ExplicitContextTag1<Integer>"], [str(it.type) for it in one.meanings.declarations.by_name["TInteger"].fields])

    def test_implicit_that_is_written_over_a_choice(self):
        one = given("T ::= SEQUENCE { a [1] IMPLICIT CHOICE { x NULL } }")
        one.meaning("T")
        text = "IMPLICIT isn't for a CHOICE, an open type or a parameter without a tag"
        self.assertEqual([f"0.asn1:2:20: warning: {text} (X.680, 31.2.9)"], [str(it) for it in one.problems.found])

    def test_automatic_over_a_choice_is_explicit(self):
        one = given("T ::= SEQUENCE { a CHOICE { x NULL }, b NULL }", "AUTOMATIC TAGS")
        one.meaning("T")
        self.assertEqual([], one.problems.found)
        fields = one.meanings.declarations.by_name["T"].fields
        self.assertEqual(["ExplicitContextTag0<TA>", "ImplicitContextTag1<()>"], [str(it.type) for it in fields])

    def test_a_selection_is_tagged_as_its_alternative(self):
        self.assertEqual([0x81], self.firsts("[1] IMPLICIT a < C", "C ::= CHOICE { a NULL }"))
        self.assertEqual([0x05], self.firsts("a < C", "C ::= CHOICE { a NULL }"))

    def test_implicit_over_an_explicit_tag_stays_constructed(self):
        self.assertEqual([0xA1], self.firsts("[1] IMPLICIT [2] EXPLICIT NULL"))

    def test_implicit_over_an_implicit_tag(self):
        self.assertEqual([0x81], self.firsts("[1] IMPLICIT [2] IMPLICIT NULL"))

    def test_a_tagged_choice_is_no_choice_any_more(self):
        self.assertEqual([0x81 | 0x20], self.firsts("[1] IMPLICIT U", "U ::= [2] CHOICE { a NULL }"))

    def test_a_choice_begins_as_its_alternatives(self):
        self.assertEqual([1, 5], self.firsts("CHOICE { a NULL, b BOOLEAN }"))

    def test_a_number_by_name(self):
        self.assertEqual([0xA4], self.firsts("[four] NULL", "four INTEGER ::= 4"))

    def test_a_tag_above_30_has_no_single_byte(self):
        self.assertEqual([], self.firsts("[31] NULL"))


class Objects(unittest.TestCase):
    BODY = """A ::= CLASS { &id INTEGER UNIQUE, &Type OPTIONAL } WITH SYNTAX { ID &id [TYPE &Type] }
one A ::= { ID 1 TYPE BOOLEAN }
two A ::= { ID 2 }
Both A ::= { one | two | { ID 3 TYPE NULL }, ... }
More A ::= { Both }
Plain ::= CLASS { &id INTEGER, &Type }
p Plain ::= { &id 5, &Type NULL }"""

    def setUp(self):
        self.one = given(self.BODY)

    def of_set(self, name):
        class_ = class_named(self.one.program, "A", self.one.scope())
        return set_named(self.one.program, [Token(Kind.UPPER, name, None)], class_, self.one.scope())

    def test_objects_of_a_set(self):
        found = self.of_set("Both")
        self.assertEqual([1, 2, 3], [it.setting("&id").value.number for it in found.objects])
        self.assertEqual(["BOOLEAN", None, "NULL"], [it.setting("&Type") and it.setting("&Type").type.name for it in found.objects])
        self.assertTrue(found.extensible and found.complete)

    def test_a_set_of_a_set(self):
        self.assertEqual(3, len(self.of_set("More").objects))

    def test_an_object_that_isnt_one_of_its_class(self):
        one = given(f"{self.BODY}\nBad A ::= {{ {{ TYPE NULL }} }}")
        found = set_named(one.program, [Token(Kind.UPPER, "Bad", None)], class_named(one.program, "A", one.scope()), one.scope())
        self.assertFalse(found.complete)
        self.assertIn("this isn't an object of its class: expected `ID`, found `TYPE` (X.681, 11.5)", str(one.problems.found[-1]))

    def test_the_class_by_another_name(self):
        one = given(f"{self.BODY}\nB ::= A")
        self.assertEqual(["&id", "&Type"], [it.name for it in class_named(one.program, "B", one.scope()).definition.fields])


class Numbers(unittest.TestCase):
    def test_unions_merge_neighbours(self):
        self.assertEqual(((1, 4),), Intervals.of((3, 4), (1, 2)).pairs)
        self.assertEqual(((1, 2), (4, 5)), Intervals.of((4, 5), (1, 2)).pairs)

    def test_intersections(self):
        self.assertEqual(((2, 3),), Intervals.of((1, 3)).intersection(Intervals.of((2, 5))).pairs)
        self.assertEqual((), Intervals.of((1, 2)).intersection(Intervals.of((4, 5))).pairs)

    def test_complements(self):
        self.assertEqual(((-INFINITY, 0), (6, INFINITY)), Intervals.of((1, 5)).complement().pairs)
        self.assertEqual((), ALL.complement().pairs)


class Recursion(unittest.TestCase):
    def test_of_names_ends(self):
        one = given("T ::= U\nU ::= T")
        self.assertIsNotNone(one.meaning("T"))

    def test_of_bindings_ends(self):
        one = Given(module_text("T { A } ::= SEQUENCE { a A, b T { A } OPTIONAL }\nU ::= T { NULL }"))
        self.assertEqual(Level.TO_DEPTH, one.meaning("U").level)


class Kinds(unittest.TestCase):
    def test_a_set_of_values_is_a_type(self):
        one = given("S INTEGER ::= { 1 | 2 }\nT ::= S")
        self.assertIsInstance(one.assignment("S")[0], tree.SetAssignment)
        self.assertEqual(Level.BY_HAND, one.meaning("T").level)
