"""Modules: headers, exports, imports, classes and parameters (X.680, 13; X.681, 9; X.683, 8)."""
import unittest

from ..parse import tree
from ..parse.modules import read_text
from ..parse.source import Problems
from . import read_clean


def modules(text):
    """The modules of a text of which nothing may be said."""
    problems = Problems()
    found = read_text(text, "m.asn1", problems)
    assert not problems.found, problems.found
    return found


class Headers(unittest.TestCase):
    def test_the_default_of_tags(self):
        for words, wanted in (
            ("", tree.TagMode.EXPLICIT),
            ("EXPLICIT TAGS", tree.TagMode.EXPLICIT),
            ("IMPLICIT TAGS", tree.TagMode.IMPLICIT),
            ("AUTOMATIC TAGS", tree.TagMode.AUTOMATIC),
        ):
            with self.subTest(words):
                self.assertEqual(wanted, modules(f"M DEFINITIONS {words} ::= BEGIN END")[0].tag_default)

    def test_extensibility(self):
        self.assertTrue(modules("M DEFINITIONS AUTOMATIC TAGS EXTENSIBILITY IMPLIED ::= BEGIN END")[0].extensibility_implied)
        self.assertFalse(modules("M DEFINITIONS ::= BEGIN END")[0].extensibility_implied)

    def test_an_identifier_of_the_module(self):
        self.assertEqual("M", modules("M { iso(1) 2 3 } DEFINITIONS ::= BEGIN END")[0].name)
        self.assertEqual("M", modules('M { iso(1) 2 3 } "/ISO/M" DEFINITIONS ::= BEGIN END')[0].name)

    def test_several_modules_in_a_file(self):
        self.assertEqual(["A", "B"], [it.name for it in modules("A DEFINITIONS ::= BEGIN END B DEFINITIONS ::= BEGIN END")])

    def test_exports(self):
        self.assertIsNone(modules("M DEFINITIONS ::= BEGIN EXPORTS ALL; END")[0].exports)
        self.assertEqual([], modules("M DEFINITIONS ::= BEGIN EXPORTS ; END")[0].exports)
        self.assertEqual(["A", "b"], modules("M DEFINITIONS ::= BEGIN EXPORTS A, b; END")[0].exports)

    def test_imports(self):
        text = "M DEFINITIONS ::= BEGIN IMPORTS A, b FROM N { 1 2 3 } C{}, d FROM O id-o e FROM P WITH SUCCESSORS; END"
        found = [(it.name, it.module) for it in modules(text)[0].imports]
        self.assertEqual([("A", "N"), ("b", "N"), ("C", "O"), ("d", "O"), ("e", "P")], found)

    def test_no_imports(self):
        self.assertEqual([], modules("M DEFINITIONS ::= BEGIN IMPORTS ; END")[0].imports)


class Classes(unittest.TestCase):
    TEXT = """ALGORITHM ::= CLASS {
        &id OBJECT IDENTIFIER UNIQUE,
        &Type OPTIONAL,
        &value INTEGER DEFAULT 5,
        &open &Type OPTIONAL,
        &Set INTEGER OPTIONAL,
        &Objects OTHER OPTIONAL
    } WITH SYNTAX { OID &id [PARMS [TYPE &Type]] }"""

    def setUp(self):
        self.definition = read_clean(self, self.TEXT).assignments[0].definition

    def test_fields(self):
        self.assertEqual(["&id", "&Type", "&value", "&open", "&Set", "&Objects"], [it.name for it in self.definition.fields])
        self.assertTrue(self.definition.field_named("&id").unique)
        self.assertIsNone(self.definition.field_named("&Type").type)
        self.assertTrue(self.definition.field_named("&Type").optional)
        self.assertTrue(self.definition.field_named("&value").has_default)
        self.assertEqual("OTHER", self.definition.field_named("&Objects").type.name)

    def test_syntax_with_groups_in_each_other(self):
        literal, identifier, group = self.definition.syntax
        self.assertEqual(("OID", "&id"), (literal.literal, identifier.field_name))
        self.assertEqual("PARMS", group.group[0].literal)
        self.assertEqual(["TYPE", None], [it.literal for it in group.group[1].group])

    def test_the_built_in_class(self):
        found = read_clean(self, "OTHER-NAME ::= TYPE-IDENTIFIER").assignments[0]
        self.assertEqual("TYPE-IDENTIFIER", found.definition)

    def test_a_type_of_the_built_in_class_is_a_type(self):
        found = read_clean(self, "T ::= TYPE-IDENTIFIER.&Type").assignments[0]
        self.assertIsInstance(found.type, tree.FieldType)


class Parameters(unittest.TestCase):
    def test_kinds(self):
        found = read_clean(self, "T { Inner, INTEGER : top, CLASS-A : Set } ::= SEQUENCE { a Inner }").assignments[0]
        self.assertEqual([("Inner", None), ("top", "INTEGER"), ("Set", "CLASS-A")], [(it.name, it.governor) for it in found.parameters])

    def test_of_a_value_and_a_set(self):
        value, set_ = read_clean(self, "v { INTEGER : n } INTEGER ::= n\nS { INTEGER : n } INTEGER ::= { n | 5 }").assignments
        self.assertEqual(["n"], [it.name for it in value.parameters])
        self.assertEqual(["n"], [it.name for it in set_.parameters])
