"""Each error of the parser, with its place, what was met, what is wanted, and the clause."""
import unittest

from ..parse.modules import read_text
from ..parse.source import NotationError, Problems, Severity
from . import read

# a notation as the assignment on line 2, and the error
ASSIGNMENTS = [
    ("T ::= [A] NULL", "2:8: expected the number of a tag, found `A` (X.680, 31.2.1)"),
    ("T ::= [0 NULL", "2:10: expected `]`, found `NULL` (X.680, 31.2.1)"),
    ("T ::= 5", "2:7: expected a type, found `5` (X.680, 17.1)"),
    ("T ::= { a }", "2:7: expected a type, found `{` (X.680, 17.1)"),
    ("T ::= OPTIONAL", "2:7: expected a type, found `OPTIONAL` (X.680, 17.1)"),
    ("T ::= OCTET NULL", "2:13: expected `STRING`, found `NULL` (X.680, 23.1)"),
    ("T ::= OBJECT STRING", "2:14: expected `IDENTIFIER`, found `STRING` (X.680, 32.1)"),
    ("T ::= EMBEDDED NULL", "2:16: expected `PDV`, found `NULL` (X.680, 36.1)"),
    ("T ::= CHARACTER NULL", "2:17: expected `STRING`, found `NULL` (X.680, 44.1)"),
    ("T ::= BIT NULL", "2:11: expected `STRING`, found `NULL` (X.680, 22.1)"),
    ("T ::= BIT STRING { a }", "2:22: expected `(`, found `}` (X.680, 22.1)"),
    ("T ::= INTEGER { 5 }", "2:17: expected a name, found `5` (X.680, 19.1)"),
    ("T ::= INTEGER { a(TRUE) }", "2:19: expected a number or the name of one (X.680, 19.1)"),
    ("T ::= INTEGER { a(1 }", "2:21: expected `)`, found `}` (X.680, 19.1)"),
    ("T ::= ENUMERATED NULL", "2:18: expected `{`, found `NULL` (X.680, 20.1)"),
    ("T ::= ENUMERATED { 1 }", "2:20: expected an item of the enumeration, found `1` (X.680, 20.1)"),
    ("T ::= ENUMERATED { }", "2:7: an enumeration has an item at least (X.680, 20.1)"),
    ("T ::= ENUMERATED { a b }", "2:22: expected `,` or `}`, found `b` (X.680, 20.1)"),
    ("T ::= SEQUENCE NULL", "2:16: expected `{` or `OF`, found `NULL` (X.680, 25.1)"),
    ("T ::= SET NULL", "2:11: expected `{` or `OF`, found `NULL` (X.680, 27.1)"),
    ("T ::= SEQUENCE { 5 }", "2:18: expected the name of a member, found `5` (X.680, 25.1)"),
    ("T ::= SEQUENCE { a NULL b NULL }", "2:25: expected `,` or `}`, found `b` (X.680, 25.1)"),
    ("T ::= SEQUENCE { a NULL OPTIONAL DEFAULT 5 }", "2:34: expected `,` or `}`, found `DEFAULT` (X.680, 25.1)"),
    ("T ::= SEQUENCE { COMPONENTS NULL }", "2:29: expected `OF`, found `NULL` (X.680, 25.1)"),
    ("T ::= SEQUENCE { ..., [[ 2 a NULL ]] }", "2:28: expected `:`, found `a` (X.680, 25.1)"),
    ("T ::= CHOICE { COMPONENTS OF A }", "2:16: expected the name of a member, found `COMPONENTS` (X.680, 29.1)"),
    ("T ::= CHOICE NULL", "2:14: expected `{`, found `NULL` (X.680, 29.1)"),
    ("T ::= ANY DEFINED NULL", "2:19: expected `BY`, found `NULL` (X.208, 27.1)"),
    ("T ::= ANY DEFINED BY 5", "2:22: expected the name of a member, found `5` (X.208, 27.1)"),
    ("T ::= INSTANCE NULL", "2:16: expected `OF`, found `NULL` (X.681, C.1)"),
    ("T ::= INSTANCE OF a", "2:19: expected the name of a class, found `a` (X.681, C.1)"),
    ("T ::= Other { INTEGER NULL }", "2:23: expected `,` or `}`, found `NULL` (X.683, 9.5)"),
    ("T ::= INTEGER (1..", "3:1: expected a value, found `END` (X.680, 17.7)"),
    ("T ::= INTEGER (1<)", "2:18: expected `..`, found `)` (X.680, 51.4)"),
    ("T ::= INTEGER (MIN)", "2:19: expected `..`, found `)` (X.680, 51.4)"),
    ("T ::= INTEGER (1 2)", "2:18: expected `)`, found `2` (X.680, 49.6)"),
    ("T ::= INTEGER (1, 2)", "2:19: expected `...`, found `2` (X.680, 50.1)"),
    ("T ::= INTEGER ()", "2:16: expected a value, a range, a type or a constraint, found `)` (X.680, 51.1)"),
    ("T ::= INTEGER (ALL 5)", "2:20: expected `EXCEPT`, found `5` (X.680, 50.1)"),
    ("T ::= Other (WITH NULL)", "2:19: expected `COMPONENTS`, found `NULL` (X.680, 51.8)"),
    ("T ::= Other (WITH COMPONENTS NULL)", "2:30: expected `{`, found `NULL` (X.680, 51.8.5)"),
    ("T ::= OCTET STRING (ENCODED NULL)", "2:29: expected `BY`, found `NULL` (X.682, 11.4)"),
    ("T ::= INTEGER (CONSTRAINED NULL)", "2:28: expected `BY`, found `NULL` (X.682, 9.3)"),
    ("v INTEGER 5", "2:11: expected `::=`, found `5` (X.680, 16.2)"),
    ("v INTEGER ::= -", "3:1: expected a number, found `END` (X.680, 19.2)"),
    ("v INTEGER ::= SEQUENCE", "2:15: expected a value, found `SEQUENCE` (X.680, 17.7)"),
    ("S INTEGER ::= INTEGER", "2:15: expected `{`, found `INTEGER` (X.680, 16.6)"),
    ("S INTEGER { 1 }", "2:13: expected a name, found `1` (X.680, 19.1)"),
    ("v OBJECT IDENTIFIER ::= { 1 2 ) }", "2:25: `{` isn't closed by `}`: found `)` at 2:31 (X.680, 12.37)"),
    ("T { INTEGER : 5 } ::= NULL", "2:3: expected the name of a parameter (X.683, 8.3)"),
    ("C ::= CLASS NULL", "2:13: expected `{`, found `NULL` (X.681, 9.3)"),
    ("C ::= CLASS { id INTEGER }", "2:15: expected the name of a field, found `id` (X.681, 9.4)"),
    ("C ::= CLASS { &id INTEGER &Type }", "2:27: expected `,`, found `&Type` (X.681, 9.3)"),
    ("C ::= CLASS { &id INTEGER } WITH NULL", "2:34: expected `SYNTAX`, found `NULL` (X.681, 10.5)"),
    ("C ::= CLASS { &id INTEGER } WITH SYNTAX NULL", "2:41: expected `{`, found `NULL` (X.681, 10.5)"),
    ("C ::= CLASS { &id INTEGER } WITH SYNTAX { ID &Id }", "2:46: the class has no field `&Id` (X.681, 10.8)"),
    ("5 ::= NULL", "2:1: expected an assignment or `END`, found `5` (X.680, 13.1)"),
]

# a whole text, and the error that no assignment has
TEXTS = [
    ("5", "1:1: expected the name of a module, found `5` (X.680, 13.1)"),
    ("END", "1:1: expected the name of a module, found `END` (X.680, 13.1)"),
    ("M ::= BEGIN END", "1:3: expected `DEFINITIONS`, found `::=` (X.680, 13.1)"),
    ("M DEFINITIONS BEGIN END", "1:15: expected `::=`, found `BEGIN` (X.680, 13.1)"),
    ("M DEFINITIONS ::= END", "1:19: expected `BEGIN`, found `END` (X.680, 13.1)"),
    ("M DEFINITIONS IMPLICIT ::= BEGIN END", "1:24: expected `TAGS`, found `::=` (X.680, 13.2)"),
    ("M DEFINITIONS EXTENSIBILITY ::= BEGIN END", "1:29: expected `IMPLIED`, found `::=` (X.680, 13.4)"),
    ("M { iso DEFINITIONS ::= BEGIN END", "1:3: `{` isn't closed by `}` (X.680, 13.1)"),
    ("M DEFINITIONS ::= BEGIN EXPORTS ALL END", "1:37: expected `;`, found `END` (X.680, 13.1)"),
    ("M DEFINITIONS ::= BEGIN EXPORTS A", "1:25: `EXPORTS` isn't closed by `;`: found the end of the file (X.680, 13.1)"),
    ("M DEFINITIONS ::= BEGIN IMPORTS A;", "1:34: expected `FROM`, found `;` (X.680, 13.16)"),
    ("M DEFINITIONS ::= BEGIN IMPORTS A FROM 5;", "1:40: expected the name of a module, found `5` (X.680, 13.16)"),
    ("M DEFINITIONS ::= BEGIN IMPORTS A FROM N", "1:25: `IMPORTS` isn't closed by `;` (X.680, 13.1)"),
    ("M DEFINITIONS ::= BEGIN IMPORTS , FROM N;", "1:33: expected a name that is imported, found `,` (X.680, 13.16)"),
    ("M DEFINITIONS ::= BEGIN T ::= NULL", "1:35: expected an assignment or `END`, found the end of the file (X.680, 13.1)"),
]


class Errors(unittest.TestCase):
    def test_of_assignments(self):
        for notation, wanted in ASSIGNMENTS:
            with self.subTest(notation):
                _, problems = read(notation)
                place, _, rest = wanted.partition(": ")
                self.assertEqual(f"m.asn1:{place}: error: {rest}", str(problems.of(Severity.ERROR)[0]))

    def test_of_modules(self):
        for text, wanted in TEXTS:
            with self.subTest(text):
                with self.assertRaises(NotationError) as caught:
                    read_text(text, "m.asn1", Problems())
                place, _, rest = wanted.partition(": ")
                self.assertEqual(f"m.asn1:{place}: error: {rest}", str(caught.exception.problem))

    def test_a_macro_without_an_end(self):
        with self.assertRaises(NotationError):
            read_text("M DEFINITIONS ::= BEGIN T MACRO ::= BEGIN", "m.asn1", Problems())

    def test_the_rest_of_a_module_is_read_after_an_error(self):
        module, problems = read("A ::= SEQUENCE { a NULL b NULL }\nB ::= NULL\nC ::= 5\nd INTEGER ::= 1")
        self.assertEqual(["A", "B", "C", "d"], [it.name for it in module.assignments])
        self.assertEqual([2, 4], [it.place.line for it in problems.of(Severity.ERROR)])
