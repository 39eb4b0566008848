"""What X.680 refuses beyond its grammar: each wrong module with its error, and what looks like it and is right."""
import unittest

from .. import report
from ..parse.modules import read_text
from ..parse.source import NotationError, Problems, Severity
from . import module_text

# assignments from line 2 on, and the errors of the module
WRONG = [
    # names
    ("T ::= SEQUENCE { a NULL, a BOOLEAN }", "2:26: `a` is there twice, at 2:18 too (X.680, 25)"),
    ("T ::= SET { a [0] NULL, a [1] NULL }", "2:25: `a` is there twice, at 2:13 too (X.680, 27)"),
    ("T ::= CHOICE { a NULL, a BOOLEAN }", "2:24: `a` is there twice, at 2:16 too (X.680, 29)"),
    ("T ::= SEQUENCE { COMPONENTS OF U, a BOOLEAN }\nU ::= SEQUENCE { a NULL }", "2:35: `a` is there twice, at 3:18 too (X.680, 25)"),
    ("T ::= INTEGER { low(0), low(2) }", "2:25: `low` is there twice, at 2:17 too (X.680, 19)"),
    ("T ::= ENUMERATED { red, green, red }", "2:32: `red` is there twice, at 2:20 too (X.680, 20)"),
    ("T ::= BIT STRING { on(0), on(1) }", "2:27: `on` is there twice, at 2:20 too (X.680, 22)"),
    ("T ::= NULL\nT ::= BOOLEAN", "3:1: `T` is assigned at 2:1 too, which is used (X.680, 13.10)"),
    ("v INTEGER ::= 1\nv INTEGER ::= 2", "3:1: `v` is assigned at 2:1 too, which is used (X.680, 13.10)"),
    # numbers
    ("T ::= INTEGER { low(4), high(4) }", "2:25: `high` has the number 4, as `low` has at 2:17 (X.680, 19)"),
    ("T ::= BIT STRING { on(3), off(3) }", "2:27: `off` has the number 3, as `on` has at 2:20 (X.680, 22)"),
    ("T ::= BIT STRING { on(-1) }", "2:23: the number of a bit isn't below 0: `-1` (X.680, 22.1)"),
    ("T ::= ENUMERATED { red(2), green(2) }", "2:28: `green` has the number 2, as `red` has at 2:20 (X.680, 20.3)"),
    ("T ::= ENUMERATED { red, green, ..., blue(0) }", "2:37: `blue` has the number 0, as `red` has at 2:20 (X.680, 20.3)"),
    ("T ::= ENUMERATED { red, ..., green, blue(1) }", "2:37: `blue` has the number 1, as `green` has at 2:30 (X.680, 20.3)"),
    ("T ::= ENUMERATED { a, ..., b(9), c(4) }", "2:34: `c` has the number 4, which isn't above 9, that of the item of a version before (X.680, 20)"),
    ("T ::= ENUMERATED { a, ..., b, ... }", "2:31: an enumeration has one extension marker at most (X.680, 20.1)"),
    ("T ::= [-3] NULL", "2:8: expected the number of a tag, found `-` (X.680, 31.2.1)"),
    # tags
    ("T ::= SEQUENCE { a NULL OPTIONAL, b NULL }", "2:18: `a` may be absent, and `b`, which may come in its place, can begin with the same tag (X.680, 25.6)"),
    ("T ::= SEQUENCE { a NULL OPTIONAL, b ANY }", "2:18: `a` may be absent, and `b`, which may come in its place, can begin with the same tag (X.680, 25.6)"),
    ("T ::= SET { a NULL, b CHOICE { c NULL } }", "2:21: `b` can begin with the same tag as a member before it (X.680, 27.3)"),
    ("T ::= CHOICE { a NULL, b U }\nU ::= CHOICE { c BOOLEAN, d NULL }", "2:24: `b` can begin with the same tag as an alternative before it (X.680, 29.3)"),
    (
        "T ::= SET { a CHOICE { b NULL, ... }, c CHOICE { d BOOLEAN, ... } }",
        "2:39: a later alternative of `c` can begin with the same tag as one of `a` (X.680, 52.7)",
    ),
    ("T ::= [1] IMPLICIT CHOICE { a NULL }", "2:7: IMPLICIT isn't for a CHOICE, an open type or a parameter without a tag (X.680, 31.2.9)"),
    # values
    ("T ::= SEQUENCE { a INTEGER (0..10) DEFAULT 99 }", "2:44: `99` isn't a value of `INTEGER (0..10)` (X.680, 25)"),
    ("T ::= SEQUENCE { a BOOLEAN DEFAULT 5 }", "2:36: `5` isn't a value of `BOOLEAN` (X.680, 25)"),
    ("T ::= SET { a U DEFAULT TRUE }\nU ::= OCTET STRING", "2:25: `TRUE` isn't a value of `U` (X.680, 27)"),
    ("T ::= SEQUENCE { a ENUMERATED { x, y } DEFAULT z }", "2:48: `z` isn't defined (X.680, 14.1)"),
    ("T ::= SEQUENCE { a ENUMERATED { x, y } DEFAULT 1 }", "2:48: `1` isn't a value of `ENUMERATED { x, y }` (X.680, 25)"),
    ("T ::= SEQUENCE { a OCTET STRING (SIZE (2)) DEFAULT '00'H }", "2:52: `'00'H` isn't a value of `OCTET STRING (SIZE (2))` (X.680, 25)"),
    ("T ::= SEQUENCE { a BIT STRING { x(0) } DEFAULT { y } }", "2:50: `y` isn't a bit of `BIT STRING { x (0) }` (X.680, 25)"),
    ("T ::= SEQUENCE { a NumericString DEFAULT \"a\" }", "2:42: `\"a\"` isn't a value of `NumericString` (X.680, 25)"),
    ("T ::= SEQUENCE { a CHOICE { b NULL } DEFAULT c : NULL }", "2:46: `CHOICE { b NULL }` has no alternative `c` (X.680, 25)"),
    ("T ::= SEQUENCE { a UTF8String DEFAULT v }\nv GeneralString ::= \"a\"", "2:39: `v` is a value of `GeneralString`, and `UTF8String` has other values (X.680, 25)"),
    ("T { A } ::= SEQUENCE { a A DEFAULT 3 }\nU ::= T { BOOLEAN }", "2:36: `3` isn't a value of `A` (X.680, 25)"),
    ("v INTEGER (1..3) ::= 5", "2:22: `5` isn't a value of `INTEGER (1..3)` (X.680, 16.2)"),
    ("v INTEGER ::= w", "2:15: `w` isn't defined (X.680, 14.1)"),
    # names that lead to themselves, or nowhere
    ("v INTEGER ::= w\nw INTEGER ::= v", "2:1: `v` is defined by itself alone: v ::= w ::= v (X.680, 16.2)", "3:1: `w` is defined by itself alone: w ::= v ::= w (X.680, 16.2)"),
    ("T ::= U\nU ::= T", "2:1: `T` is defined by itself alone: T ::= U ::= T (X.680, 14.1)", "3:1: `U` is defined by itself alone: U ::= T ::= U (X.680, 14.1)"),
    ("T ::= [missing] NULL", "2:8: `missing` isn't the number of a tag (X.680, 31.2.1)"),
    ("T ::= INTEGER { low(missing) }", "2:21: `missing` isn't defined (X.680, 14.1)"),
    ("T ::= OCTET STRING (SIZE (1..missing))", "2:30: `missing` isn't defined (X.680, 14.1)"),
    ("T ::= SEQUENCE { a U.&id }\nU ::= SEQUENCE { a NULL }", "2:20: `U` isn't a class (X.681, 14.1)"),
    ("T ::= SEQUENCE { a C.&code }\nC ::= CLASS { &id INTEGER }", "2:20: the class `C` has no field `&code` (X.681, 14.1)"),
    ("T ::= SEQUENCE OF v\nv INTEGER ::= 1", "2:19: the name of a type begins with a capital letter: `v` (X.680, 12.2.1)", "2:19: `v` isn't a type; 1 type contains it (X.680, 14.1)"),
    ("T ::= SEQUENCE { COMPONENTS OF INTEGER }", "2:18: COMPONENTS OF a type that isn't a SEQUENCE or SET (X.680, 25.5)"),
    # constraints
    ("T ::= INTEGER (SIZE (0..4))", "2:16: `INTEGER` has no SIZE (X.680, 51.1)"),
    ("T ::= INTEGER (FROM (\"a\"))", "2:16: `INTEGER` has no characters, and no FROM (X.680, 51.1)"),
    ("T ::= INTEGER (1..8) (4..9)", "2:26: 9 isn't a number of the type before this constraint (X.680, 51.4)"),
    ("T ::= NumericString (FROM (\"0\"..\"9\" | \"x\"))", "2:39: NumericString doesn't have the character `x` (X.680, 51.7)"),
]

# whole modules, and their errors
WRONG_MODULES = [
    ("M DEFINITIONS ::= BEGIN\nIMPORTS T FROM M;\nU ::= SEQUENCE OF T\nEND", "2:9: `M` imports `T` from itself (X.680, 13.16)"),
    (
        "M DEFINITIONS ::= BEGIN\nIMPORTS T FROM N;\nU ::= SEQUENCE OF T\nV ::= T END N DEFINITIONS ::= BEGIN U ::= NULL END",
        "2:9: the module `N` has no `T`; 2 types contain it (X.680, 13.16)",
    ),
    (
        "M DEFINITIONS ::= BEGIN\nIMPORTS T FROM O { 1 2 3 };\nU ::= T END\nN { 1 2 3 } DEFINITIONS ::= BEGIN EXPORTS ; T ::= NULL END",
        "2:9: the module `N` doesn't export `T` (X.680, 13.16)",
    ),
    ("M DEFINITIONS ::= BEGIN END\nM DEFINITIONS ::= BEGIN END", "2:1: the module `M` is in m.asn1, too, which is used (X.680, 13.1)"),
]

# what is right
RIGHT = [
    "T ::= SEQUENCE { a [0] NULL, b [1] SEQUENCE { a NULL } }",
    "T ::= INTEGER { low(0), high(9) } (low | high)",
    "T ::= ENUMERATED { a, b(3), ..., c(1), d(7) }",
    "T ::= SEQUENCE { a INTEGER { x(5) } DEFAULT x, b [0] INTEGER DEFAULT v }\nv INTEGER ::= 4",
    "T ::= SEQUENCE { a INTEGER (0..10, ...) DEFAULT 99 }",
    "T ::= SEQUENCE { a ENUMERATED { x, ..., y } DEFAULT y }",
    "T ::= SEQUENCE { a UTF8String DEFAULT v }\nv PrintableString ::= \"a\"",
    "T ::= SEQUENCE { a SEQUENCE OF NULL DEFAULT {}, b [0] BIT STRING { x(0) } DEFAULT { x } }",
    "T { INTEGER : v } ::= SEQUENCE { a INTEGER (0..v) DEFAULT v }\nU ::= T { 7 }",
    "T ::= SEQUENCE { a OBJECT IDENTIFIER DEFAULT { 2 5 }, b [0] REAL DEFAULT 0 }",
    "T ::= GeneralizedTime (SIZE (15))\nU ::= NumericString (FROM (\"0\"..\"9\"))",
    "T ::= CHOICE { a CHOICE { b NULL, ... }, c BOOLEAN }",
    "T ::= SEQUENCE OF T\nU ::= SEQUENCE { a U OPTIONAL }",
    "T ::= INTEGER (1..8) (2..3)\nU ::= INTEGER (MIN..-1)",
]


def said(text, strict=True):
    """The errors that a report of these modules has, without the name of the file."""
    problems = Problems(strict)
    try:
        report.report_of(read_text(text, "m.asn1", problems), problems)
    except NotationError as error:
        problems.add(error.problem)
    return [f"{it.place.line}:{it.place.column}: {it.text} ({it.clause})" for it in problems.of(Severity.ERROR)]


class Wrong(unittest.TestCase):
    def check(self, wanted, found):
        """What the errors are; how many types contain each is looked at where it is wanted."""
        counted = [it if " contain" in it else one.split(";")[0] + one[one.rindex(" ("):] if "; " in one and " contain" in one else one
                   for it, one in zip(wanted, found)]
        self.assertEqual(list(wanted), [*counted, *found[len(wanted):]])

    def test_assignments(self):
        for body, *wanted in WRONG:
            with self.subTest(body):
                self.check(wanted, said(module_text(body)))

    def test_modules(self):
        for text, *wanted in WRONG_MODULES:
            with self.subTest(text):
                self.check(wanted, said(text))

    def test_what_is_plain_is_a_warning_alone(self):
        self.assertEqual([], said(module_text("T ::= INTEGER { low(4), high(4) }"), strict=False))
        self.assertEqual([], said(module_text("T ::= NULL\nT ::= NULL"), strict=False))
        self.assertEqual([], said("M DEFINITIONS ::= BEGIN IMPORTS T FROM N; END N DEFINITIONS ::= BEGIN END", strict=False))


class Right(unittest.TestCase):
    def test_assignments(self):
        for body in RIGHT:
            with self.subTest(body):
                self.assertEqual([], said(module_text(body)))


if __name__ == "__main__":
    unittest.main()
