"""The encodings of values of modules: of defaults, and of single values. The bytes are worked out by hand from X.690."""
import unittest

from ..meaning.encodings import element, encoding_of
from . import Given, module_text

MODULE = """id-sha1 OBJECT IDENTIFIER ::= { 1 3 14 3 2 26 }
ALG ::= CLASS { &id OBJECT IDENTIFIER UNIQUE, &Type OPTIONAL } WITH SYNTAX { OID &id [PARMS &Type] }
A ::= SEQUENCE { a ALG.&id, p ALG.&Type OPTIONAL }
B ::= SEQUENCE {
    h [0] INTEGER (0..23) DEFAULT 0, m [1] IMPLICIT INTEGER DEFAULT 0, b BIT STRING { x(0), y(1) } DEFAULT { y }, t UTF8String OPTIONAL }
C ::= CHOICE { and [1] SEQUENCE OF NULL, o [2] B }
D ::= SET { a [1] IMPLICIT NULL, b BOOLEAN }
E ::= [APPLICATION 3] IMPLICIT SEQUENCE { e ENUMERATED { one(1), two(2) } }
"""
# a type, a value of it, and its encoding
VALUES = [
    ("BOOLEAN", "TRUE", "0101FF"),
    ("INTEGER", "-129", "0202FF7F"),
    ("INTEGER { five(5) }", "five", "020105"),
    ("A", "{ a id-sha1, p NULL : NULL }", "300906052B0E03021A0500"),
    ("A", "{ a id-sha1, p INTEGER : 7 }", "300A06052B0E03021A020107"),
    ("B", '{ h 5, m 0, t "hi" }', "3009A0030201050C026869"),
    ("B", "{ b { x } }", "300403020780"),
    ("SET OF INTEGER", "{ 300, 1 }", "31070201010202012C"),
    ("C", "and : {}", "A1023000"),
    ("C", "o : { h 1 }", "A2073005A003020101"),
    ("D", "{ a NULL, b FALSE }", "31050101008100"),
    ("E", "{ e two }", "63030A0102"),
    ("BIT STRING", "'101'B", "030205A0"),
    ("BIT STRING { a(0), b(3) }", "{ b }", "03020410"),
    ("OCTET STRING", "'0A1'H", "04020A10"),
    ("BMPString", '"aä"', "1E04006100E4"),
    ("RELATIVE-OID", "{ 8571 3 }", "0D03C27B03"),
]


class Encodings(unittest.TestCase):
    def test_each(self):
        for type_, value, wanted in VALUES:
            with self.subTest(f"{type_} {value}"):
                one = Given(module_text(f"{MODULE}v T ::= {value}\nT ::= {type_}"))
                found, _ = one.assignment("v")
                self.assertEqual(wanted, encoding_of(one.program, found.value, one.scope(), found.type, one.scope()).hex().upper())

    def test_what_isnt_worked_out(self):
        for type_, value in (("REAL", "1.5"), ("A", "{ p NULL : NULL }"), ("TeletexString", '"ä"'), ("BOOLEAN", "missing")):
            with self.subTest(f"{type_} {value}"):
                one = Given(module_text(f"{MODULE}v T ::= {value}\nT ::= {type_}"))
                found, _ = one.assignment("v")
                self.assertIsNone(encoding_of(one.program, found.value, one.scope(), found.type, one.scope()))

    def test_a_long_element(self):
        self.assertEqual("04820100", element(0x04, bytes(256))[:4].hex())


if __name__ == "__main__":
    unittest.main()
