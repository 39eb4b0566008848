"""Which type of the library each type of the notation is, and what is missing: by docs/YOUR_TYPES.md, X.680 and X.690."""
import re
import unittest

from ..meaning.declarations import Hint
from ..meaning.features import Feature, Level, Note
from ..meaning.library import ANY_FIRST
from . import Given, given, module_text

# a type that is exact, and the type of the library
EXACT = [
    ("BOOLEAN", "bool"),
    ("NULL", "()"),
    ("INTEGER", "Integer"),
    ("INTEGER { v1(0) }", "Integer"),
    ("INTEGER (0..255)", "u8"),
    ("INTEGER (0..65535)", "u16"),
    ("INTEGER (0..4294967295)", "u32"),
    ("INTEGER (0..18446744073709551615)", "u64"),
    ("INTEGER (-128..127)", "i8"),
    ("INTEGER (-2147483648..2147483647)", "i32"),
    ("INTEGER (0..200)", "InRange<u8, 0, 200>"),
    ("INTEGER (1..256)", "InRange<u16, 1, 256>"),
    ("INTEGER (5)", "InRange<u8, 5, 5>"),
    ("INTEGER (1 | 2 | 3..7)", "InRange<u8, 1, 7>"),
    ("INTEGER (0..999999)", "InRange<u32, 0, 999999>"),
    ("INTEGER (0..10) (5..20)", "InRange<u8, 5, 10>"),
    ("INTEGER (0..10 EXCEPT 9..10)", "InRange<u8, 0, 8>"),
    ("INTEGER (0..10, ...)", "Integer"),
    ("INTEGER (-5..5)", "AtMost<AtLeast<i8, Minus<5>>, Plus<5>>"),
    ("INTEGER (-1..200)", "AtMost<AtLeast<i16, Minus<1>>, Plus<200>>"),
    ("INTEGER (-60..-50)", "AtMost<AtLeast<i8, Minus<60>>, Minus<50>>"),
    ("INTEGER (-32768..32767)", "i16"),
    (f"INTEGER (1..{2**64 - 1})", f"InRange<u64, 1, {2**64 - 1}>"),
    ("INTEGER (0..MAX)", "AtLeast<Integer, Plus<0>>"),
    ("INTEGER (MIN..-1)", "AtMost<Integer, Minus<1>>"),
    ("INTEGER (64 | 128)", "Outside<InRange<u8, 64, 128>, Plus<65>, Plus<127>>"),
    ("INTEGER (-9 | 0..7 | 9..MAX)", "Outside<Outside<AtLeast<Integer, Minus<9>>, Minus<8>, Minus<1>>, Plus<8>, Plus<8>>"),
    ("INTEGER (0..255 EXCEPT 7)", "Outside<u8, Plus<7>, Plus<7>>"),
    ("INTEGER (MIN..0 | 2..MAX)", "Outside<Integer, Plus<1>, Plus<1>>"),
    ('PrintableString (FROM ("A".."Z"))', "RestrictedString<TCharacters>"),
    ('IA5String (SIZE (2)) (FROM ("a" | "b".."d"))', "WithSize<RestrictedString<TCharacters>, 2, 2>"),
    ("GeneralString (IA5String)", "RestrictedString<TCharacters>"),
    ('NumericString (FROM ("0".."9" | " "))', "NumericString"),
    ("VisibleString (IA5String)", "VisibleString"),
    ("GraphicString", "GraphicString"),
    ("VideotexString", "VideotexString"),
    ("ObjectDescriptor", "ObjectDescriptor"),
    ("INTEGER (MIN..MAX)", "Integer"),
    ("INTEGER { top(9) } (0..top)", "InRange<u8, 0, 9>"),
    ("OBJECT IDENTIFIER", "ObjectIdentifier"),
    ("RELATIVE-OID", "RelativeOid"),
    ("OCTET STRING", "ByteBuf"),
    ("OCTET STRING (SIZE (1..20))", "WithSize<ByteBuf, 1, 20>"),
    ("OCTET STRING (SIZE (1..20, ...))", "ByteBuf"),
    ("BIT STRING", "BitString"),
    ("BIT STRING (SIZE (32))", "WithSize<BitString, 32, 32>"),
    ("BIT STRING { a(0) }", "NamedBits"),
    ("UTF8String", "String"),
    ("UTF8String (SIZE (1..MAX))", "WithSize<String, 1, { usize::MAX }>"),
    ("PrintableString (SIZE (2))", "WithSize<PrintableString, 2, 2>"),
    ("NumericString", "NumericString"),
    ("IA5String", "Ia5String"),
    ("VisibleString", "VisibleString"),
    ("ISO646String", "VisibleString"),
    ("UniversalString", "UniversalString"),
    ("BMPString", "BmpString"),
    ("UTCTime", "UtcTime"),
    ("GeneralizedTime", "GeneralizedTime"),
    ("GeneralizedTime (SIZE (15))", "WithSize<GeneralizedTime, 15, 15>"),
    ("ENUMERATED { a, ... }", "Enumerated"),
    ("SEQUENCE OF NULL", "Vec<()>"),
    ("SET OF NULL", "Asn1SetOf<()>"),
    ("SEQUENCE SIZE (1..MAX) OF INTEGER", "WithSize<Vec<Integer>, 1, { usize::MAX }>"),
    ("OCTET STRING (CONTAINING INTEGER)", "OctetStringAsn1Container<Integer>"),
    ("OCTET STRING (CONTAINING INTEGER ENCODED BY { joint-iso-itu-t asn1(1) 2 1 })", "OctetStringAsn1Container<Integer>"),
    ("BIT STRING (CONTAINING NULL)", "BitStringAsn1Container<()>"),
    ("[3] NULL", "ExplicitContextTag3<()>"),
    ("[16] NULL", "ExplicitContextTag<(), 16>"),
    ("[3] IMPLICIT NULL", "ImplicitContextTag3<()>"),
    ("[16] IMPLICIT INTEGER", "ImplicitContextTag<Integer, 16>"),
    ("[3] IMPLICIT OCTET STRING (SIZE (4))", "ImplicitContextTag3<WithSize<ByteBuf, 4, 4>>"),
    ("[3] IMPLICIT OCTET STRING (CONTAINING NULL)", "ImplicitContextTag3<((),)>"),
    ("[3] EXPLICIT OCTET STRING (CONTAINING NULL)", "ExplicitContextTag3<OctetStringAsn1Container<()>>"),
    ("[3] IMPLICIT [4] IMPLICIT OCTET STRING (CONTAINING NULL)", "ImplicitContextTag3<((),)>"),
    ("[3] IMPLICIT [4] EXPLICIT OCTET STRING (CONTAINING NULL)", "ExplicitContextTag3<OctetStringAsn1Container<()>>"),
    ("[3] IMPLICIT OCTET STRING (CONTAINING OCTET STRING (CONTAINING NULL))", "ImplicitContextTag3<(OctetStringAsn1Container<()>,)>"),
    ("[3] IMPLICIT OCTET STRING (CONTAINING [4] IMPLICIT OCTET STRING (CONTAINING NULL))", "ImplicitContextTag3<(ImplicitContextTag4<((),)>,)>"),
    ("[3] IMPLICIT SEQUENCE OF NULL", "ImplicitList3<Vec<()>>"),
    ("[8] IMPLICIT SET OF NULL", "ImplicitList<Asn1SetOf<()>, 0xA8>"),
    ("[APPLICATION 3] NULL", "ApplicationTag<(), 3>"),
    ("[APPLICATION 3] IMPLICIT SEQUENCE OF NULL", "ImplicitList<Vec<()>, 0x63>"),
    ("[APPLICATION 3] IMPLICIT OBJECT IDENTIFIER", "ImplicitPrimitive<ObjectIdentifier, 0x43>"),
    ("[PRIVATE 3] IMPLICIT INTEGER", "ImplicitPrimitive<Integer, 0xC3>"),
    ("[APPLICATION 3] IMPLICIT OCTET STRING", "TaggedBytes<0x43>"),
    ("[APPLICATION 3] IMPLICIT OCTET STRING (SIZE (4))", "WithSize<TaggedBytes<0x43>, 4, 4>"),
    ("[APPLICATION 3] IMPLICIT BIT STRING (SIZE (4))", "WithSize<ImplicitPrimitive<BitString, 0x43>, 4, 4>"),
    ("[APPLICATION 3] IMPLICIT INTEGER (0..4294967295)", "InRange<ImplicitPrimitive<Integer, 0x43>, 0, 4294967295>"),
    (f"[APPLICATION 6] IMPLICIT INTEGER (0..{2**64 - 1})", f"InRange<ImplicitPrimitive<Integer, 0x46>, 0, {2**64 - 1}>"),
    ("[APPLICATION 3] IMPLICIT INTEGER (0..255 EXCEPT 7)", "Outside<InRange<ImplicitPrimitive<Integer, 0x43>, 0, 255>, Plus<7>, Plus<7>>"),
    ("[APPLICATION 3] IMPLICIT INTEGER (-9..-8)", "AtMost<AtLeast<ImplicitPrimitive<Integer, 0x43>, Minus<9>>, Minus<8>>"),
    ("[APPLICATION 3] IMPLICIT INTEGER (-128..127)", "AtMost<AtLeast<ImplicitPrimitive<Integer, 0x43>, Minus<128>>, Plus<127>>"),
    ("[APPLICATION 3] IMPLICIT INTEGER (0..MAX)", "AtLeast<ImplicitPrimitive<Integer, 0x43>, Plus<0>>"),
    ("[APPLICATION 3] IMPLICIT INTEGER (1 | 3)", "Outside<InRange<ImplicitPrimitive<Integer, 0x43>, 1, 3>, Plus<2>, Plus<2>>"),
    ("[APPLICATION 3] IMPLICIT NULL", "WithSize<TaggedBytes<0x43>, 0, 0>"),
    ("[1] IMPLICIT [APPLICATION 3] IMPLICIT INTEGER (-3..3)", "ImplicitContextTag1<AtMost<AtLeast<ImplicitPrimitive<Integer, 0x43>, Minus<3>>, Plus<3>>>"),
    ("[PRIVATE 1] IMPLICIT [APPLICATION 3] IMPLICIT INTEGER (-3..3)", "AtMost<AtLeast<ImplicitPrimitive<Integer, 0xC1>, Minus<3>>, Plus<3>>"),
    ("[PRIVATE 1] IMPLICIT [APPLICATION 3] IMPLICIT NULL", "WithSize<TaggedBytes<0xC1>, 0, 0>"),
    ("[1] IMPLICIT INTEGER (-3..3)", "ImplicitContextTag1<AtMost<AtLeast<i8, Minus<3>>, Plus<3>>>"),
    ("[PRIVATE 3] EXPLICIT NULL", "ImplicitList<((),), 0xE3>"),
    ("[1] IMPLICIT [2] EXPLICIT NULL", "ExplicitContextTag1<()>"),
    ("[1] IMPLICIT [2] IMPLICIT NULL", "ImplicitContextTag1<()>"),
    ("[1] IMPLICIT [2] IMPLICIT SEQUENCE OF NULL", "ImplicitList1<Vec<()>>"),
    ("[1] EXPLICIT [2] IMPLICIT NULL", "ExplicitContextTag1<ImplicitContextTag2<()>>"),
    ("SEQUENCE { a NULL }", "T"),
    ("SET { a NULL }", "Asn1Set<T>"),
    ("[1] IMPLICIT SET { a NULL }", "ImplicitSet<T, 0xA1>"),
    ("[1] IMPLICIT SEQUENCE { a NULL }", "ImplicitList1<T>"),
    ("SEQUENCE {}", "WithSize<Vec<()>, 0, 0>"),
    ("CHOICE { a NULL, b [0] NULL }", "T"),
    ("SEQUENCE { a BOOLEAN DEFAULT FALSE, b INTEGER (0..255) DEFAULT 5 }", "T"),
    ("SEQUENCE { a [0] BOOLEAN DEFAULT TRUE }", "T"),
    ("SEQUENCE { a ENUMERATED { x, y } DEFAULT x }", "T"),
    ("SEQUENCE { a INTEGER { v1(0) } (0..255) DEFAULT v1 }", "T"),
    ("SEQUENCE { a [0] IMPLICIT INTEGER (-128..127) DEFAULT -128 }", "T"),
    ("SEQUENCE { a INTEGER OPTIONAL, b NULL OPTIONAL }", "T"),
    ("SEQUENCE { a INTEGER DEFAULT -1 }", "T"),
    ("SEQUENCE { a INTEGER { v1(-5) } DEFAULT v1 }", "T"),
    ("SEQUENCE { a INTEGER (-2147483648..2147483647) DEFAULT 256 }", "T"),
    ("SEQUENCE { a [0] INTEGER (0..MAX) DEFAULT 0 }", "T"),
    ("SEQUENCE { a NULL OPTIONAL, ... } (WITH COMPONENTS { ..., a PRESENT })", "T"),
]

# a type that needs a type of a crate's own for it to be exact
OWN = [
    ("ENUMERATED { a, b }", Note.ENUMERATION),
    ("ENUMERATED { a(-1), b }", Note.WIDE_ENUMERATION),
    ("ENUMERATED { a(127) }", Note.ENUMERATION),
    ("ENUMERATED { a(128) }", Note.WIDE_ENUMERATION),
    (f"INTEGER (-{2**64}..MAX)", Note.CONSTRAINT),
    (f"INTEGER (1..{2**64})", Note.CONSTRAINT),
    ("OCTET STRING (SIZE (1 | 5))", Note.CONSTRAINT),
    ("UTCTime (SIZE (13))", Note.CONSTRAINT),
    ('UTF8String (FROM ("A".."Z"))', Note.ALPHABET),
    ('PrintableString ("ab") (SIZE (3))', Note.CONSTRAINT),
    ("OCTET STRING (CONTAINING INTEGER) (SIZE (3))", Note.CONSTRAINT),
    ("SEQUENCE { a NULL } (WITH COMPONENTS { a ABSENT })", Note.CONSTRAINT),
    ("SEQUENCE { a NULL OPTIONAL, ... } (WITH COMPONENTS { ..., a ABSENT })", Note.CONSTRAINT),
    ("SEQUENCE { a NULL OPTIONAL, ... } (WITH COMPONENTS { a PRESENT })", Note.CONSTRAINT),
    (f"[APPLICATION 1] IMPLICIT INTEGER (0..{2**128 - 1})", Note.CONSTRAINT),
    ("SEQUENCE { a ENUMERATED { x(500), y } DEFAULT x }", Note.DEFAULT),
    ("ANY", Note.OPEN),
    ("SEQUENCE { a OBJECT IDENTIFIER, b ANY DEFINED BY a OPTIONAL }", Note.OPEN),
    ("EXTERNAL", Note.OPEN),
    ("TeletexString", Note.CHARACTERS),
    ("GeneralString", Note.CHARACTERS),
    ("[0] IMPLICIT GraphicString", Note.CHARACTERS),
    ("INTEGER (CONSTRAINED BY {})", Note.USER_CONSTRAINT),
]

# a type that isn't exact, its level, and the feature that is missing
MISSING = [
    ("SEQUENCE { a NULL, ..., ..., b BOOLEAN }", Level.WIDER, Feature.EXTENSION),
    ("SEQUENCE { a ANY OPTIONAL, ... }", Level.WIDER, Feature.EXTENSION),
    ("SET { a NULL, ... }", Level.WIDER, Feature.EXTENSION),
    ("SET { ... }", Level.WIDER, Feature.EXTENSION),
    ("CHOICE { a CHOICE { b NULL, ... }, c [0] NULL }", Level.WIDER, Feature.EXTENSION),
    (f"SEQUENCE {{ a INTEGER DEFAULT {2**64} }}", Level.WIDER, Feature.DEFAULT_INTEGER),
    ("SEQUENCE { a SET OF NULL DEFAULT {}, b NULL }", Level.WIDER, Feature.DEFAULT_OTHER),
    ("OCTET STRING (CONTAINING INTEGER ENCODED BY { 2 1 1 })", Level.WIDER, Feature.ENCODING),
    ("INTEGER (0..missing)", Level.WIDER, Feature.UNKNOWN_BOUND),
    ("CHARACTER STRING", Level.RAW, Feature.RARE),
    ("SEQUENCE { a CHARACTER STRING }", Level.PARTLY_RAW, Feature.RARE),
    ("SEQUENCE { a Missing }", Level.PARTLY_RAW, Feature.UNDEFINED),
    ("[31] NULL", Level.REFUSED, Feature.LONG_TAG),
    ("SEQUENCE { a [31] NULL }", Level.RAW, Feature.LONG_TAG),
    ("SEQUENCE { a NULL OPTIONAL, b NULL }", Level.RAW, Feature.AMBIGUOUS),
    ("CHOICE { a NULL, b NULL }", Level.RAW, Feature.AMBIGUOUS),
    ("SET { a CHOICE { x BOOLEAN, y NULL }, b INTEGER }", Level.RAW, Feature.SET_ORDER),
    ("[APPLICATION 1] IMPLICIT UTF8String", Level.RAW, Feature.FOREIGN_TAG),
    ("[APPLICATION 1] IMPLICIT OCTET STRING (CONTAINING NULL)", Level.RAW, Feature.FOREIGN_TAG),
    ("[1] IMPLICIT BIT STRING (CONTAINING NULL)", Level.RAW, Feature.CONTAINER_TAG),
    ("[PRIVATE 1] IMPLICIT BIT STRING (CONTAINING NULL)", Level.RAW, Feature.CONTAINER_TAG),
    ("[1] IMPLICIT [2] IMPLICIT BIT STRING (CONTAINING NULL)", Level.RAW, Feature.CONTAINER_TAG),
    ("SEQUENCE { a [1] IMPLICIT BIT STRING (CONTAINING NULL) }", Level.PARTLY_RAW, Feature.CONTAINER_TAG),
    ("INTEGER (1..0)", Level.RAW, Feature.NO_VALUES),
]


class Tables(unittest.TestCase):
    def test_exact_types(self):
        for notation, text in EXACT:
            with self.subTest(notation):
                one = given(f"Made ::= {notation}")
                assignment, module = one.assignment("Made")
                found = one.meanings.of_type(assignment.type, one.program.scope_of(module), Hint("T"))
                self.assertEqual((text, Level.EXACT, frozenset()), (found.rust.text, found.level, found.features))
                self.assertEqual([], one.problems.found)

    def test_types_of_ones_own(self):
        for notation, note in OWN:
            with self.subTest(notation):
                found = given(f"T ::= {notation}").meaning("T")
                self.assertEqual(note.level, found.level if note is not Note.OPEN or not found.missing else note.level)
                self.assertIn(note, found.notes)

    def test_missing_features(self):
        for notation, level, feature in MISSING:
            with self.subTest(notation):
                found = given(f"T ::= {notation}").meaning("T")
                self.assertEqual((level, {feature}), (found.level, set(found.features)))


class Sets(unittest.TestCase):
    def test_the_order_of_the_text_doesnt_matter(self):
        self.assertEqual(Level.EXACT, given("T ::= SET { b [1] NULL, a INTEGER, c [APPLICATION 0] NULL }").meaning("T").level)

    def test_a_choice_between_its_neighbours_is_in_order(self):
        found = given("T ::= SET { a BOOLEAN, b CHOICE { x INTEGER, y NULL }, c OBJECT IDENTIFIER }").meaning("T")
        self.assertEqual(Level.EXACT, found.level)


class Parts(unittest.TestCase):
    def test_a_type_is_as_good_as_its_parts(self):
        one = given("T ::= SEQUENCE { a U, b V }\nU ::= ANY\nV ::= SET { a NULL, ... }")
        self.assertEqual(({Note.OPEN}, {Feature.EXTENSION}), (one.meaning("T").notes, one.meaning("T").features))
        self.assertEqual(Level.WIDER, one.meaning("T").level)

    def test_what_is_raw_is_a_raw_part(self):
        one = given("T ::= SEQUENCE { a U }\nU ::= CHARACTER STRING")
        self.assertEqual((Level.RAW, Level.PARTLY_RAW), (one.meaning("U").level, one.meaning("T").level))

    def test_constraints_after_a_name(self):
        one = given("T ::= U (0..255)\nU ::= INTEGER")
        assignment, module = one.assignment("T")
        self.assertEqual("u8", one.meanings.of_type(assignment.type, one.program.scope_of(module), Hint("T")).rust.text)

    def test_constraints_below_a_tag(self):
        one = given("T ::= U (0..255)\nU ::= [2] IMPLICIT INTEGER")
        assignment, module = one.assignment("T")
        self.assertEqual("ImplicitContextTag2<u8>", one.meanings.of_type(assignment.type, one.program.scope_of(module), Hint("T")).rust.text)

    def test_an_optional_member_may_be_followed_by_one_of_another_tag(self):
        self.assertEqual(Level.EXACT, given("T ::= SEQUENCE { a NULL OPTIONAL, b INTEGER, c NULL OPTIONAL }").meaning("T").level)

    def test_an_open_type_that_may_be_absent_is_last(self):
        self.assertEqual(Level.EXACT, given("T ::= SEQUENCE { a NULL, b ANY OPTIONAL }").meaning("T").level)
        found = given("T ::= SEQUENCE { a ANY OPTIONAL, b NULL }").meaning("T")
        self.assertEqual((Level.RAW, {Feature.AMBIGUOUS}), (found.level, found.features))

    def test_a_place_of_what_cant_be_distinguished(self):
        one = given("T ::= SEQUENCE {\n  a NULL OPTIONAL,\n  b CHOICE { x NULL, y INTEGER }\n}")
        one.meaning("T")
        text = "`a` may be absent, and `b`, which may come in its place, can begin with the same tag"
        self.assertEqual([f"0.asn1:3:3: error: {text} (X.680, 25.6)"], [str(it) for it in one.problems.found])

    def test_a_place_of_alternatives_that_cant_be_distinguished(self):
        one = given("T ::= CHOICE {\n  a NULL,\n  b NULL\n}")
        one.meaning("T")
        self.assertEqual(
            ["0.asn1:4:3: error: `b` can begin with the same tag as an alternative before it (X.680, 29.3)"],
            [str(it) for it in one.problems.found],
        )

    def test_a_recursion_keeps_the_tag_of_its_edge(self):
        body = "T ::= CHOICE { a [0] IMPLICIT SET OF T, b [1] NULL }"
        for depth, level, features in ((3, Level.TO_DEPTH, set()), (0, Level.PARTLY_RAW, {Feature.RECURSION})):
            found = Given(module_text(body), depth=depth).meaning("T")
            self.assertEqual((features, level, {0xA0, 0xA1}), (set(found.features), found.level, found.rust.firsts))

    def test_a_type_for_each_level(self):
        one = Given(module_text("T ::= SEQUENCE { a INTEGER, t [0] IMPLICIT T OPTIONAL }"), depth=3)
        one.meaning("T")
        found = {name: str(it.fields[1].type) for name, it in one.meanings.declarations.by_name.items()}
        last = "WithSize<TaggedBytes<0xA0>, 1, 0>"
        self.assertEqual({"T": "ImplicitList0<T2>", "T2": "ImplicitList0<T1>", "T1": last}, found)

    def test_types_that_contain_each_other(self):
        one = Given(module_text("A ::= SEQUENCE { b B OPTIONAL }\nB ::= SEQUENCE { a A OPTIONAL }\nC ::= SEQUENCE { b B }"), depth=2)
        self.assertEqual([Level.TO_DEPTH] * 3, [one.meaning(it).level for it in "CBA"])
        self.assertEqual(["A", "A1", "B", "B1", "C"], sorted(one.meanings.declarations.by_name))

    def test_a_type_that_is_in_itself_beside_others_that_may_follow(self):
        """A choice that isn't there may begin with each of its bytes, and so may a later member."""
        one = Given(module_text("A ::= CHOICE { a [0] NULL, b [1] S }\nS ::= SEQUENCE { a A OPTIONAL, ... }"), depth=1)
        self.assertEqual({Feature.EXTENSION}, set(one.meaning("A").features))

    def test_a_module_that_isnt_given(self):
        one = Given("M DEFINITIONS ::= BEGIN IMPORTS U FROM N; T ::= SEQUENCE { a U } END")
        self.assertEqual(({Feature.IMPORT}, ANY_FIRST), (set(one.meaning("T").features), frozenset(range(256)) & ANY_FIRST))
        self.assertEqual([], one.problems.found)

    def test_additions_may_be_absent(self):
        one = given("T ::= SEQUENCE { a NULL, ..., [[2: b INTEGER ]], c [0] NULL }")
        self.assertEqual((Level.EXACT, frozenset()), (one.meaning("T").level, one.meaning("T").features))

    def test_members_of_later_versions(self):
        body = "T ::= SEQUENCE { a NULL OPTIONAL, b INTEGER, ... }\nU ::= SEQUENCE { a NULL, b INTEGER (0..255) OPTIONAL, ..., c BOOLEAN }\nV ::= SEQUENCE { ... }"
        one = given(body)
        types = [str(one.meanings.declarations.by_name[one.meaning(it).rust.text].later.type) for it in "TU"]
        self.assertEqual(["LaterElements<NoneOf>", "Added<UAdditions>"], types)
        self.assertEqual("LaterElements<NoneOf>", str(one.meanings.declarations.by_name["UAdditions"].later.type))
        self.assertEqual((Level.EXACT, "Vec<AnyElement>"), (one.meaning("V").level, str(one.meanings.declarations.by_name["V"].type)))

    def test_implied_extensibility(self):
        one = given("T ::= SEQUENCE { a NULL }\nU ::= CHOICE { a NULL }", "AUTOMATIC TAGS EXTENSIBILITY IMPLIED")
        self.assertEqual((frozenset(), "CHOICE-extensible"), (one.meaning("T").notes, one.meanings.declarations.by_name[one.meaning("U").rust.text].term.head))


class Parameters(unittest.TestCase):
    def test_a_type(self):
        one = given("Signed { ToBeSigned } ::= SEQUENCE { it ToBeSigned, signature BIT STRING }\nT ::= Signed { INTEGER }\nU ::= Signed { ANY }")
        self.assertEqual((frozenset(), {Note.OPEN}), (one.meaning("T").notes, one.meaning("U").notes))

    def test_a_bound(self):
        one = given("Text { INTEGER : top } ::= UTF8String (SIZE (1..top))\nT ::= SEQUENCE { a Text { 5 } }")
        assignment, module = one.assignment("T")
        member = assignment.type.members[0].type
        found = one.meanings.of_type(member, one.program.scope_of(module), Hint("a"))
        self.assertEqual(Level.EXACT, found.level)

    def test_a_parameter_of_a_parameter(self):
        one = given("A { X } ::= B { X }\nB { Y } ::= SEQUENCE { a Y }\nT ::= A { CHARACTER STRING }")
        self.assertEqual({Feature.RARE}, one.meaning("T").features)

    def test_names_in_arguments_are_of_the_module_that_gives_them(self):
        two = Given(
            "M DEFINITIONS ::= BEGIN IMPORTS A FROM N; T ::= A { Own } Own ::= BOOLEAN END",
            "N DEFINITIONS ::= BEGIN A { X } ::= SEQUENCE { a X } Own ::= CHARACTER STRING END",
        )
        self.assertEqual(Level.EXACT, two.meaning("T").level)


class OpenTypes(unittest.TestCase):
    BODY = """ALGORITHM ::= CLASS { &id OBJECT IDENTIFIER UNIQUE, &Type OPTIONAL } WITH SYNTAX { OID &id [PARMS &Type] }
Known ALGORITHM ::= { { OID { 1 2 3 } PARMS NULL }, ... }
Only ALGORITHM ::= { { OID { 1 2 3 } PARMS NULL } }
"""

    def meaning(self, notation):
        return given(f"{self.BODY}T ::= {notation}").meaning("T")

    def test_an_identifier_of_a_set_that_others_join(self):
        found = self.meaning("ALGORITHM.&id ({Known})")
        self.assertEqual((Level.EXACT, frozenset()), (found.level, found.notes))

    def test_an_identifier_of_a_closed_set(self):
        found = self.meaning("ALGORITHM.&id ({Only})")
        self.assertEqual((Level.EXACT, frozenset()), (found.level, found.notes))

    def test_a_type_by_a_table(self):
        found = self.meaning("SEQUENCE { a ALGORITHM.&id ({Known}), b ALGORITHM.&Type ({Known}{@a}) OPTIONAL }")
        self.assertEqual(({Note.OPEN}, Level.EXACT), (set(found.notes), found.level))
        self.assertEqual(["row-1", "other"], [it.name for it in found.rust.choices])

    def test_a_type_by_a_table_where_the_first_byte_has_to_be_known(self):
        found = self.meaning("SEQUENCE { t SEQUENCE { a ALGORITHM.&id ({Known}), b ALGORITHM.&Type ({Known}{@.a}) } OPTIONAL, n NULL }")
        self.assertEqual(({Feature.OPEN_TABLE}, Level.OPEN), (set(found.features), found.level))

    def test_a_table_without_later_objects(self):
        """One object alone is a SEQUENCE, and needs no choice."""
        found = self.meaning("SEQUENCE { a ALGORITHM.&id ({Only}), b ALGORITHM.&Type ({Only}{@a}) }")
        self.assertEqual((Level.EXACT, {0x30}, ()), (found.level, found.rust.firsts, found.rust.choices))

    def test_a_type_of_an_outer_identifier(self):
        found = self.meaning("SEQUENCE { a ALGORITHM.&id ({Known}), b SET OF SEQUENCE { c ALGORITHM.&Type ({Known}{@a}), d INTEGER } }")
        self.assertEqual((Level.EXACT, 2), (found.level, len(found.rust.choices)))

    def test_a_type_in_a_string(self):
        one = given(f"{self.BODY}T ::= SEQUENCE {{ a ALGORITHM.&id ({{Only}}), b OCTET STRING (CONTAINING ALGORITHM.&Type ({{Only}}{{@a}})) }}")
        one.meaning("T")
        self.assertEqual("OctetStringAsn1Container<()>", str(one.meanings.declarations.by_name["T"].fields[1].type))

    def test_automatic_tags_in_a_table(self):
        """A tag over a field of values is as over its type, and one over an open type is EXPLICIT."""
        body = """FIELD ::= CLASS { &id INTEGER (0..9) UNIQUE, &level ENUMERATED { low, high }, &Type } WITH SYNTAX { ID &id LEVEL &level TYPE &Type }
Fields FIELD ::= { { ID 1 LEVEL low TYPE NULL } | { ID 2 LEVEL high TYPE UTF8String }, ... }
T ::= SEQUENCE { id FIELD.&id ({Fields}), level FIELD.&level ({Fields}{@id}), value FIELD.&Type ({Fields}{@id}) }"""
        one = given(body, "AUTOMATIC TAGS")
        terms = [[item.term.inline() for item in it.meaning.rust.term.items] for it in one.meaning("T").rust.choices]
        self.assertEqual(["CONTEXT 0 AUTOMATIC (INTEGER-from-to 1 1)", "CONTEXT 1 AUTOMATIC (ENUMERATED (0 ∷ []))", "CONTEXT 2 EXPLICIT NULL"], terms[0])
        self.assertEqual("CONTEXT 1 AUTOMATIC (ENUMERATED (0 ∷ 1 ∷ []))", terms[2][1])
        self.assertEqual([0x80, 0x81, 0xA2], [min(item) for item in self.firsts(one, "TRow1")])

    def test_automatic_tags_of_members_that_an_object_lacks(self):
        body = """FIELD ::= CLASS { &id INTEGER (0..9) UNIQUE, &Type OPTIONAL } WITH SYNTAX { ID &id [TYPE &Type] }
Fields FIELD ::= { { ID 1 } | { ID 2 TYPE UTF8String } }
T ::= SEQUENCE { id FIELD.&id ({Fields}), value FIELD.&Type ({Fields}{@id}) OPTIONAL, last INTEGER }
U ::= SEQUENCE { id FIELD.&id ({Fields}), value FIELD.&Type ({Fields}{@id}) OPTIONAL, ... }"""
        one = given(body, "AUTOMATIC TAGS")
        terms = [[item.term.inline() for item in it.meaning.rust.term.items] for it in one.meaning("T").rust.choices]
        self.assertEqual([["CONTEXT 0 AUTOMATIC (INTEGER-from-to 1 1)", "CONTEXT 2 AUTOMATIC INTEGER"], 3], [terms[0], len(terms[1])])
        self.assertEqual(Level.OPEN, one.meaning("U").level)

    def test_an_identifier_that_is_a_choice(self):
        body = """OPERATION ::= CLASS { &code Code UNIQUE, &Arg } WITH SYNTAX { ARGUMENT &Arg CODE &code }
Code ::= CHOICE { local INTEGER, global OBJECT IDENTIFIER }
open OPERATION ::= { ARGUMENT INTEGER CODE local : 1 }
shut OPERATION ::= { ARGUMENT NULL CODE global : { 1 2 3 } }
Known OPERATION ::= { open | shut, ... }
T ::= SEQUENCE { op OPERATION.&code ({Known}), arg OPERATION.&Arg ({Known}{@op}) }"""
        terms = [it.meaning.rust.term.items[0].term.inline() for it in given(body).meaning("T").rust.choices]
        wanted = ["CHOICE (INTEGER-from-to 1 1 ∣ none)", "CHOICE (listed ((0x2A ∷ 0x03 ∷ []) ∷ []) OBJECT-IDENTIFIER ∣ none)"]
        others = "CHOICE (INTEGER-in (up-to (number 0) ∷ from-on (number 2) ∷ []) ∣ unlisted ((0x2A ∷ 0x03 ∷ []) ∷ []) OBJECT-IDENTIFIER ∣ none)"
        self.assertEqual([*wanted, others], terms)

    def firsts(self, one, name):
        """The first bytes of the members of a type that is declared."""
        texts = [str(it.type) for it in one.meanings.declarations.by_name[name].fields]
        tags = {"ExplicitContextTag": 0xA0, "ImplicitContextTag": 0x80, "InRange": 0x80}
        return [{tags[re.match("[A-Za-z]+", it)[0]] + int(re.search(r"ContextTag(\d+)", it)[1])} for it in texts]

    def test_an_implicit_tag_over_a_table(self):
        found = self.meaning("[3] IMPLICIT SEQUENCE { a ALGORITHM.&id ({Known}), b ALGORITHM.&Type ({Known}{@a}) OPTIONAL }")
        self.assertEqual([{0xA3}, {0xA3}], [it.meaning.rust.firsts for it in found.rust.choices])

    def test_a_type_without_a_table(self):
        self.assertEqual({Note.OPEN}, self.meaning("ALGORITHM.&Type").notes)

    def test_a_set_that_is_a_parameter(self):
        body = f"""{self.BODY}AlgorithmIdentifier {{ ALGORITHM : Set }} ::= SEQUENCE {{
            algorithm ALGORITHM.&id ({{Set}}), parameters ALGORITHM.&Type ({{Set}}{{@algorithm}}) OPTIONAL }}
T ::= AlgorithmIdentifier {{ {{Known}} }}
U ::= AlgorithmIdentifier {{ {{...}} }}"""
        one = given(body)
        self.assertEqual((2, {Note.OPEN}), (len(one.meaning("T").rust.choices), one.meaning("U").notes))

    def test_a_type_that_a_constraint_fixes(self):
        found = self.meaning("TYPE-IDENTIFIER.&Type (INTEGER)")
        self.assertEqual((Level.EXACT, True), (found.level, found.rust.is_open))

    def test_instance_of(self):
        self.assertEqual({Note.OPEN}, self.meaning("INSTANCE OF TYPE-IDENTIFIER").notes)

    def test_implicit_over_an_open_type_is_explicit(self):
        found = self.meaning("[2] IMPLICIT ALGORITHM.&Type")
        self.assertEqual({0xA2}, found.rust.firsts)


class Selection(unittest.TestCase):
    def test_of_an_alternative(self):
        one = Given(module_text("C ::= CHOICE { a INTEGER, b CHARACTER STRING }\nT ::= a < C\nU ::= c < C"))
        self.assertEqual(Level.EXACT, one.meaning("T").level)
        one.meaning("U")
        self.assertEqual(["0.asn1:4:7: error: there is no alternative `c` (X.680, 30.3)"], [str(it) for it in one.problems.found])
