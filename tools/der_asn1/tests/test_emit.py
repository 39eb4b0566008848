"""The files of a crate, compared with what `derive` writes for the examples of this repository."""
import contextlib
import io
import os
import re
import tempfile
import unittest
from pathlib import Path

from .. import command
from ..emit import crate as emit_crate, values as emit_values
from ..emit.choice import pattern, place, term
from ..emit.derived import DerivedNames
from ..emit.enum import enum_terms
from ..emit.folder import difference, write
from ..emit.imports import term_imports
from ..emit.layout import assigned, comment, filled, item_lines, natural, tuple_lines, type_lines
from ..emit.types import Context, lines_of
from ..meaning.library import parts_type
from ..meaning.library_table import TYPES
from ..meaning.rust_types import UNIT, of, tuple_of
from ..meaning.wording import joined, snake
from ..parse.modules import read_text
from ..parse.source import Problems
from . import Given, given
from .stored import GOLDEN, files_below, golden_names, golden_options, stored_files, stored_text

# the files of examples that have several types
SEVERAL = ("personnel_record", "script")
RESPONSE_STATUS = """ResponseStatus ::= ENUMERATED { successful(0), malformedRequest(1), internalError(2), tryLater(3), sigRequired(5),
    unauthorized(6) }"""

ROOT = os.path.dirname(os.path.dirname(os.path.dirname(os.path.dirname(os.path.realpath(__file__)))))


def crate_of(body, *names, header="EXPLICIT TAGS"):
    """The crate `der_examples` of these types."""
    one = given(body, header)
    found = [one.meaning(it).rust.text for it in names]
    return emit_crate.Crate("der_examples", emit_crate.reached(one.meanings.declarations, found), [], one.program.modules)


def items(text):
    """The items of a file without comments and imports: each is what is between empty lines at the top level."""
    lines = [it for it in text.split("\n") if not it.strip().startswith("//")]
    found, now = [], []
    for line in [*lines, ""]:
        if not line and (not now or now[-1] in ("}", ");", ">;") or now[-1].endswith(";") and not now[-1].startswith(" ")):
            found.append("\n".join(now))
            now = []
        else:
            now.append(line)
    return [it for it in found if it and not re.match("(ghost )?use ", it)]


def example(stem):
    """A file of the examples, without the notes at the ends of its lines and `Clone`, which an option adds, and what is derived for it."""
    found = [os.path.join(ROOT, "crates/der_examples/src", it) for it in (f"{stem}.rt", f"{stem}/derived.rt")]
    text = "\n".join(Path(it).read_text(encoding="utf-8") for it in found)
    return re.sub(r" // asn1:.*", "", text).replace("#[derive(Debug, Clone, Drop", "#[derive(Debug, Drop")


def as_derived(crate, name, stem):
    """The items of a type as `derive` writes them for the file with this name."""
    return "\n".join(lines_of(crate.types[name], stem, Context(crate.name, {}, DerivedNames(set(), stem not in SEVERAL))))


class AsDerived(unittest.TestCase):
    """Each item that is written for a module is one that `derive` writes for a file with the same type, but for `Notated`."""

    maxDiff = None

    def check(self, body, name, stem, replaced=(), header="EXPLICIT TAGS"):
        text = as_derived(crate_of(body, name, header=header), name, stem)
        for before, after in replaced:
            text = text.replace(before, after)
        found = items(example(stem))
        without = ("#[derive(Debug, Clone", *(() if f"impl Exact for {name} {{" in example(stem) else ("impl Notated", "impl Exact")))
        for item in items(text):
            if not item.startswith(without):
                self.assertIn(item, found)

    def test_a_struct(self):
        body = """Point ::= SEQUENCE { x INTEGER (0..4294967295), y INTEGER (0..4294967295), hidden BOOLEAN }"""
        self.check(body, "Point", "point")

    def test_constraints(self):
        body = """DeviceLabel ::= SEQUENCE { country PrintableString (SIZE (2)), serial INTEGER (0..65536), article NumericString,
            contacts SEQUENCE SIZE (1..4) OF IA5String }"""
        self.check(body, "DeviceLabel", "device_label")

    def test_lists_under_tags(self):
        body = """SignedData ::= SEQUENCE { version INTEGER (0..255), digest-algorithms SET OF AlgorithmIdentifier,
            content EncapsulatedContentInfo, certificates [0] IMPLICIT SET OF ANY OPTIONAL,
            revocation-lists [1] IMPLICIT SET OF ANY OPTIONAL, signer-infos SET OF SignerInfo }
            AlgorithmIdentifier ::= SEQUENCE { a NULL } EncapsulatedContentInfo ::= SEQUENCE { a NULL } SignerInfo ::= SEQUENCE { a NULL }"""
        self.check(body, "SignedData", "signed_data", [("AnyElement", "Asn1RawDer")])

    def test_twenty_members(self):
        body = """Vessel ::= SEQUENCE { name UTF8String, number INTEGER (0..4294967295), call-sign [0] UTF8String OPTIONAL,
            tonnage INTEGER (0..18446744073709551615), is-military BOOLEAN DEFAULT FALSE, home Point, decks INTEGER (0..255),
            owner [1] Setting OPTIONAL, seal OCTET STRING OPTIONAL, engine Setting, speeds SEQUENCE OF INTEGER (0..65535),
            berth [2] Point OPTIONAL, size SEQUENCE { a NULL }, is-moored BOOLEAN, flag NumberOrFlag, pilot UTF8String OPTIONAL,
            tugs SEQUENCE OF INTEGER (0..65535) OPTIONAL, draught INTEGER (0..4294967295), chart OCTET STRING,
            remark [3] UTF8String OPTIONAL }
            Point ::= SEQUENCE { x NULL }
            Setting ::= CHOICE { a INTEGER, b UTF8String }
            NumberOrFlag ::= CHOICE { a INTEGER, b BOOLEAN }"""
        self.check(body, "Vessel", "vessel", [("VesselSize", "(u16, u16)")])

    def test_the_members_of_a_set(self):
        body = """Personnel ::= [APPLICATION 0] IMPLICIT SET { title [0] VisibleString, name TaggedName, number EmployeeNumber,
            date-of-hire [1] RecordDate, name-of-spouse [2] TaggedName, children [3] IMPLICIT SEQUENCE OF C OPTIONAL }
            TaggedName ::= [APPLICATION 1] IMPLICIT SEQUENCE { a NULL }
            EmployeeNumber ::= [APPLICATION 2] IMPLICIT INTEGER
            RecordDate ::= [APPLICATION 3] IMPLICIT VisibleString
            C ::= SET { a NULL }"""
        crate = crate_of(body, "Personnel")
        text, found = as_derived(crate, "PersonnelMembers", "personnel_record"), items(example("personnel_record"))
        for item in items(text.replace("<C>", "<Asn1Set<ChildInformation>>")):
            if not item.startswith(("impl Notated", "impl Exact")):
                self.assertIn(item, found)
        aliases = crate.files()["src/types.rt"]
        self.assertIn("pub type Personnel = ImplicitSet<PersonnelMembers, 0x60>;\n", aliases)
        self.assertIn("pub type EmployeeNumber = ImplicitPrimitive<Integer, 0x42>;\n", aliases)

    def test_a_choice_of_two(self):
        body = "NumberOrFlag ::= CHOICE { number INTEGER (0..255), flag BOOLEAN }"
        self.check(body, "NumberOrFlag", "number_or_flag")

    def test_a_choice_of_three(self):
        body = "Setting ::= CHOICE { number INTEGER (0..18446744073709551615), text UTF8String, numbers SEQUENCE OF INTEGER (0..65535) }"
        self.check(body, "Setting", "setting")

    def test_a_choice_of_four(self):
        body = "Host ::= CHOICE { email UTF8String, domain [2] IMPLICIT IA5String, owner SEQUENCE OF OCTET STRING, address OCTET STRING }"
        self.check(body, "Host", "host", [("Ia5String", "Ia5StringAsn1")])

    def test_a_choice_of_twelve(self):
        body = """Command ::= CHOICE { move [0] Point, wait [1] IMPLICIT INTEGER (0..4294967295), follow [2] SEQUENCE OF Point,
            lift [3] IMPLICIT BOOLEAN, say [4] IMPLICIT UTF8String, adjust [5] Setting, stop [6] IMPLICIT NULL,
            load [7] IMPLICIT OCTET STRING, speeds [8] IMPLICIT SEQUENCE OF INTEGER (0..65535),
            repeat [9] IMPLICIT INTEGER (0..18446744073709551615), mark [10] Marker, forget [11] SET OF OCTET STRING }
            Point ::= SEQUENCE { x NULL } Marker ::= SEQUENCE { x NULL }
            Setting ::= CHOICE { a INTEGER, b UTF8String }"""
        self.check(body, "Command", "script")
        text = as_derived(crate_of(body, "Command"), "Command", "script")
        self.assertIn("      | variants.Forget x ↦ Later (Later (Fourth x))\n", text)
        self.assertIn("            Later(Later(Fourth(forget))) => Command::Forget(forget),\n", text)

    def test_an_enumeration(self):
        self.check(RESPONSE_STATUS, "ResponseStatus", "response_status")

    def test_the_terms_of_an_enumeration(self):
        crate = crate_of(RESPONSE_STATUS, "ResponseStatus")
        text = "\n".join([*enum_terms(crate.types["ResponseStatus"], "response_status", "response_status_compared")[1:], ""])
        found = Path(ROOT, "crates/der_examples/specs/ResponseStatus.antt").read_text(encoding="utf-8")
        self.assertEqual(found[found.index("abbrev pub") :], text)
        self.assertEqual(["pub mod Enumerations", "pub mod Notation"], crate.files()["specs/Lib.antt"].splitlines()[1:])

    def test_the_imports_of_the_terms_of_enumerations(self):
        body = "A ::= SEQUENCE { e E, f F } E ::= ENUMERATED { x(3), y(9) } F ::= ENUMERATED { x(0), y(1) }"
        found = [it for it in crate_of(body, "A").files()["specs/Enumerations.antt"].split("\n") if it.startswith("use Rattle.der_examples")]
        home = "use Rattle.der_examples.specs"
        wanted = [(f"declared.types.{it}.{{{it}}}", f"declared.types.{it}.TheVariants as {it.lower()}") for it in "EF"]
        pairs = [[*pair, f"contracts.types.{it}PartialEq.TheImpl as {it.lower()}_compared"] for it, pair in zip("EF", wanted)]
        self.assertEqual([f"{home}.{line}" for pair in pairs for line in pair], found)


class Exactness(unittest.TestCase):
    """Each type has an implementation of `Exact`, whose values are made of the parts that its notation has."""

    def text(self, body, name, header="EXPLICIT TAGS", **options):
        return crate_of(body, name, header=header, **options).files()["src/types.rt"]

    def test_the_members_of_three_tuples(self):
        members = ", ".join(f"m{it} [{it}] NULL" for it in range(17))
        text = self.text(f"A ::= SEQUENCE {{ {members}, last NULL OPTIONAL, ... }}", "A")
        for wanted in ("m0 = m.0;", "m7 = m.7;", "m8 = m.8.0;", "m16 = m.8.8.0;", "last = m.8.8.1.0;", "later_members = m.8.8.2;"):
            self.assertIn(f"          {wanted}\n", text)

    def test_members_on_one_line(self):
        text = self.text("A ::= SEQUENCE { a BOOLEAN DEFAULT FALSE, b NULL OPTIONAL }", "A")
        self.assertIn("        (λ m. (record { a = m.0.value; b = m.1.0 }, refl {a = m})) };\n", text)

    def test_what_no_alternative_is(self):
        for count, none in ((1, "Other x"), (3, "Other (Other (Other x))"), (4, "Later x"), (5, "Later (Other x)")):
            body = f"A ::= CHOICE {{ {', '.join(f'a{it} [{it}] NULL' for it in range(count))} }}"
            self.assertIn(f"          | {none} ↦ elim x [ ]\n", self.text(body, "A"))

    def test_the_constructors_that_only_terms_name(self):
        text = self.text("A ::= CHOICE { a NULL }", "A")
        self.assertIn("OneOf.TheVariants.{Other, This};\n", text)
        self.assertIn("use picky_asn1_der::OneOf::This;\n", text)

    def test_an_enumeration_and_named_numbers(self):
        text = self.text("A ::= SEQUENCE { e E, f F } E ::= ENUMERATED { x(3), y(9) } F ::= INTEGER { a(0), b(1) } (0..1)", "A")
        self.assertIn("    ghost values = { enumerated_values (variants.X ∷ variants.Y ∷ []) e_number (elim [\n", text)
        self.assertIn("    ghost values = { named_values (variants.A ∷ variants.B ∷ []) f_number (elim [\n", text)
        self.assertIn("      | variants.X ↦ record { listed = refl; small = refl }\n", text)

    def test_an_item_that_is_a_default(self):
        text = self.text("A ::= SEQUENCE { a E DEFAULT y } E ::= ENUMERATED { x(3), y(9) }", "A")
        self.assertIn("impl ExactDefault<E> for EY {\n", text)
        self.assertIn("is_default_ey variants.Y ey_by_tree refl };\n", text)

    def test_the_library_has_it_for_what_is_written(self):
        """Each type of the library that a crate may be made of is exact, by its own implementation or as another name."""
        paths = [*Path(ROOT, "crates/der_types/src").rglob("*.rt"), *Path(ROOT, "crates/picky_der_core/src").rglob("*.rt")]
        text = "\n".join(it.read_text(encoding="utf-8") for it in paths)
        exact = set(re.findall(r"\bExact(?:Member|Members|Alternatives)?\s+for\s+(\w+)", text))
        names = dict(re.findall(r"^pub type (\w+)(?:<[^=]*>)? = (\w+)", text, re.MULTILINE))
        of_library = {it.rust for it in TYPES if it.rust} - {"()"} | {*PARTS}
        self.assertEqual(set(), {it for it in of_library if names.get(it, it) not in exact})


# the types of the library that have no name in X.680
PARTS = """Asn1Set InRange NamedBits OtherThan ImplicitPrimitive ImplicitSet WithSize ApplicationTag Asn1SequenceOf Asn1SetOf
BitStringAsn1Container ExplicitContextTag ImplicitContextTag OctetStringAsn1Container ImplicitList TaggedBytes Defaulted Optional Asn1RawDer
LaterMembers NoneOf OneOf Choice4 Vec""".split()


class Defaults(unittest.TestCase):
    def test_a_named_number_comes_before_a_value(self):
        text = crate_of("A ::= SEQUENCE { a INTEGER { one(1) } (0..255) DEFAULT one } one INTEGER ::= 7", "A").files()["src/types.rt"]
        self.assertIn("Defaulted<u8, Number<1>>", text)

    def test_an_item_of_an_enumeration(self):
        body = """A ::= SEQUENCE { a E DEFAULT y, b [0] F DEFAULT v, c [1] IMPLICIT E DEFAULT y } E ::= ENUMERATED { x(3), y(9) } F ::= E v F ::= x
            y INTEGER ::= 5"""
        files = crate_of(body, "A").files()
        members = "type AParts = (\n    Defaulted<E, EY>,\n    Defaulted<ExplicitContextTag0<F>, EX>,\n    Defaulted<ImplicitContextTag1<E>, EY>,"
        self.assertIn(members, files["src/types.rt"])
        self.assertIn("pub use types::{A, E, EX, EY, F};\n", files["src/lib.rt"])
        self.assertEqual(["EY", "EX"], re.findall(r"pub struct (\w+);", files["src/types.rt"]))
        self.assertIn("        matches!(*value, E::Y)\n", files["src/types.rt"])
        terms = re.sub(r"\be\.(?=[XY])", "", files["specs/Enumerations.antt"])
        self.assertIn("is_default_ey X = false\nis_default_ey Y = true\n", terms)
        self.assertIn("ey_by_tree X y h = cc\ney_by_tree Y X h = (λ k. cc, λ e. cc)\ney_by_tree Y Y h = (λ k. refl, λ e. refl)\n", terms)


class Imports(unittest.TestCase):
    def test_of_a_struct(self):
        text = crate_of("A ::= SEQUENCE { a B, b [10] INTEGER OPTIONAL, c [2] ANY OPTIONAL } B ::= SEQUENCE { a NULL }", "A").files()["src/types.rt"]
        found = text[text.index("use der_elements") : text.index("use picky_asn1_der::{")]
        self.assertEqual(
            [
                "use der_elements::AnyElement;",
                "use der_types::{Exact, ExactMembers, Integer, Notated, NotatedMembers};",
                "use picky_asn1_der::asn1::{ExplicitContextTag2, ExplicitContextTag10, Tag};",
                "use picky_asn1_der::de::{Begins, Faithful, FaithfulMembers, Inhabited};",
                "use picky_asn1_der::misc::{ReadExt, WriteExt};",
                "use picky_asn1_der::ser::{Optional, OptionalRef};",
            ],
            found.strip().split("\n"),
        )

    def test_of_a_value_at_which_nothing_is_looked(self):
        body = "M DEFINITIONS ::= BEGIN A ::= SEQUENCE { a ANY, ... } B ::= SEQUENCE { ... } END"
        modules = read_text(body, "m.asn1", Problems())
        files = command.crate_of("it", modules, [], [], Problems(), how=command.How(raw_any=True)).files()
        self.assertIn("    pub a: Asn1RawDer,\n", files["src/types.rt"])
        self.assertIn("    pub later_members: LaterMembers<NoneOf>,\n", files["src/types.rt"])
        self.assertIn("pub type B = Vec<Asn1RawDer>;\n", files["src/types.rt"])
        self.assertIn("    required any-element ⨾\n    later-members)", files["specs/Notation.antt"])
        self.assertIn("B = SEQUENCE later-members\n", files["specs/Notation.antt"])
        self.assertNotIn("der_elements", "".join(files.values()))

    def test_of_two_types(self):
        """A file imports what both use once, and what only one uses, and nothing of its own."""
        text = crate_of("A ::= SEQUENCE { a C } C ::= CHOICE { b NULL, c INTEGER }", "A").files()["src/types.rt"]
        self.assertEqual(1, text.count("    Begins, Faithful, FaithfulAlternatives, FaithfulMembers, Inhabited, deserialize_choice_as,\n"))
        self.assertIn("use picky_asn1_der::OneOf::{Other, This};\n", text)
        self.assertNotIn("use crate", text)
        self.assertIn("ghost use Rattle.std.specs.Prelude.{refl};\n", text)
        self.assertEqual(4, text.count("{\n    ghost use Rattle.der_examples.specs.declared.types.C.TheVariants as variants;\n"))

    def test_terms_that_are_many(self):
        lines = term_imports("Rattle.a", [f"name_of_a_term_{it}" for it in range(12)])
        self.assertTrue(len(lines) > 1 and all(len(it) <= 140 and it.startswith("ghost use Rattle.a.{name") for it in lines))

    def test_variants_are_named_by_their_choice(self):
        text = crate_of("A ::= CHOICE { other NULL, this BOOLEAN }", "A").files()["src/types.rt"]
        self.assertIn("elim [ variants.Other x ↦ This x | variants.This x ↦ Other (This x) ]", text)
        self.assertIn("This(other) => A::Other(other),", text)


class Comments(unittest.TestCase):
    def test_those_of_the_module_and_the_notation(self):
        body = "-- What it is.\nA ::= SEQUENCE {\n  a [0] IMPLICIT NULL OPTIONAL, -- only sometimes\n  b BOOLEAN DEFAULT TRUE\n}"
        text = crate_of(body, "A").files()["src/types.rt"]
        self.assertIn("/// What it is. `A` of M, as a SEQUENCE.\n", text)
        self.assertIn("    /// only sometimes. `[0] IMPLICIT NULL OPTIONAL`.\n", text)
        self.assertIn("    /// `BOOLEAN DEFAULT TRUE`.\n", text)

    def test_a_default_that_isnt_one(self):
        text = crate_of("A ::= SEQUENCE { a SET OF NULL DEFAULT {}, b NULL }", "A").files()["src/types.rt"]
        wanted = "as a SEQUENCE.\n///\n/// Its values differ from the notation's. The crate lacks: DEFAULT of bits, strings,"
        self.assertIn(wanted, text)
        self.assertIn("/// `SET OF NULL DEFAULT { }`. A default that is written out is read, too.\n    pub a: Option<Asn1SetOf<()>>,\n", text)

    def test_a_default_of_which_the_other_values_are_a_type(self):
        body = """A ::= SEQUENCE { a [0] IMPLICIT OBJECT IDENTIFIER DEFAULT { 1 2 3 }, b [1] B DEFAULT { c TRUE }, d UTF8String DEFAULT "en" }
B ::= SEQUENCE { c BOOLEAN }"""
        files = crate_of(body, "A").files()
        self.assertIn("/// `[0] IMPLICIT OBJECT IDENTIFIER DEFAULT { 1 2 3 }`. `None` is the default.\n    pub a: Option<ImplicitContextTag0<AAOther>>,\n", files["src/types.rt"])
        self.assertIn("    pub b: Option<ExplicitContextTag1<ABOther>>,\n", files["src/types.rt"])
        self.assertIn("    value: Encoded<B>,\n", files["src/types.rt"])
        self.assertIn("ab_other_contents = (0x30 ∷ 0x03 ∷ 0x01 ∷ 0x01 ∷ 0xFF ∷ []) ∷ []\n", files["specs/Listed.antt"])
        self.assertIn("is_ad_other s = not (is_listed ad_other_contents s)\n", files["specs/Listed.antt"])

    def test_a_default_of_which_the_other_numbers_are_a_type(self):
        body = "A ::= SEQUENCE { v [0] V DEFAULT v1, n [1] INTEGER (0..9) DEFAULT 5, m [2] INTEGER (0..65535) DEFAULT 256 } V ::= INTEGER { v1(0) }"
        text = crate_of(body, "A").files()["src/types.rt"]
        self.assertIn("/// `[0] V DEFAULT v1`. `None` is the default.\n    pub v: Option<ExplicitContextTag0<OtherThan<V, 0>>>,\n", text)
        self.assertIn("pub n: Option<ExplicitContextTag1<OtherThan<InRange<u8, 0, 9>, 5>>>,\n", text)
        self.assertIn("pub m: Option<ExplicitContextTag2<OtherThan<u16, 256>>>,\n", text)
        self.assertNotIn("aren't exactly", text)


    def test_an_open_type_is_what_the_notation_says(self):
        self.assertNotIn("aren't exactly", crate_of("A ::= SEQUENCE { a ANY }", "A").files()["src/types.rt"])

    def test_another_name_of_a_type_that_has_more_values(self):
        text = crate_of("A ::= UTCTime (SIZE (13))", "A").files()["src/types.rt"]
        self.assertIn("/// Its values differ from the notation's. The crate lacks: a type of its own with `Constrained`.\npub type A = UtcTime;\n", text)


class Names(unittest.TestCase):
    def test_words_of_proofs(self):
        self.assertIn("    TheType(()),\n", crate_of("A ::= CHOICE { type NULL, b BOOLEAN }", "A").files()["src/types.rt"])
        self.assertEqual(["AsnType"], list(crate_of("Type ::= SEQUENCE { a NULL }", "Type").types))

    def test_words_of_rust(self):
        text = crate_of("A ::= SEQUENCE { type NULL, serial-Number NULL, n2 NULL }", "A").files()["src/types.rt"]
        self.assertEqual(["type_", "serial_number", "n2"], re.findall(r"pub (\w+):", text))

    def test_members_that_are_called_as_a_variable_is(self):
        body = "A ::= SEQUENCE { others NULL, " + ", ".join(f"a{it} NULL" for it in range(8)) + " }"
        text = crate_of(body, "A").files()["src/types.rt"]
        self.assertIn("let (others, a0, a1, a2, a3, a4, a5, a6, others_members) = members;\n        let (a7, ()) = others_members;\n", text)
        text = crate_of("A ::= CHOICE { serializer NULL, b BOOLEAN }", "A").files()["src/types.rt"]
        self.assertIn("A::Serializer(it) => serializer.serialize_choice(it),", text)

    def test_names_that_are_the_same_in_rust(self):
        crate = crate_of("TYPED-DATA ::= SEQUENCE { a TypedData } TypedData ::= SEQUENCE { a NULL }", "TYPED-DATA", "TypedData")
        self.assertEqual(["TypedData", "TypedData2"], sorted(crate.types))

    def test_instances_that_are_the_same_are_one_type(self):
        body = """C ::= CLASS { &id INTEGER, &Type }
            A { C : Set } ::= SEQUENCE { id C.&id ({Set}), it C.&Type ({Set}{@id}) }
            B ::= SEQUENCE { a A { {...} }, b A { {One} } }
            One C ::= { ... }"""
        self.assertEqual(["A", "B"], sorted(crate_of(body, "B").types))

    def test_the_name_of_the_module_wins(self):
        """Neither an instance nor a part takes the name of an assignment."""
        crate = crate_of("Box { T } ::= SEQUENCE { t T } BoxBoolean ::= Box { BOOLEAN } A ::= SEQUENCE { b Box { BOOLEAN }, c SEQUENCE { d NULL } } AC ::= NULL", "A", "AC", "BoxBoolean")
        self.assertEqual(["A", "AC", "AC2", "BoxBoolean", "BoxBoolean2"], sorted(crate.types))
        self.assertEqual(["BoxBoolean2", "()"], [str(crate.types[it].type) for it in ("BoxBoolean", "AC")])

    def test_instances_have_the_names_of_their_types(self):
        body = "A { T } ::= SEQUENCE { it T } B ::= SEQUENCE { a A { INTEGER }, b A { Own } } Own ::= SEQUENCE { a NULL }"
        self.assertEqual(["AInteger", "AOwn", "B", "Own"], sorted(crate_of(body, "B").types))

    def test_a_struct_under_a_tag_has_a_name_of_its_own(self):
        crate = crate_of("A ::= [APPLICATION 1] SEQUENCE { a SEQUENCE OF SEQUENCE { b NULL } }", "A")
        self.assertEqual(["A", "AAItem", "AMembers"], sorted(crate.types))
        self.assertIn("pub type A = ApplicationTag<AMembers, 1>;\n", crate.files()["src/types.rt"])

    def test_of_parts_are_free(self):
        """A part of a struct has none of the names of types and fields, and each part of a file its own."""
        files = crate_of("A ::= SEQUENCE { a AParts, b C } AParts ::= SEQUENCE { a NULL } C ::= CHOICE { b NULL }", "A").files()
        self.assertEqual(["AParts2", "APartsParts", "CParts"], re.findall(r"^type (\w+)", files["src/types.rt"], re.M))

    def test_only_what_is_reached_is_written(self):
        self.assertEqual(["A", "B"], sorted(crate_of("A ::= SEQUENCE { b B } B ::= INTEGER C ::= NULL", "A").types))


    def test_abbreviations(self):
        pairs = [("dNSName", "DnsName"), ("iPAddress", "IpAddress"), ("cA", "Ca"), ("rfc822Name", "Rfc822Name"), ("TBSCertificate", "TbsCertificate"), ("PDUs", "Pdus"), ("SNMPv3Message", "Snmpv3Message")]
        self.assertEqual([it for _, it in pairs], [joined(it) for it, _ in pairs])
        self.assertEqual(["dns_name", "crl_sign", "x_axis", "e_type"], [snake(it) for it in ("dNSName", "cRLSign", "xAxis", "e-TYPE")])


class Golden(unittest.TestCase):
    """The crates of small modules. Each was read before it was stored, and `tools/der_asn1/golden` writes it anew."""

    maxDiff = None

    def test_each(self):
        names = golden_names()
        self.assertEqual(22, len(names))
        with tempfile.TemporaryDirectory() as there:
            for it in names:
                with self.subTest(it):
                    printed = io.StringIO()
                    with contextlib.redirect_stdout(io.StringIO()), contextlib.redirect_stderr(printed):
                        status = command.main(golden_options(it, there))
                    self.assertEqual((0, ""), (status, printed.getvalue()))
                    stored = (GOLDEN / f"{it}.crate").read_text(encoding="utf-8")
                    self.assertEqual(stored_files(stored), files_below(os.path.join(there, it)))

    def test_a_crate_as_one_text(self):
        files = {"src/a.rt": "//! A.\n==> \n", "src/lib.rt": "mod a;\n"}
        self.assertEqual("==> src/a.rt <==\n//! A.\n==> \n==> src/lib.rt <==\nmod a;\n", stored_text(files))
        self.assertEqual(files, stored_files(stored_text(files)))


class Values(unittest.TestCase):
    def test_object_identifiers(self):
        one = given("id-at OBJECT IDENTIFIER ::= { 2 5 4 }\nid-rsa OBJECT IDENTIFIER ::= { iso(1) member-body(2) us(840) 113549 }\nn INTEGER ::= 5")
        found = emit_values.values_of(one.program, one.program.modules)
        self.assertEqual([("ID_AT", [0x55, 0x04]), ("ID_RSA", [0x2A, 0x86, 0x48, 0x86, 0xF7, 0x0D])], [(it.name, it.content()) for it in found])

    def test_their_file(self):
        one = given("id-at OBJECT IDENTIFIER ::= { 2 5 4 }")
        lines = emit_values.value_file(emit_values.values_of(one.program, one.program.modules))
        self.assertEqual(["", "/// `id-at`, 2.5.4.", "pub const ID_AT: &[u8] = &[0x55, 0x04];"], lines[3:6])
        self.assertEqual(["pub fn arcs()", "    ensures id_at { arcs_of ID_AT.now ≡ 2 ∷ 5 ∷ 4 ∷ [] }", "{}"], lines[8:])

    def test_the_law_of_their_arcs(self):
        one = given("data OBJECT IDENTIFIER ::= { 2 5 4 }\nid-a-name-of-several-words-that-fills-a-line OBJECT IDENTIFIER ::= { 1 2 840 113549 1 9 16 1 2 }")
        lines = emit_values.arcs_law(emit_values.values_of(one.program, one.program.modules))
        self.assertEqual("    ensures data_ { arcs_of DATA.now ≡ 2 ∷ 5 ∷ 4 ∷ [] }", lines[2])
        broken = "    ensures id_a_name_of_several_words_that_fills_a_line { arcs_of ID_A_NAME_OF_SEVERAL_WORDS_THAT_FILLS_A_LINE.now"
        self.assertEqual([broken, "        ≡ 1 ∷ 2 ∷ 840 ∷ 113549 ∷ 1 ∷ 9 ∷ 16 ∷ 1 ∷ 2 ∷ [] }"], lines[3:5])


class Files(unittest.TestCase):
    def test_the_root(self):
        text = crate_of("A ::= SEQUENCE { b B } B ::= INTEGER", "A").files()["src/lib.rt"]
        self.assertIn("\n//!\n//! The types of M.\n#![tactic(auto)]\n\n", text)
        self.assertTrue(text.endswith("\n\npub mod notation;\nmod types;\n\npub use types::{A, B};\n"))

    def test_more_than_a_hundred_names(self):
        for count, wanted in ((100, "pub use types::{\n"), (101, "pub use types::T0;\npub use types::T1;\n")):
            body = "\n".join(f"T{it} ::= INTEGER" for it in range(count))
            text = crate_of(body, *(f"T{it}" for it in range(count))).files()["src/lib.rt"]
            self.assertIn(wanted, text)

    def test_the_first_line_of_each_says_where_it_is_from(self):
        def first_lines(*paths):
            modules = [read_text(f"M{it} DEFINITIONS ::= BEGIN C{it} ::= CHOICE {{ a NULL, e ENUMERATED {{ b(0) }} }} END", path, Problems())[0] for it, path in enumerate(paths)]
            crate = command.crate_of("it", modules, [], [], Problems())
            return {path: text.split("\n")[0] for path, text in crate.files().items()}

        one = first_lines(os.path.join(ROOT, "modules", "M.asn1"))
        self.assertEqual({"//! ", "-- "}, {it.partition("Generated")[0] for it in one.values()})
        self.assertEqual({"by tools/der_asn1 from modules/M.asn1. Don't edit."}, {it.partition("Generated ")[2] for it in one.values()})
        self.assertIn("specs/Enumerations.antt", one)
        two = first_lines(os.path.join(ROOT, "modules", "M.asn1"), "/elsewhere/N.asn1")
        self.assertEqual("//! Generated by tools/der_asn1 from 2 modules of ASN.1. Don't edit.", two["src/notation.rt"])
        self.assertEqual("//! Generated by tools/der_asn1 from N.asn1. Don't edit.", two["src/m1.rt"])

    def test_the_order_of_types_is_that_of_the_module(self):
        text = crate_of("B ::= SEQUENCE { c CHOICE { d NULL }, a A }\nA ::= INTEGER", "B").files()["src/types.rt"]
        self.assertEqual(["B", "BC", "A"], re.findall(r"^pub (?:struct|enum|type) (\w+)", text, re.M))

    def test_writing_and_checking(self):
        files = crate_of("A ::= SEQUENCE { b NULL }", "A").files()
        with tempfile.TemporaryDirectory() as folder:
            self.assertEqual(sorted(files), difference(folder, files, []))
            write(folder, files, [])
            self.assertEqual([], difference(folder, files, []))

    def test_a_file_that_is_no_longer_written_is_removed(self):
        files = crate_of("A ::= CHOICE { b NULL, c BOOLEAN }", "A").files()
        moved = {path.replace("types", "other"): text for path, text in files.items()}
        with tempfile.TemporaryDirectory() as folder:
            write(folder, files, [])
            by_hand = os.path.join(folder, "src", "mine.rt")
            with open(by_hand, "w", encoding="utf-8") as it:
                it.write("//! By hand.\n")
            gone = ["src/types.rt", "proofs/types/ASerialize/serialize/Answers.antt"]
            self.assertEqual({"src/mine.rt", *gone}, {*difference(folder, moved, [])} - {*moved})
            write(folder, moved, [])
            self.assertEqual(["src/mine.rt"], difference(folder, moved, []))


class Groups(unittest.TestCase):
    """Which file each type is in."""

    TWO = "N DEFINITIONS ::= BEGIN C ::= SEQUENCE { d CHOICE { e NULL } } F ::= NULL END"

    def files(self, groups, *texts):
        one = Given(*texts)
        names = [one.meaning(it.name, at).rust.text for at, module in enumerate(one.program.modules) for it in module.assignments]
        types = emit_crate.reached(one.meanings.declarations, names)
        crate = emit_crate.Crate("it", types, [], one.program.modules, groups=groups)
        return {stem: [it.name for it in found] for stem, found in crate.types_by_stem().items()}

    def test_of_one_module(self):
        self.assertEqual({"types": ["C", "CD", "F"]}, self.files({}, self.TWO))

    def test_of_modules(self):
        one = "My-Module1 DEFINITIONS ::= BEGIN A ::= NULL END"
        self.assertEqual({"my_module1": ["A"], "n": ["C", "CD", "F"]}, self.files({}, one, self.TWO))

    def test_a_module_that_is_called_as_another_file(self):
        one = "Values DEFINITIONS ::= BEGIN A ::= NULL END"
        self.assertEqual({"values_types": ["A"], "n": ["C", "CD", "F"]}, self.files({}, one, self.TWO))

    def test_a_group_has_the_parts_of_its_types(self):
        self.assertEqual({"of_c": ["C", "CD"], "types": ["F"]}, self.files({"of_c": ["C"]}, self.TWO))


class Layout(unittest.TestCase):
    def test_the_order_of_names(self):
        self.assertEqual(["info_entry", "info2_entry", "infos"], sorted(["infos", "info2_entry", "info_entry"], key=natural))
        self.assertEqual(["Tag2", "Tag10", "V1", "Validity", "a_b"], sorted(["a_b", "Tag10", "V1", "Tag2", "Validity"], key=natural))

    def test_a_list_on_one_line_or_on_many(self):
        self.assertEqual(["type A = (b, c);"], tuple_lines("", "type A = ", ["b", "c"], ";"))
        long = tuple_lines("", "type A = ", ["b" * 30, "c" * 29], ";")
        self.assertEqual(["type A = (", f"    {'b' * 30},", f"    {'c' * 29},", ");"], long)

    def test_an_item_that_is_too_long_is_broken_at_its_arguments(self):
        name = "x" * 60
        self.assertEqual([f"    D::<A, B>::new(&{name}),"], item_lines("    ", f"D::<A, B>::new(&{name})"))
        name = "x" * 90
        self.assertEqual(["    D::<A, B>::new(", f"        &{name},", "    ),"], item_lines("    ", f"D::<A, B>::new(&{name})"))

    def test_imports_are_filled(self):
        lines = filled("", "use a::", [f"name_{it}" for it in range(20)], ";")
        self.assertTrue(all(len(it) <= 100 for it in lines))
        self.assertEqual(("use a::{", "};"), (lines[0], lines[-1]))

    def test_the_last_line_of_imports_is_as_wide_as_others(self):
        for width, count in ((100, 3), (101, 4)):
            self.assertEqual(count, len(filled("", "use a::", ["A" * 60, "B" * (width - 67)], ";")))
        self.assertEqual(4, len(filled("", "use a::", ["A" * 60, "B" * 33, "C"], ";")))

    def test_the_width_of_imports(self):
        for width, count in ((98, 1), (99, 3)):
            self.assertEqual(count, len(filled("", "use a::", ["A" * (width - 13), "B"], ";")))

    def test_comments_are_wrapped(self):
        self.assertTrue(all(len(it) <= 100 and it.startswith("    /// ") for it in comment("    ", "///", "word " * 50)))

    def test_a_type_after_a_name(self):
        self.assertEqual(["pub type A = B<C>;"], assigned("", "pub type A =", "B<C>", ";"))
        name = "N" * 60
        self.assertEqual([f"pub type {name} =", f"    {'B' * 40};"], assigned("", f"pub type {name} =", "B" * 40, ";"))
        broken = [f"pub type {name} = WithSize<", f"    {'B' * 20},", "    1,", "    { usize::MAX },", ">;"]
        self.assertEqual(broken, assigned("", f"pub type {name} =", f"WithSize<{'B' * 20}, 1, {{ usize::MAX }}>", ";"))

    def test_types_are_broken_at_their_arguments(self):
        inner = f"OneOf<{'B' * 50}, NoneOf>"
        lines = type_lines("", "type Parts = ", f"OneOf<{'A' * 50}, {inner}>", ";")
        self.assertEqual(["type Parts = OneOf<", f"    {'A' * 50},", f"    {inner},", ">;"], lines)


class RustTypes(unittest.TestCase):
    def test_their_text(self):
        one = of("Option", of("InRange", of("u8"), "0", "{ usize::MAX }"))
        self.assertEqual("Option<InRange<u8, 0, { usize::MAX }>>", str(one))
        self.assertEqual(["()", "(A,)", "(A, B)"], [str(it) for it in (UNIT, tuple_of(of("A")), tuple_of(of("A"), of("B")))])

    def test_their_names(self):
        self.assertEqual({"A", "low::B", "u8"}, of("A", tuple_of(of("low::B"), UNIT), of("u8"), "MAX").names())

    def test_a_part_in_place_of_another(self):
        self.assertEqual("A<C, B<B>>", str(of("A", of("B"), of("B", of("B"))).replaced(of("B"), of("C"))))


class Alternatives(unittest.TestCase):
    def test_places(self):
        self.assertEqual([["This"], ["Other", "This"], ["Other", "Other", "This"]], [place(it, 3) for it in range(3)])
        self.assertEqual([["First"], ["Fourth"], ["Later", "This"]], [place(it, 5) for it in (0, 3, 4)])
        self.assertEqual(["Later", "Later", "Fourth"], place(11, 12))

    def test_types(self):
        self.assertEqual("OneOf<A, NoneOf>", str(parts_type([of("A")])))
        self.assertEqual("Choice4<A, B, C, D, OneOf<E, NoneOf>>", str(parts_type([of(it) for it in "ABCDE"])))

    def test_terms_and_patterns(self):
        self.assertEqual("Later (Later (This x))", term(["Later", "Later", "This"], "x"))
        self.assertEqual("Later(Later(This(x)))", pattern(["Later", "Later", "This"], "x"))
