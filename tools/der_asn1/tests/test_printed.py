"""Terms print back as ASN.1, and what is printed is what the modules have."""
import contextlib
import io
import re
import unittest
from pathlib import Path

from .. import command
from ..emit.printed import printed, read_terms
from ..meaning.objects import class_named
from ..meaning.scopes import Program
from ..parse import tree
from ..parse.modules import read_file, read_text
from ..parse.source import Problems
from . import module_text
from .agreement import Agreement
from .stored import GOLDEN, stored_files

MODULES = Path(__file__).resolve().parents[3] / "modules"

# terms and the types that they print as
PRINTED = [
    ("SIZE 1 MAX (SEQUENCE-OF INTEGER)", "SEQUENCE (SIZE (1..MAX)) OF INTEGER"),
    ("SIZE 4 4 OCTET-STRING", "OCTET STRING (SIZE (4..4))"),
    ("wider (SIZE 1 8 IA5String)", "IA5String (SIZE (1..8)) (CONSTRAINED BY {})"),
    ("listed ((0xFF ∷ []) ∷ []) BOOLEAN", "BOOLEAN (CONSTRAINED BY {})"),
    ("unlisted ([] ∷ (0x01 ∷ 0x02 ∷ []) ∷ []) OCTET-STRING", "OCTET STRING (CONSTRAINED BY {})"),
    ("one-of (NULL ∣ BOOLEAN ∣ none)", "ANY (CONSTRAINED BY {})"),
    ("encoded NULL", "ANY (CONSTRAINED BY {})"),
    ("CHOICE-extensible (NULL ∣ BOOLEAN ∣ none)", "CHOICE { alternative1 NULL, alternative2 BOOLEAN, ... }"),
    ("APPLICATION 3 EXPLICIT (CONTEXT 0 TAGS NULL)", "[APPLICATION 3] EXPLICIT [0] NULL"),
    ("PRIVATE 1 AUTOMATIC (INTEGER-from-minus-to 128 127)", "[PRIVATE 1] IMPLICIT INTEGER (-128..127)"),
    ("wider (any-content 0x43)", "[APPLICATION 3] IMPLICIT OCTET STRING (CONSTRAINED BY {})"),
    ("wider (content-under 0x41 INTEGER)", "[APPLICATION 1] IMPLICIT INTEGER (CONSTRAINED BY {})"),
    ("ENUMERATED (3 ∷ 0 ∷ [])", "ENUMERATED { item1(3), item2(0) }"),
    ("INTEGER-named (0 ∷ 1 ∷ [])", "INTEGER (0 | 1)"),
    ("INTEGER-in (up-to (minus 9) ∷ from-to (number 1) (number 2) ∷ from-on (number 5) ∷ [])", "INTEGER (MIN..-9 | 1..2 | 5..MAX)"),
    ("FROM ((65, 66) ∷ (97, 97) ∷ []) IA5String", "IA5String (FROM ({0, 0, 0, 65}..{0, 0, 0, 66} | {0, 0, 0, 97}..{0, 0, 0, 97}))"),
    ("OCTET-STRING-CONTAINING ANY", "OCTET STRING (CONTAINING ANY)"),
    ("SET-OF any-element", "SET OF ANY"),
    ("CHOICE (NULL ∣ BOOLEAN ∣ later-alternatives-refused)", "CHOICE { alternative1 NULL, alternative2 BOOLEAN, ... }"),
    (
        "SEQUENCE (required NULL ⨾ default (minus 1) INTEGER ⨾ added (required BOOLEAN ⨾ default-of (number 7) INTEGER ⨾ later-members))",
        "SEQUENCE { member1 NULL, member2 INTEGER DEFAULT -1, ..., [[ member3 BOOLEAN, member4 INTEGER DEFAULT 7 ]] }",
    ),
    (
        "SEQUENCE (required NULL ⨾ added (required NULL ⨾ added (required NULL ⨾ later-members-automatic)))",
        "SEQUENCE { member1 NULL, ..., [[ member2 NULL ]], [[ member3 NULL ]] }",
    ),
    ("SEQUENCE (required NULL ⨾ later-elements)", "SEQUENCE { member1 NULL, ... }"),
    ("SET (required NULL ⨾ added-as-optional NULL ⨾ later-members-refused)", "SET { member1 NULL, ..., member2 NULL }"),
    ("SET (optional NULL ⨾ default-as-optional IA5String ⨾ later-members)", "SET { member1 NULL OPTIONAL, member2 IA5String DEFAULT {}, ... }"),
]

# a module's type, and another one in place of a part of its term
ALTERED = [
    ("SEQUENCE { a INTEGER (0..9) }", "0 9", "0 10"),
    ("SEQUENCE { a [1] NULL }", "CONTEXT 1", "CONTEXT 2"),
    ("SEQUENCE { a [1] NULL }", "TAGS NULL", "IMPLICIT NULL"),
    ("SEQUENCE { a NULL OPTIONAL }", "optional", "required"),
    ("SEQUENCE { a BOOLEAN DEFAULT TRUE }", "default TRUE", "default FALSE"),
    ("SEQUENCE { a NULL, ... }", "later-elements", "end"),
    ("SEQUENCE { a NULL, ..., b BOOLEAN }", "added (required BOOLEAN ⨾\n    later-elements)", "required BOOLEAN ⨾\n    later-elements"),
    ("SEQUENCE { a NULL, ..., b BOOLEAN, c NULL }", "added (required NULL ⨾\n    later-elements)", "required NULL ⨾\n    later-elements"),
    ("SEQUENCE { a NULL, ..., [[ b BOOLEAN, c NULL ]] }", "required NULL ⨾\n    later-elements)", "added (required NULL ⨾\n    later-elements))"),
    ("SET { a NULL, b BOOLEAN }", "SET", "SEQUENCE"),
    ("SET OF NULL", "SET-OF", "SEQUENCE-OF"),
    ("CHOICE { a NULL, b BOOLEAN }", "BOOLEAN ∣", "INTEGER ∣"),
    ("ENUMERATED { a(1), b(2) }", "1 ∷ 2", "1 ∷ 3"),
    ("BIT STRING { a(0) }", "BIT-STRING-named", "BIT-STRING"),
    ("IA5String (SIZE (1..8))", "SIZE 1 8", "SIZE 1 9"),
    ("IA5String (FROM (\"a\"))", "97, 97", "97, 98"),
    ("INTEGER (0..MAX)", "number 0", "number 1"),
    ("IA5String (\"a\")", "listed ((0x61 ∷ []) ∷ []) IA5String", "IA5String"),
    ("CHOICE { a NULL, ... }", "CHOICE-extensible (", "CHOICE ("),
    ("CHOICE { a NULL, ... }", "NULL ∣", "BOOLEAN ∣"),
    ("UTF8String", "UTF8String", "IA5String"),
    ("ANY", "ANY", "NULL"),
]


def terms_of(modules, imported, *problems):
    """The file of terms of all types of these modules."""
    crate = command.crate_of("it", modules, imported, [], *(problems or (Problems(),)))
    return crate.files().get("specs/Notation.antt", "")


def types_in(module, program):
    """The types that a module assigns, without those with parameters and names of classes."""
    for it in module.assignments:
        if isinstance(it, tree.TypeAssignment) and not it.parameters:
            alias = it.type.name if isinstance(it.type, tree.ReferenceType) else ""
            if not alias or class_named(program, alias, program.scope_of(module)) is None:
                yield it


class Printing(unittest.TestCase):
    def test_each_form(self):
        for term, wanted in PRINTED:
            with self.subTest(term):
                text = printed(read_terms(f"abbrev TAGS : Mode\nTAGS = EXPLICIT\n\n-- T of M\nabbrev pub T : Notation\nT = {term}\n"))
                self.assertEqual(f"Printed DEFINITIONS EXPLICIT TAGS ::= BEGIN\nT ::= {wanted}\nEND\n", text)

    def test_a_word_that_has_no_notation(self):
        with self.assertRaises(ValueError):
            printed(read_terms("abbrev pub T : Notation\nT = unheard-of 5\n"))


class Command(unittest.TestCase):
    def test_the_terms_of_a_crate(self):
        terms = GOLDEN.parents[3] / "crates/der_kerberos/specs/Notation.antt"
        out = io.StringIO()
        with contextlib.redirect_stdout(out):
            self.assertEqual(0, command.main(["--print", str(terms)]))
        self.assertIn("\nChecksum ::= SEQUENCE { member1 [0] Int32, member2 [1] OCTET STRING }\n", out.getvalue())


class Comparing(unittest.TestCase):
    def difference(self, text, change=lambda it: it):
        """How the printed type `T` differs from that of the module, after a change of the terms."""
        modules = read_text(text, "m.asn1", Problems())
        agreement = Agreement.of_terms(read_terms(change(terms_of(modules, []))), Program(modules, Problems()))
        return agreement.difference(agreement.program.indexes[id(modules[0])]["T"], modules[0])

    def test_a_term_that_isnt_the_modules(self):
        for notation, before, after in ALTERED:
            with self.subTest(notation):
                text = module_text(f"T ::= {notation}")
                self.assertIsNone(self.difference(text))

                def change(terms, before=before, after=after):
                    head, mark, body = terms.partition("T = ")
                    self.assertIn(before, body)
                    return head + mark + body.replace(before, after)

                self.assertIsNotNone(self.difference(text, change))

    def test_groups_of_additions(self):
        for notation in ("a NULL, ..., [[ b BOOLEAN, c INTEGER ]]", "a NULL, ..., [[ b NULL OPTIONAL, c INTEGER ]], d NULL, e BOOLEAN OPTIONAL"):
            self.assertIsNone(self.difference(module_text(f"T ::= SEQUENCE {{ {notation} }}")))


class Agreeing(unittest.TestCase):
    def check(self, terms, modules, imported):
        """Each type of the modules is what its printed term is."""
        program, own = Program(modules, Problems(), imported), read_terms(terms)
        for crate, names in re.findall(r"^use Rattle\.(\w+)\.specs\.Notation\.\{(.*)\}$", terms, re.MULTILINE):
            if crate != "der_types":
                others = read_terms(stored_files((GOLDEN / f"{crate}.crate").read_text(encoding="utf-8"))["specs/Notation.antt"])
                own.types += [it for it in others.types if it.name in names.split(", ")]
        agreement, count = Agreement.of_terms(own, program), 0
        for module in modules:
            for it in types_in(module, program):
                with self.subTest(f"{module.name}.{it.name}"):
                    found = agreement.difference(it, module)
                    self.assertIsNone(found)
                    count += 1
        return count

    def test_each_module_of_the_messages(self):
        paths = sorted(MODULES.glob("*.asn1"))
        for path in paths:
            modules = read_file(str(path), Problems())
            imported = [it for other in paths if other != path for it in read_file(str(other), Problems())]
            self.assertGreater(self.check(terms_of(modules, imported), modules, imported), 0, path)

    def test_each_stored_crate(self):
        for path in sorted(GOLDEN.glob("*.asn1")):
            modules = read_file(str(path), Problems())
            imported = [it for other in GOLDEN.glob("*.asn1") if other != path for it in read_file(str(other), Problems())]
            files = stored_files(path.with_suffix(".crate").read_text(encoding="utf-8"))
            self.assertGreater(self.check(files["specs/Notation.antt"], modules, imported), 0, path)


if __name__ == "__main__":
    unittest.main()
