"""Types that other crates have."""
import os
import tempfile
import unittest

from .. import command
from ..meaning.other_crates import OtherCrates, exported, other_crates
from ..parse.modules import read_text
from ..parse.source import Problems

LOW = "Low DEFINITIONS ::= BEGIN Name ::= SEQUENCE { a Part } Part ::= SEQUENCE { b NULL } Inner ::= SEQUENCE { c NULL } END"


def crate_of(body, *names, exports=("Name", "Part", "Inner")):
    """A crate of a module that imports from `Low`, whose crate `low` exports these names."""
    problems = Problems()
    (low,) = read_text(LOW, "low.asn1", problems)
    (high,) = read_text(f"High DEFINITIONS ::= BEGIN IMPORTS Name, Part, Inner FROM Low; {body} END", "high.asn1", problems)
    others = OtherCrates({"low": "low"}, {"low": frozenset(exports)})
    found = command.crate_of("high", [high], [low], names, problems, others)
    return found, [str(it) for it in problems.found]


class Types(unittest.TestCase):
    def test_of_another_crate_are_named(self):
        crate, said = crate_of("A ::= SEQUENCE { a Name, b [0] IMPLICIT Part OPTIONAL }")
        self.assertEqual((["A"], {"Name": "low", "Part": "low"}, []), (list(crate.types), crate.elsewhere, said))
        files = crate.files()
        self.assertIn("use low::{Name, Part};\n", files["src/types.rt"])
        self.assertIn("    pub a: Name,\n", files["src/types.rt"])
        self.assertIn("Option<ImplicitList0<Part>>", files["src/types.rt"])
        self.assertIn("\nuse Rattle.low.specs.Notation.{Name, Part}\n", files["specs/Notation.antt"])
        self.assertNotIn("use low", files["src/notation.rt"])

    def test_what_they_are_made_of_is_not_named(self):
        crate, _ = crate_of("A ::= SEQUENCE { a Name }")
        self.assertEqual({"Name": "low"}, crate.elsewhere)

    def test_one_that_is_not_exported_is_declared(self):
        crate, _ = crate_of("A ::= SEQUENCE { a Name }", exports=("Part",))
        self.assertEqual((["A", "Name"], {"Part": "low"}), (sorted(crate.types), crate.elsewhere))

    def test_another_name_of_one(self):
        crate, _ = crate_of("A ::= Name")
        self.assertIn("use low::Name;\n\n/// `A` of High: `Name`.\npub type A = Name;\n", crate.files()["src/types.rt"])

    def test_the_name_of_one_that_is_not_used_is_free(self):
        crate, said = crate_of("Part ::= SEQUENCE { a Name } Inner ::= INTEGER")
        self.assertEqual((["Inner", "Part"], {"Name": "low"}, []), (sorted(crate.types), crate.elsewhere, said))

    def test_the_name_of_one_that_is_used_is_taken(self):
        problems = Problems()
        (low,) = read_text(LOW, "low.asn1", problems)
        (high,) = read_text("High DEFINITIONS ::= BEGIN Part ::= SEQUENCE { a Low.Part } END", "high.asn1", problems)
        others = OtherCrates({"low": "low"}, {"low": frozenset(["Part"])})
        crate = command.crate_of("high", [high], [low], ["Part"], problems, others)
        self.assertEqual((["Part2"], {"Part": "low"}), (list(crate.types), crate.elsewhere))
        self.assertIn("`Part` is called `Part2`", str(problems.found[-1]))


class Roots(unittest.TestCase):
    def test_what_a_root_exports(self):
        text = "mod a;\npub mod values;\n\npub use a::A;\npub use b::{\n    B, C,\n    D,\n};\nuse hidden::E;\n"
        terms = "".join(f"-- {it} of M\nabbrev pub {it} : Notation\n{it} = NULL\n\n" for it in "ABDE")
        self.assertEqual({"A", "B", "D"}, exported(text, terms))

    def test_a_crate_beside_the_one_that_is_written(self):
        with tempfile.TemporaryDirectory() as folder:
            os.makedirs(f"{folder}/low/src")
            os.makedirs(f"{folder}/low/specs")
            for path, text in (("src/lib.rt", "pub use a::{A, B};\n"), ("specs/Notation.antt", "abbrev pub A : Notation\n")):
                with open(f"{folder}/low/{path}", "w", encoding="utf-8") as file:
                    file.write(text)
            found = other_crates(["Low-1=low"], folder)
            self.assertEqual(("low", True, False), (found.crate_of("LOW-1"), found.exports("low::A"), found.exports("low::B")))
            self.assertRaises(OSError, other_crates, ["Low-1=high"], folder)


class Order(unittest.TestCase):
    def test_of_imports(self):
        crate, _ = crate_of("A ::= SEQUENCE { a Name, b INTEGER, c B } B ::= SEQUENCE { d NULL }")
        text = crate.files()["src/types.rt"]
        found = [it.split("::")[0] for it in text.split("\n") if it.startswith("use ")]
        self.assertEqual(["use der_types", "use low", "use picky_asn1_der"], list(dict.fromkeys(found)))
