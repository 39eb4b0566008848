"""Crates with files of one's own, and what is written of a module more than once."""
import contextlib
import io
import os
import subprocess
import sys
import tempfile
import unittest

from .. import command
from ..emit import crate as emit_crate
from . import given
from .stored import GOLDEN, files_below

TOOL = os.path.join(os.path.dirname(os.path.dirname(os.path.realpath(__file__))), "der_asn1")

FLAGS = """F DEFINITIONS ::= BEGIN
-- What is on.
Flags ::= BIT STRING { red(0), green(1) }
Lamp ::= SEQUENCE { flags Flags, more [0] IMPLICIT Flags OPTIONAL }
END"""


class NamedNumbers(unittest.TestCase):
    def files(self, body):
        one = given(body)
        found = [one.meaning("A").rust.text]
        return emit_crate.Crate("it", emit_crate.reached(one.meanings.declarations, found), [], one.program.modules).files()

    def test_all_numbers_have_names(self):
        files = self.files("A ::= SEQUENCE { a Version DEFAULT v1, b [0] Version DEFAULT 2 } Version ::= INTEGER { v3(2), v1(0), v2(1) } (v1 | v2 | v3)")
        text = files["src/types.rt"]
        self.assertIn("    ghost TAG = { 0x02 };\n", text)
        self.assertIn("            [2] => Some(Version::V3),\n", text)
        self.assertIn("self.serialize_under(Tag::INTEGER, serializer)", text)
        self.assertIn("Version = INTEGER-named (0 ∷ 1 ∷ 2 ∷ [])\n", files["specs/Notation.antt"])
        self.assertIn("default (number 2) (CONTEXT 0 TAGS Version)", files["specs/Notation.antt"])
        self.assertIn("Defaulted<Version, VersionV1>,\n    Defaulted<ExplicitContextTag0<Version>, VersionV3>,", files["src/types.rt"])

    def test_some_numbers_have_none(self):
        files = self.files("A ::= SEQUENCE { a Version, b Level } Version ::= INTEGER { v1(0), v2(1) } Level ::= INTEGER { low(0), high(2) } (0..2)")
        self.assertIn("pub type Version = Integer;\n", files["src/types.rt"])
        self.assertIn("pub type Level = InRange<u8, 0, 2>;\n", files["src/types.rt"])


class OwnFiles(unittest.TestCase):
    def setUp(self):
        folder = tempfile.TemporaryDirectory()
        self.addCleanup(folder.cleanup)
        self.module, self.crate = os.path.join(folder.name, "f.asn1"), os.path.join(folder.name, "lamp")
        with open(self.module, "w", encoding="utf-8") as it:
            it.write(FLAGS)

    def run_tool(self, *words):
        """What the command returns and prints."""
        printed = io.StringIO()
        with contextlib.redirect_stdout(printed), contextlib.redirect_stderr(printed):
            status = command.main(["--out", self.crate, *words, self.module])
        return status, printed.getvalue()

    def text(self, path):
        with open(os.path.join(self.crate, path), encoding="utf-8") as it:
            return it.read()

    def test_a_struct_of_its_own(self):
        self.assertEqual(0, self.run_tool("--distinct", "Flags")[0])
        self.assertIn("/// What is on. `Flags` of F: `BIT STRING { red (0), green (1) }`.\n", self.text("src/types.rt"))
        self.assertIn("pub struct Flags(pub NamedBits);\n", self.text("src/types.rt"))
        self.assertIn("    pub more: Option<ImplicitContextTag0<Flags>>,\n", self.text("src/types.rt"))
        self.assertIn("Flags = BIT-STRING-named\n", self.text("specs/Notation.antt"))

    def test_a_struct_of_its_own_has_no_parts(self):
        status, printed = self.run_tool("--distinct", "Lamp")
        self.assertEqual((1, True), (status, "`Lamp` isn't the name of another type" in printed))

    def test_more_traits(self):
        self.assertEqual(0, self.run_tool("--distinct", "Flags", "--derive", "Clone,Ord", "--derive", "PartialOrd")[0])
        derive = "#[derive(Debug, Clone, Drop, PartialEq, Eq, PartialOrd, Ord)]\n"
        self.assertIn(f"{derive}pub struct Flags(", self.text("src/types.rt"))
        self.assertIn(f"{derive.replace(' Clone,', '')}pub struct Lamp {{", self.text("src/types.rt"))
        self.assertIn("impl Clone for Lamp {", self.text("src/types.rt"))
        self.assertIn("copies};\n", self.text("src/types.rt"))

    def test_traits_that_cannot_be(self):
        for words, wanted in (("Default", "`Default` can't be derived for all types"), ("Ord", "`Ord` needs `PartialOrd`")):
            status, printed = self.run_tool("--derive", words)
            self.assertEqual((1, True), (status, wanted in printed))

    def test_they_are_in_the_root(self):
        self.assertEqual(0, self.run_tool("--own", "lights=Light,Lights", "--own", "laws", "--own-terms", "Lights")[0])
        root = self.text("src/lib.rt")
        self.assertIn("mod laws;\nmod lights;\npub mod named;\npub mod notation;\nmod types;\n", root)
        self.assertIn("pub use lights::{Light, Lights};\n", root)
        self.assertIn("pub mod Lights\npub mod Notation\n", self.text("specs/Lib.antt"))

    def test_they_are_left_alone(self):
        own = ("--own", "lights=Light", "--own-terms", "Lights")
        self.run_tool(*own)
        for path in ("src/lights.rt", "src/lights/red.rt", "specs/Lights.antt"):
            os.makedirs(os.path.dirname(os.path.join(self.crate, path)), exist_ok=True)
            with open(os.path.join(self.crate, path), "w", encoding="utf-8") as it:
                it.write("-- by hand")
        self.assertEqual((0, ""), self.run_tool("--check", *own))
        self.run_tool(*own)
        self.assertEqual("-- by hand", self.text("src/lights.rt"))
        os.rename(os.path.join(self.crate, "src/lights.rt"), os.path.join(self.crate, "src/other.rt"))
        self.assertEqual(1, self.run_tool("--check", *own)[0])


class Determinism(unittest.TestCase):
    """The same module gives the same bytes, whatever the order of sets is in that run."""

    def test_of_each_run(self):
        with tempfile.TemporaryDirectory() as folder:
            for module in ("voyage", "status_request", "request"):
                found = [self.written(os.path.join(folder, seed, module), seed, module) for seed in ("1", "2", "3")]
                self.assertEqual([found[0]] * 3, found)

    def written(self, crate, seed, module):
        """The files of the crate, written by a run of its own."""
        words = [sys.executable, TOOL, "--out", crate, str(GOLDEN / f"{module}.asn1")]
        subprocess.run(words, check=True, capture_output=True, env={**os.environ, "PYTHONHASHSEED": seed})
        return files_below(crate)


if __name__ == "__main__":
    unittest.main()
