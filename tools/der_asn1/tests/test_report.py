"""The table, the list of missing features, and the command line."""
import contextlib
import io
import os
import re
import tempfile
import unittest

from .. import command, report
from ..meaning.features import Level
from ..parse.modules import read_text
from ..parse.source import Problems
from . import module_text
from .stored import GOLDEN

RARE = "REAL, EMBEDDED PDV and CHARACTER STRING"
BITS = "an IMPLICIT tag over BIT STRING (CONTAINING ..)"
CONSTRAINED = "a type of its own with `Constrained`"
OWN = "an enum of its own with numbers of more than a byte"

BODY = """A ::= BOOLEAN
B ::= SET { a NULL, ... }
C ::= ANY
D ::= SEQUENCE { a CHARACTER STRING }
E ::= [31] NULL
F { X } ::= SEQUENCE { a X }
G ::= 5
v INTEGER ::= 5
CLASS-A ::= CLASS { &id INTEGER }"""


class Reports(unittest.TestCase):
    def setUp(self):
        problems = Problems()
        self.found = report.report_of(read_text(module_text(BODY), "m.asn1", problems), problems)

    def test_a_row_for_each_type(self):
        wanted = [("A", Level.EXACT), ("B", Level.WIDER), ("C", Level.EXACT), ("D", Level.PARTLY_RAW), ("E", Level.REFUSED), ("G", Level.REFUSED)]
        self.assertEqual(wanted, [(it.name, it.level) for it in self.found.rows])

    def test_what_isnt_counted(self):
        self.assertEqual((1, 1), (self.found.templates, self.found.values))

    def test_the_table(self):
        first, module, total = report.table(self.found)
        self.assertEqual("types exact open to depth by hand wider partly raw raw refused".split(), first.split())
        self.assertEqual("M 6 2 0 0 0 1 1 0 2".split(), module.split())
        self.assertEqual("in all 6 2 0 0 0 1 1 0 2".split(), total.split())

    def test_the_greedy_list(self):
        self.assertEqual(["2", "3", "4", "5"], [it.split()[0] for it in report.greedy(self.found)])
        self.assertIn("CHARACTER STRING", report.greedy(self.found)[1])

    def test_how_many_each_feature_stops(self):
        lines = report.features_table(self.found)
        self.assertEqual(["1", "1", "extension"], lines[1].split()[:3])

    def test_a_line_for_each_type(self):
        self.assertIn("M.A: exact, A", report.types_table(self.found))
        self.assertIn("M.E: refused, no type; tags with a number above 30", report.types_table(self.found))

    def test_types_without_exact_are_named(self):
        found = report.without_exact(self.found)
        self.assertEqual("4 of 6 (66.7 %) with `Exact` and `Faithful`", found[0])
        self.assertEqual(["M.E has none: tags with a number above 30", "M.G has none: not read"], [it.strip() for it in found[1:]])

    def test_types_without_a_readable_value_are_named(self):
        problems = Problems()
        body = "A ::= OCTET STRING (SIZE (2000))\nB ::= SEQUENCE { a OCTET STRING (SIZE (2000)), b NULL }\nC ::= SEQUENCE { a A OPTIONAL }\nD ::= OCTET STRING (SIZE (3))"
        found = report.without_inhabited(report.report_of(read_text(module_text(body), "m.asn1", problems), problems))
        self.assertEqual("2 of 4 (50.0 %) with `Inhabited`", found[0])
        self.assertEqual(["M.A has none: no readable value is found", "M.B has none: no readable value is found"], [it.strip() for it in found[1:]])

    def test_readable_values_of_listed_ones(self):
        problems = Problems()
        body = """A ::= OBJECT IDENTIFIER ({ 1 2 3 })
B ::= UTF8String ("x")
C ::= BOOLEAN (TRUE)
D ::= CHOICE { a INTEGER, ... }
E ::= OCTET STRING (ALL EXCEPT ''H)
F ::= BIT STRING { a(0) } (SIZE (4))
G ::= OBJECT IDENTIFIER (ALL EXCEPT { 1 2 })"""
        found = report.without_inhabited(report.report_of(read_text(module_text(body), "m.asn1", problems), problems))
        self.assertEqual(["M.B", "M.D", "M.G"], [it.split()[0] for it in found[1:]])

    def test_shares(self):
        self.assertEqual("1 of 4 (25.0 %)", report.share(1, 4))
        self.assertEqual("0 of 0 (0.0 %)", report.share(0, 0))


class Command(unittest.TestCase):
    def run_on(self, texts, *options):
        """The status, the output and the errors of the command over files with these texts."""
        with tempfile.TemporaryDirectory() as folder:
            paths = []
            for name, text in texts.items():
                paths.append(os.path.join(folder, name))
                with open(paths[-1], "w", encoding="utf-8") as it:
                    it.write(text)
            words = [it.replace("{folder}", folder) for it in options]
            out, err = io.StringIO(), io.StringIO()
            with contextlib.redirect_stdout(out), contextlib.redirect_stderr(err):
                status = command.main([*words, *(it for it in paths if not any(it in word for word in words))])
            return status, out.getvalue(), err.getvalue().replace(folder + os.sep, "")

    def test_a_module(self):
        status, out, err = self.run_on({"m.asn1": module_text("T ::= NULL")}, "--report")
        self.assertEqual((0, ""), (status, err))
        self.assertIn("1 of 1 (100.0 %) types exact and written\n", out)

    def test_an_error_has_its_place(self):
        status, out, err = self.run_on({"m.asn1": module_text("T ::= 5\nU ::= NULL")}, "--report")
        self.assertEqual((1, "m.asn1:2:7: error: expected a type, found `5` (X.680, 17.1)\n"), (status, err))
        self.assertIn("1 of 2 (50.0 %) types exact and written\n", out)

    def test_a_file_that_cant_be_read_on(self):
        status, _, err = self.run_on({"m.asn1": "M"}, "--report")
        self.assertEqual((1, "m.asn1:1:2: error: expected `DEFINITIONS`, found the end of the file (X.680, 13.1)\n"), (status, err))

    def test_strict(self):
        texts = {"m.asn1": module_text("T ::= SEQUENCE { A NULL }")}
        self.assertEqual(0, self.run_on(texts, "--report")[0])
        status, _, err = self.run_on(texts, "--report", "--strict")
        self.assertEqual((1, "m.asn1:2:18: error: the name begins with a small letter: `A` (X.680, 12.3)\n"), (status, err))

    def test_an_import(self):
        texts = {
            "m.asn1": "M DEFINITIONS ::= BEGIN IMPORTS U FROM N; T ::= SEQUENCE { a U } END",
            "n.asn1": "N DEFINITIONS ::= BEGIN U ::= NULL V ::= CHARACTER STRING END",
        }
        _, out, _ = self.run_on(texts, "--report", "--import", "{folder}/n.asn1")
        self.assertIn("1 of 1 (100.0 %) types exact and written\n", out)

    def test_types(self):
        _, out, _ = self.run_on({"m.asn1": module_text("T ::= NULL")}, "--report", "--types")
        self.assertIn("M.T: exact, T\n", out)

    def test_a_crate_is_written_and_checked(self):
        with tempfile.TemporaryDirectory() as folder:
            out = os.path.join(folder, "mine")
            texts = {"m.asn1": module_text("T ::= SEQUENCE { a U } U ::= INTEGER V ::= NULL\nid OBJECT IDENTIFIER ::= { 2 5 }")}
            self.assertEqual(1, self.run_on(texts, "--out", out, "--check")[0])
            status, printed, _ = self.run_on(texts, "--out", out)
            self.assertEqual((0, "mine: der_types picky_asn1_der picky_der_core picky_der_ser picky_der_de\n"), (status, printed))
            self.assertEqual(["lib.rt", "notation.rt", "types.rt", "values.rt"], sorted(os.listdir(os.path.join(out, "src"))))
            self.assertEqual((0, "", ""), self.run_on(texts, "--out", out, "--check"))
            open(os.path.join(out, "src", "other.rt"), "w", encoding="utf-8").close()
            self.assertEqual((1, f"{out}/src/other.rt isn't what would be written\n", ""), self.run_on(texts, "--out", out, "--check"))
            os.remove(os.path.join(out, "src", "other.rt"))
            with open(os.path.join(out, "src", "types.rt"), "a", encoding="utf-8") as it:
                it.write("\n")
            self.assertEqual((1, f"{out}/src/types.rt isn't what would be written\n", ""), self.run_on(texts, "--out", out, "--check"))

    def test_some_types_of_a_crate(self):
        with tempfile.TemporaryDirectory() as folder:
            texts = {"m.asn1": module_text("T ::= SEQUENCE { a U } U ::= SEQUENCE { a NULL } V ::= CHARACTER STRING")}
            self.assertEqual(0, self.run_on(texts, "--out", folder, "--type", "T")[0])
            self.assertEqual(["lib.rt", "notation.rt", "types.rt"], sorted(os.listdir(os.path.join(folder, "src"))))
            with open(os.path.join(folder, "src", "types.rt"), encoding="utf-8") as it:
                self.assertEqual(["T", "U"], re.findall(r"^pub struct (\w+)", it.read(), re.M))

    def test_groups_of_types(self):
        texts = {"m.asn1": module_text("T ::= SEQUENCE { a U } U ::= SEQUENCE { a NULL } V ::= NULL")}
        with tempfile.TemporaryDirectory() as folder:
            self.assertEqual(0, self.run_on(texts, "--out", folder, "--group", "mine=T", "--group", "mine=V")[0])
            self.assertEqual(["lib.rt", "mine.rt", "notation.rt", "types.rt"], sorted(os.listdir(os.path.join(folder, "src"))))
            status, _, err = self.run_on(texts, "--out", folder, "--group", "mine=T,W")
            self.assertEqual((1, "m.asn1:1:1: error: the crate has no type `W` for `mine.rt` (docs/ASN1.md)\n"), (status, err))
            status, _, err = self.run_on(texts, "--out", folder, "--group", "values=T")
            self.assertEqual((1, "m.asn1:1:1: error: a group can't be called `values` (docs/ASN1.md)\n"), (status, err))

    def test_types_that_are_called_the_same_in_rust(self):
        with tempfile.TemporaryDirectory() as folder:
            texts = {"m.asn1": module_text("TYPED-DATA ::= SEQUENCE { a TypedData }\nTypedData ::= NULL")}
            _, _, err = self.run_on(texts, "--out", folder)
            text = "`TYPED-DATA` is called `TypedData2`, since another type is called `TypedData`"
            self.assertEqual(f"m.asn1:2:16: warning: {text} (docs/ASN1.md)\n", err)

    def test_what_a_crate_refuses(self):
        for notation, options, wanted in (
            ("T ::= CHARACTER STRING", [], f"2:1: error: `T` would be kept as bytes: {RARE}; 1 type contains it. `--allow-raw T` allows it"),
            ("T ::= [1] IMPLICIT BIT STRING (CONTAINING NULL)", ["--strict"], f"2:1: error: `T` would be kept as bytes: {BITS}; 1 type contains it. `--allow-raw T` allows it"),
            ("T ::= ENUMERATED { a(128) }", [], f"2:1: error: `T` would have other values than the notation: {OWN}; 1 type contains it. `--allow-wider T` allows it"),
            ("T ::= [31] NULL", [], "2:1: error: `T` has no type: tags with a number above 30"),
            ("T ::= NULL", ["--type", "U"], "1:1: error: no module has a type `U`"),
            ("T ::= SEQUENCE { " + ", ".join(f"a{it} [{it % 30}] NULL" for it in range(33)) + " }", [], "2:1: error: `T` would be kept as bytes: a struct of more than 32 members; 1 type contains it. `--allow-raw T` allows it"),
        ):
            with self.subTest(notation), tempfile.TemporaryDirectory() as folder:
                status, _, err = self.run_on({"m.asn1": module_text(notation)}, "--out", folder, *options)
                self.assertEqual((1, f"m.asn1:{wanted}"), (status, err.rsplit(" (", 1)[0]))
                self.assertEqual([], os.listdir(folder))

    def test_one_error_for_each_cause(self):
        """The member is named, and all types that contain it are counted."""
        texts = {"m.asn1": module_text("T ::= SEQUENCE { a UTCTime (SIZE (13)), b Missing }\nU ::= SEQUENCE { a T, b Missing }\nV ::= U")}
        with tempfile.TemporaryDirectory() as folder:
            status, _, err = self.run_on(texts, "--out", folder)
            wanted = f"`a` of `T` would have other values than the notation: {CONSTRAINED}; 3 types contain it. `--allow-wider T` allows it"
            self.assertEqual(
                (1, [f"m.asn1:2:18: error: {wanted} (docs/ASN1.md)", "m.asn1:2:43: error: `Missing` isn't defined; 3 types contain it (X.680, 14.1)"]),
                (status, err.splitlines()),
            )

    def test_what_is_allowed_for_one_type(self):
        texts = {"m.asn1": module_text("T ::= SEQUENCE { a UTCTime (SIZE (13)) }\nU ::= SEQUENCE { a T, b UTCTime (SIZE (11)) }")}
        for words, wanted in ((["T"], [3]), (["U"], [2]), (["T,U"], []), (["T", "--allow-wider", "U"], []), ([], [])):
            with self.subTest(words), tempfile.TemporaryDirectory() as folder:
                status, _, err = self.run_on(texts, "--out", folder, "--allow-wider", *words)
                self.assertEqual((bool(wanted), wanted), (bool(status), [int(it.split(":")[1]) for it in err.splitlines()]))

    def test_a_module_that_isnt_given(self):
        texts = {"m.asn1": "M DEFINITIONS ::= BEGIN\nIMPORTS N1 FROM N;\nT ::= SEQUENCE { a N1 }\nU ::= SEQUENCE OF N1\nEND"}
        with tempfile.TemporaryDirectory() as folder:
            _, _, err = self.run_on(texts, "--out", folder)
            wanted = "`N1` would be kept as bytes: a module that isn't given; 2 types contain it. `--allow-raw N1` allows it"
            self.assertEqual([f"m.asn1:2:9: error: {wanted} (docs/ASN1.md)"], err.splitlines())
            self.assertEqual(0, self.run_on(texts, "--out", folder, "--allow-raw", "N1")[0])

    def test_what_isnt_supported_is_defined(self):
        texts = {"m.asn1": module_text("T ::= DATE\nU ::= SEQUENCE { a V }\nV ::= 5")}
        _, out, err = self.run_on(texts, "--report", "--types")
        self.assertEqual(["m.asn1:4:7: error: expected a type, found `5` (X.680, 17.1)"], err.splitlines())
        self.assertIn("M.T: raw, T; TIME, DATE, TIME-OF-DAY", out)
        self.assertIn("M.U: partly raw, U; a type whose notation isn't read\n", out)

    def test_what_the_report_calls_exact_is_written(self):
        """Two sizes are exact by hand alone, and so is what contains them."""
        _, out, _ = self.run_on({"m.asn1": module_text("T ::= SEQUENCE { a U, b NULL }\nU ::= OCTET STRING (SIZE (1 | 5))\nV ::= NULL")}, "--report")
        self.assertIn("0 of 1 (0.0 %) modules written without a flag\n0 of 1 (0.0 %) modules written without a flag, of those whose", out)
        self.assertIn("1 of 3 (33.3 %) types written without a flag\n", out)
        self.assertIn("1 of 3 (33.3 %) types exact and written\n", out)
        self.assertIn("2 of 3 (66.7 %) types exact only with types by hand", out)

    def test_a_module_that_names_what_is_not_there_is_not_complete(self):
        """And so isn't one with an error."""
        texts = {"m.asn1": module_text("T ::= Missing"), "n.asn1": module_text("T ::= NULL\nT ::= BOOLEAN").replace("M ", "N ", 1)}
        _, out, _ = self.run_on({**texts, "o.asn1": module_text("T ::= NULL").replace("M ", "O ", 1)}, "--report")
        self.assertIn("1 of 3 (33.3 %) modules written without a flag\n1 of 1 (100.0 %) modules written without a flag, of those whose", out)

    def test_a_module_that_was_written_for_no_compiler(self):
        """Each of its types is written without a flag, but for a REAL and what contains it."""
        text = (GOLDEN / "fleet.asn1").read_text(encoding="utf-8")
        _, out, _ = self.run_on({"fleet.asn1": text}, "--report")
        self.assertIn("1 of 2 (50.0 %) modules written without a flag\n", out)
        self.assertIn("36 of 39 (92.3 %) types written without a flag\n32 of 39", out)
        status, _, err = self.run_on({"fleet.asn1": text}, "--strict", "--out", "{folder}/fleet")
        self.assertEqual(1, status)
        wanted = f"`Consumption` would be kept as bytes: {RARE}; 3 types contain it. `--allow-raw Consumption` allows it"
        self.assertEqual([f"fleet.asn1:21:1: error: {wanted} (docs/ASN1.md)"], err.splitlines())

    def test_what_a_crate_allows(self):
        raw, wider = ("T ::= CHARACTER STRING", "--allow-raw", "TaggedBytes<0x3D>"), ("T ::= ENUMERATED { a(128) }", "--allow-wider", "Enumerated")
        bits = ("T ::= [1] IMPLICIT BIT STRING (CONTAINING NULL)", "--allow-raw", "TaggedBytes<0x81>")
        for notation, option, wanted in (raw, bits, wider):
            with self.subTest(notation), tempfile.TemporaryDirectory() as folder:
                self.assertEqual(0, self.run_on({"m.asn1": module_text(notation)}, "--out", folder, option)[0])
                with open(os.path.join(folder, "src", "types.rt"), encoding="utf-8") as it:
                    self.assertIn(f"pub type T = {wanted};\n", it.read())

    def test_the_same_input_gives_the_same_output(self):
        texts = {"m.asn1": module_text(BODY)}
        self.assertEqual(self.run_on(texts, "--report")[1], self.run_on(texts, "--report")[1])
