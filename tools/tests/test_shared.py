"""What else the scripts share: the lists of crates, and files that are written or compared."""
import contextlib
import io
import subprocess
import tempfile
import unittest
from pathlib import Path
from unittest import mock

from shared import crates, rows

LINES = """\
# a comment
core: arrayvec
types: core
der_fixtures: hex
user: types jiff
user_rows: user der_fixtures
rows_of_rows: user_rows
"""


class Crates(unittest.TestCase):
    def setUp(self) -> None:
        room = tempfile.TemporaryDirectory()
        self.addCleanup(room.cleanup)
        root = Path(room.name)
        (root / "crates.txt").write_text(LINES, encoding="utf-8")
        (root / "crates" / "user_rows" / "src").mkdir(parents=True)
        (root / "crates" / "user_rows" / "src" / "main.rt").touch()
        (root / "modules").mkdir()
        (root / "modules" / "generated.txt").write_text("# a comment\ntypes: --strict a.asn1\n", encoding="utf-8")
        patch = mock.patch.object(crates, "ROOT", root)
        patch.start()
        self.addCleanup(patch.stop)

    def test_what_each_uses(self) -> None:
        self.assertEqual(["core", "types", "der_fixtures", "user", "user_rows", "rows_of_rows"], list(crates.uses()))
        self.assertEqual((["core"], ["types"]), (crates.uses()["types"], crates.uses()["user"]))
        self.assertEqual({"types", "core"}, crates.needed()["user"])

    def test_kinds(self) -> None:
        self.assertEqual(["user_rows"], crates.programs())
        self.assertEqual(["der_fixtures", "user_rows", "rows_of_rows"], crates.tests())
        self.assertEqual(["types"], crates.generated())

    def test_lines(self) -> None:
        self.assertEqual(["core: arrayvec", "user: types jiff"], crates.lines_of({"user", "core"}))

    def test_what_is_left_out_is_printed(self) -> None:
        with contextlib.redirect_stdout(io.StringIO()) as out:
            found = crates.chosen({"tests": crates.tests(), "programs": crates.programs(), "written": ["types"]})
        self.assertEqual(["core", "user"], found)
        self.assertEqual("left out: der_fixtures, user_rows, rows_of_rows (tests); types (written)\n", out.getvalue())


class Tables(unittest.TestCase):
    def test_that_types_need_none(self) -> None:
        """A program that only reads and writes has nothing of tables."""
        needed = crates.needed()
        for name in {"picky_asn1_der", "der_elements", "der_jiff", "der_first", "der_tool", *crates.generated()} & {*needed}:
            self.assertNotIn("der_schema", needed[name])


class Files(unittest.TestCase):
    def setUp(self) -> None:
        room = tempfile.TemporaryDirectory()
        self.addCleanup(room.cleanup)
        self.root = Path(room.name)
        patch = mock.patch.object(rows, "ROOT", self.root)
        patch.start()
        self.addCleanup(patch.stop)
        self.files = {self.root / "a" / "text": "é\r\n", self.root / "bytes": b"\xff"}

    def run_with(self, check: bool) -> tuple[int, str]:
        """The status, and what is printed."""
        with contextlib.redirect_stdout(io.StringIO()) as out:
            status = rows.write_or_check(self.files, check, "tools/it")
        return status, out.getvalue()

    def test_nothing_is_there(self) -> None:
        lines = "a/text isn't what tools/it writes\nbytes isn't what tools/it writes\n0 passed, 2 failed\n"
        self.assertEqual((1, lines), self.run_with(True))
        self.assertEqual([], list(self.root.iterdir()))

    def test_what_was_written_is_right(self) -> None:
        self.assertEqual((0, ""), self.run_with(False))
        self.assertEqual((0, "2 passed, 0 failed\n"), self.run_with(True))
        self.assertEqual(b"\xc3\xa9\r\n", (self.root / "a" / "text").read_bytes())

    def test_what_was_changed_is_wrong(self) -> None:
        self.run_with(False)
        (self.root / "a" / "text").write_text("é\n", encoding="utf-8")
        self.assertEqual((1, "a/text isn't what tools/it writes\n1 passed, 1 failed\n"), self.run_with(True))


class Sections(unittest.TestCase):
    def test_a_section_is_written_in_its_place(self) -> None:
        text = "## one\na\n# b\n## two\nc\n## three\nd\n"
        self.assertEqual("## one\na\n# b\n## two\ne\nf\n## three\nd\n", rows.with_section(text, "two", "e\nf\n"))

    def test_a_new_section_is_the_last(self) -> None:
        self.assertEqual("## one\na\n## two\nb\n", rows.with_section("## one\na\n", "two", "b\n"))
        self.assertEqual("## one\na\n", rows.with_section("", "one", "a\n"))


class Arguments(unittest.TestCase):
    def test_a_wrong_option_is_refused(self) -> None:
        scripts = [it for it in (crates.ROOT / "tools").iterdir() if it.is_file() and it.read_bytes().startswith(b"#!/usr/bin/env python3")]
        self.assertGreater(len(scripts), 20)
        for script in scripts:
            ran = subprocess.run([script, "--none"], capture_output=True, check=False)
            self.assertEqual((2, b""), (ran.returncode, ran.stdout), script)

    def test_the_beginning_of_an_option_is_refused(self) -> None:
        ran = subprocess.run([crates.ROOT / "tools" / "pages", "--chec"], capture_output=True, check=False)
        self.assertEqual((2, b""), (ran.returncode, ran.stdout))
