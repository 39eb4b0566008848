"""What is wrong with scripts."""
import tempfile
import unittest
from pathlib import Path

from . import script

lint = script("lint")


class Files(unittest.TestCase):
    def setUp(self) -> None:
        room = tempfile.TemporaryDirectory()
        self.addCleanup(room.cleanup)
        self.folder = Path(room.name)

    def put(self, name: str, text: str) -> Path:
        """A file with this text."""
        path = self.folder / name
        path.write_text(text, encoding="utf-8")
        return path

    def test_languages(self) -> None:
        for name, text, is_python, is_shell in (
            ("a.py", "", True, False),
            ("a.sh", "", False, True),
            ("a.md", "#!/usr/bin/env python3\n", False, False),
            ("a", "#!/usr/bin/env python3\n", True, False),
            ("b", "#!/usr/bin/env bash\n", False, True),
            ("c", "#!/bin/sh\n", False, True),
            ("d", "text\n#!/bin/sh\n", False, False),
        ):
            path = self.put(name, text)
            self.assertEqual((is_python, is_shell), (lint.is_in(path, ".py", lint.PYTHON), lint.is_in(path, ".sh", lint.SHELL)), name)

    def test_what_is_read_without_the_programs(self) -> None:
        good, bad = self.put("good.py", "x = 1\n"), self.put("bad.py", "x = (\n")
        self.assertEqual([str(bad)], [it.partition(":")[0] for it in lint.compiled([good, bad])])
        good, bad = self.put("good.sh", "echo\n"), self.put("bad.sh", "if true\n")
        self.assertEqual({str(bad)}, {it.partition(":")[0] for it in lint.read_by_bash([good, bad])})

    def test_functions_without_types(self) -> None:
        head = "class A:\n    def a(self, x: int) -> int:\n        return x\n"
        path = self.put("a.py", f"{head}\ndef b(x) -> int:\n    pass\n\ndef c(x: int):\n    pass\n\ndef d(*x, y: int = 1, **z: int) -> None:\n    pass\n")
        found = [it.removeprefix(f"{path}:") for it in lint.long_or_untyped([path])]
        self.assertEqual([f"{line}: {name} doesn't name its types" for line, name in ((5, "b"), (8, "c"), (11, "d"))], found)

    def test_long_functions(self) -> None:
        lines = "    pass\n"
        path = self.put("a.py", f"def a() -> None:\n{lines * 38}\ndef b() -> None:\n{lines * 39}")
        self.assertEqual([f"{path}:41: b has 40 lines"], lint.long_or_untyped([path]))

    def test_a_program_that_is_not_installed(self) -> None:
        self.assertIs(lint.compiled, lint.check_by("no-such-program", [], lint.compiled, "nothing is run"))
