"""The commands of pages."""
import subprocess
import unittest

from shared import page_commands
from shared.crates import ROOT

from . import script

commands = script("commands")


class Pages(unittest.TestCase):
    def texts(self, text: str, page: str = "docs/GATE.md") -> list[str]:
        """The commands of the blocks and of the sentences of a page."""
        return [it.text for found in (commands.in_blocks, commands.in_sentences) for it in found(page, text)]

    def test_blocks(self) -> None:
        for text, wanted in (
            ("```sh\nrt check    # proves\nmake\n```\n", ["rt check", "make"]),
            ("```text\nrt check\n```\n", []),
            ("Run:\n\n    tools/pages --check    # the pages\n    printf 1 | rt try\n\nThen.\n", ["tools/pages --check", "printf 1 | rt try"]),
            ("Code:\n\n    let a = 1;\n    rt check\n", []),
            ("- an item\n    rt check\n", []),
            ('In it:\n\n    "$LIBRARY"/tools/copy-crates .\n', ['"$LIBRARY"/tools/copy-crates .']),
        ):
            self.assertEqual(wanted, self.texts(text), text)

    def test_sentences(self) -> None:
        for text, wanted in (
            ("Run `tools/pages\n--check`, `rt fmt` and `./run-tests`.", ["tools/pages --check", "rt fmt", "./run-tests"]),
            ("`tools/{read,cms}-rows`, `tools/none`, `tools/shared/rows.py`, `tools`, `rt`, `der show FILE`", []),
            ("```text\n`tools/pages`\n```\n", []),
        ):
            self.assertEqual(wanted, self.texts(text), text)
        self.assertEqual(["../tools/page"], self.texts("`../tools/page`", "page/README.md"))

    def test_what_is_printed(self) -> None:
        text = "In `crates/first`, this prints `a b`\nand then prints 290:\n\n    rt try\n\n(`rt version`: `kit`) In `crates/a`."
        found = [*commands.in_blocks("docs/GATE.md", text), *commands.in_sentences("docs/GATE.md", text)]
        self.assertEqual([(("a b", "290"), "crates/first"), (("kit",), "")], [(it.said, it.folder) for it in found])

    def test_lines_and_folders(self) -> None:
        found = list(commands.in_sentences("docs/GATE.md", "One.\n\n```text\n1\n```\n\nRun `rt check`\nin `crates/mine`.\n"))
        self.assertEqual([(7, "rt check", "crates/mine")], [(it.line, it.text, it.folder) for it in found])

    def test_files(self) -> None:
        text = "`src/a.rt`, all of it:\n\n```rust\na\n```\n\n`b`:\n\n    c\n        d\n\nOf `e`:\n\n    f\n"
        self.assertEqual([("src/a.rt", "a\n"), ("b", "c\n    d\n")], list(commands.files(text)))

    def test_entries(self) -> None:
        block = commands.Block(5, "", ["a", "  b", "c"], "")
        self.assertEqual([(5, "a\n  b"), (7, "c")], list(commands.entries(block)))


class Verdicts(unittest.TestCase):
    def wrong(self, said: tuple[str, ...], printed: str, status: int = 0) -> str:
        """What is wrong with a command that prints this."""
        return commands.wrong_of(commands.Command("", 1, "c", said), subprocess.CompletedProcess("", status, printed, ""))

    def test_lines(self) -> None:
        self.assertEqual("", self.wrong(("a b",), "x\na  b\n"))
        self.assertEqual("doesn't print 'a'", self.wrong(("a",), "a b\n"))
        self.assertEqual("", self.wrong(("a\n  b",), "x a\nb c\n"))

    def test_statuses(self) -> None:
        self.assertEqual("", self.wrong((), ""))
        self.assertEqual("status 3", self.wrong((), "", 3))
        self.assertEqual("didn't end in time", self.wrong((), "", 124))


class Notes(unittest.TestCase):
    """What is said of commands is said of commands that there are."""

    def test_commands(self) -> None:
        found = {(page, it.text) for page in commands.pages() for it in commands.commands(page)}
        self.assertEqual(set(), {*page_commands.AS_RUN, *page_commands.SAID} - found)
        shown = {(page, it) for (page, _), it in page_commands.SHOWN.items()}
        self.assertEqual(set(), shown - found)

    def test_texts(self) -> None:
        for (page, _), texts in page_commands.SAID.items():
            for it in texts:
                self.assertIn(it, (ROOT / page).read_text(encoding="utf-8"))

    def test_pages(self) -> None:
        named = {*page_commands.OWN, *page_commands.NAMED, *page_commands.FOLDERS, *page_commands.BEFORE}
        self.assertEqual(set(), named - set(commands.pages()))
