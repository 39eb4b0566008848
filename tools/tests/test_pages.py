"""The faults of pages."""
import unittest

from . import script

pages = script("pages")


class Prose(unittest.TestCase):
    def found(self, text: str) -> list[tuple[int, str]]:
        """The faults of the prose of a page."""
        return list(pages.faulty_prose(pages.without_code(text)))

    def lines(self, text: str) -> list[int]:
        """Their lines."""
        return [line for line, _ in self.found(text)]

    def test_a_long_sentence(self) -> None:
        self.assertEqual([], self.found("word " * 34 + "word."))
        self.assertEqual([1], self.lines("word " * 35 + "word."))
        self.assertEqual([], self.found("word " * 20 + "word. " + "word " * 20 + "word."))

    def test_a_sentence_over_lines(self) -> None:
        self.assertEqual([2], self.lines("\n" + "word " * 20 + "\n" + "word " * 20 + "\n"))

    def test_items_and_cells_are_sentences(self) -> None:
        words = "word " * 20
        self.assertEqual([], self.found(f"- {words}\n- {words}\n1. {words}\n"))
        self.assertEqual([], self.found(f"| {words} | {words} |\n"))

    def test_code_is_one_word(self) -> None:
        self.assertEqual([], self.found("word " * 34 + "`a b c d`."))

    def test_words_that_are_replaced(self) -> None:
        for words in ("it answers", "Behind it", "takes three more bytes", "just this", "it stands", "a device", "the allocation was refused"):
            self.assertEqual([3], self.lines(f"One.\n\nTwo: {words}.\n"), words)

    def test_words_that_are_not(self) -> None:
        for words in ("`behind` it", "an adjustment", "it is refused", "[that](docs/behind.md)", "<!-- just -->"):
            self.assertEqual([], self.found(words), words)

    def test_code_is_not_looked_at(self) -> None:
        self.assertEqual([], self.found("```rust\njust behind\n```\n"))
        self.assertEqual([], self.found("Text:\n\n    just behind\n"))

    def test_what_continues_with_an_item(self) -> None:
        self.assertEqual([1], self.lines("- an item\n  that is just\n"))
        self.assertEqual([2], self.lines("\n- an item\n    that is just\n"))

    def test_lines_after_code(self) -> None:
        self.assertEqual([5], self.lines("```text\na\n```\n\njust\n"))


class Links(unittest.TestCase):
    def found(self, text: str, page: str = "docs/GATE.md") -> list[str]:
        """What is wrong with the links of a page."""
        return [what for _, what in pages.broken_links(page, text)]

    def test_files_from_the_folder_of_the_page(self) -> None:
        self.assertEqual([], self.found("[a](TOOL.md) [b](../README.md) [c](reference)"))
        self.assertEqual(["there is no docs/README.md"], self.found("[a](README.md)"))
        self.assertEqual([], self.found("[a](docs/TOOL.md)", "README.md"))

    def test_headings(self) -> None:
        self.assertEqual([], self.found("[a](#edits) [b](GATE.md#wrong-bodies)"))
        self.assertEqual(["docs/GATE.md has no heading #none"], self.found("[a](#none)"))

    def test_other_addresses(self) -> None:
        self.assertEqual([], self.found("[a](https://example.org/none)"))

    def test_links_in_code(self) -> None:
        self.assertEqual([], self.found("```text\n[a](none.md)\n```\n"))

    def test_anchors(self) -> None:
        text = "# A `b` & c\n## Same\n## Same\n```text\n# none\n```\n## [Link](x.md)\n"
        self.assertEqual({"a-b--c", "same", "same-1", "link"}, pages.anchors(text))


class Sizes(unittest.TestCase):
    def test_columns(self) -> None:
        text = "x" * 110 + "\n" + "x" * 111 + "\n" + "x" * 141 + "\n"
        self.assertEqual([2, 3], [line for line, _ in pages.wide_lines("README.md", text)])
        self.assertEqual([3], [line for line, _ in pages.wide_lines("docs/GATE.md", text)])

    def test_lines_of_the_readme(self) -> None:
        self.assertEqual([], pages.faults("README.md", "\n" * 100))
        self.assertEqual([101], [line for line, _ in pages.faults("README.md", "\n" * 101)])
        self.assertEqual([], pages.faults("docs/GATE.md", "\n" * 101))

    def test_counts_of_definitions(self) -> None:
        count = pages.lines_of("Tree")
        self.assertGreater(count, 0)
        self.assertEqual([], list(pages.wrong_counts(f"{count} lines: `Tree`")))
        self.assertEqual([], list(pages.wrong_counts(f"{count} lines: `Tree` {count}")))
        self.assertEqual(1, len(list(pages.wrong_counts(f"{count + 1} lines: `Tree`"))))
        self.assertEqual(2, len(list(pages.wrong_counts(f"{count + 1} lines: `Tree` {count + 1}"))))

    def test_the_page_that_is_made(self) -> None:
        self.assertEqual([], pages.faults("docs/reference/CALLING.md", "just " * 50))
        self.assertEqual(1, len(pages.faults("docs/reference/CALLING.md", "[a](none.md)")))
