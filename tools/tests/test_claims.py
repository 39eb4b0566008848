"""What the claims of pages rest on: docs/reference/claims.txt."""
import unittest
from collections.abc import Iterator

from shared.crates import ROOT

KINDS = {"proved", "trusted", "tested", "measured"}


def claims() -> Iterator[list[str]]:
    """The five parts of each line."""
    for line in (ROOT / "docs/reference/claims.txt").read_text(encoding="utf-8").splitlines():
        if line and not line.startswith("#"):
            yield [it.strip() for it in line.split(" | ")]


def words_of(path: str) -> str:
    """The text of a file with one space for each space or line's end."""
    return " ".join((ROOT / path).read_text(encoding="utf-8").split())


class Claims(unittest.TestCase):
    def test_each_is_on_its_page_and_rests_on_what_is_there(self) -> None:
        for page, claim, kind, file, text in claims():
            with self.subTest(claim=claim):
                self.assertIn(claim, words_of(page))
                self.assertIn(kind, KINDS)
                self.assertIn(text, words_of(file))

    def test_no_claim_is_there_twice(self) -> None:
        found = [(page, claim) for page, claim, *_ in claims()]
        self.assertEqual(len(found), len(set(found)))
