"""Which types have exactly the values of their ASN.1 types."""
import re
import unittest
from collections.abc import Iterable
from pathlib import Path

from shared import crates
from shared import rattle_source as source

# the crates with the types of the library, beside those that are written from modules
LIBRARY = ("picky_der_core", "picky_der_ser", "picky_der_de", "picky_asn1_der", "der_types", "der_elements")
# what is read like a type, and is none of ASN.1: a member that may be absent
NO_TYPES = {"Option"}
# an implementation of one of these traits
IMPLEMENTATION = re.compile(r"^impl\b[^{;]*?\b(?:Deserialize|Notated\w*|Exact\w*)\s+for\s(?:[^{;\[]|\[[^\]]*\])*(?=\{)", re.MULTILINE)
# what the compiler writes of small modules
GOLDEN = crates.ROOT / "tools" / "der_asn1" / "tests" / "golden"


def files_of(names: Iterable[str]) -> list[Path]:
    """The files of the source of these crates."""
    return [path for name in names for path in (crates.folder_of(name) / "src").rglob("*.rt")]


def implementations(files: Iterable[Path]) -> set[str]:
    """Those in these files, as the checker names them: a type with its trait."""
    return {source.block_of(" ".join(it.split())) for path in files for it in IMPLEMENTATION.findall(path.read_text(encoding="utf-8"))}


def having(found: set[str], trait: str) -> set[str]:
    """The types that have a trait by one of these."""
    return {it.removesuffix(trait) for it in found if it.endswith(trait)}


class ExactTypes(unittest.TestCase):
    def test_each_type_of_the_library_is_exact(self) -> None:
        found = implementations(files_of([*LIBRARY, *(it for it in crates.generated() if it in crates.uses())]))
        self.assertEqual(NO_TYPES, having(found, "Deserialize") - having(found, "Exact"))

    def test_each_type_that_the_compiler_writes_is_exact(self) -> None:
        for path in sorted(GOLDEN.glob("*.crate")):
            with self.subTest(path.stem):
                found = implementations([path])
                self.assertEqual(having(found, "Deserialize"), having(found, "Exact"))

    def test_each_type_with_a_notation_is_exact(self) -> None:
        found = implementations(files_of(crates.uses()))
        for part in ("", "Member", "Members", "Alternatives"):
            with self.subTest(part):
                notated = having(found, f"Notated{part}")
                self.assertTrue(notated)
                self.assertEqual(set(), notated - having(found, f"Exact{part}"))
