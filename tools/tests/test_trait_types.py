"""Of which types der_type_rows names the traits."""
import re
import unittest

from shared import crates

# a type of values; a type without a derive is the name of something
TYPE = re.compile(r"^#\[derive\(.*\)\]\npub (?:struct|enum) (\w+)", re.MULTILINE)
NAMES = crates.folder_of("der_type_rows") / "src" / "traits"


class TraitTypes(unittest.TestCase):
    def test_each_type_of_a_module_is_named(self) -> None:
        compiled = [it for it in crates.generated() if it in crates.uses()]
        self.assertIn("der_kerberos", compiled)
        for name in compiled:
            with self.subTest(name):
                texts = [it.read_text(encoding="utf-8") for it in (crates.folder_of(name) / "src").rglob("*.rt")]
                types = {it for text in texts for it in TYPE.findall(text)}
                named = (NAMES / f"{name.removeprefix('der_')}.rt").read_text(encoding="utf-8").partition("pub(super) fn all")[2]
                self.assertEqual(set(), types - set(re.findall(r"\w+", named)))


if __name__ == "__main__":
    unittest.main()
