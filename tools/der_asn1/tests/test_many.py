"""Types of so many alternatives that the checker's own term of what they say of their values is refused."""
import unittest

from .test_tried import files_of

MANY = "specs/ManyAlternatives.antt"


def numbered(count: int, more: str = "") -> str:
    """A CHOICE of so many alternatives, which are lists of a size."""
    alternatives = ", ".join(f"a{it} [{it}] SEQUENCE SIZE (1..MAX) OF NULL" for it in range(count))
    return f"T ::= CHOICE {{ {alternatives}{more} }}"


def values_of(files: dict[str, str]) -> list[str]:
    """The lines of what `T` says of its values, up to the first of its variants."""
    lines = files["src/types.rt"].split("\n")
    begin = next(at for at, it in enumerate(lines) if it == "impl Exact for T {")
    own = [it for it in lines[begin:] if it]
    first = next(at for at, it in enumerate(own) if it.startswith("    ghost values"))
    last = next(at for at, it in enumerate(own) if it.strip().startswith("(elim ["))
    return own[first:last]


class ManyAlternatives(unittest.TestCase):
    def test_few_are_in_one_term(self):
        for body in (numbered(11, ", ..."), numbered(30)):
            files = files_of(body)
            self.assertNotIn(MANY, files)
            self.assertIn("⟦<TParts as ExactAlternatives>⟧.chosen_values", values_of(files)[0])

    def test_many_are_named_one_by_one(self):
        files = files_of(numbered(12, ", ..."))
        self.assertIn("pub mod ManyAlternatives\n", files["specs/Lib.antt"])
        self.assertIn("ghost use Rattle.it.specs.ManyAlternatives.{four_values, next_values};", files["src/types.rt"])
        found = values_of(files)
        self.assertEqual("    ghost values = { element_values", found[0])
        self.assertEqual(3, sum(it.startswith("        (four_values ⟦<TPart") for it in found))
        self.assertIn("        (next_values ⟦<Encoded<TLater> as Exact>⟧.values", found)
        self.assertIn("        ⟦<NoneOf as ExactAlternatives>⟧.chosen_values))))", found)

    def test_a_choice_without_later_alternatives(self):
        files = files_of(numbered(31))
        self.assertIn(MANY, files)
        found = values_of(files)
        self.assertEqual("    ghost values = { choice_values", found[0])
        self.assertEqual([7, 3], [sum(it.startswith(f"        ({name} ") for it in found) for name in ("four_values", "next_values")])

    def test_a_term_quotes_no_block(self):
        text = files_of(numbered(12, ", ..."))["src/types.rt"]
        self.assertIn("\ntype TPart1 = Encoded<ExplicitContextTag0<WithSize<Vec<()>, 1, { usize::MAX }>>>;\n", text)
        self.assertEqual([], [it for it in text.split("\n") if "⟦<" in it and "usize::MAX" in it])


if __name__ == "__main__":
    unittest.main()
