"""The proofs about elements of which several types are tried."""
import unittest

from .. import command
from ..parse.modules import read_text
from ..parse.source import Problems
from . import module_text

ANSWERS = """use Rattle.std.proofs.Common.{refl, inr}
use Rattle.it.specs.declared.types.T.TheVariants as variants
use Rattle.it.proofs.elements.Reasons.{where_none}
use Rattle.it.proofs.types.TTryVia.try_from_parts.Goals as goal

pub returns-clause-err : goal.returns-clause-err
returns-clause-err c = inr (
  refl,
  elim [
    | variants.A x ↦ where_none c.in_ok-it.field-0 c.in_default.is c.in_ok-it.ensures.none x
    | variants.Later x ↦ where_none c.in_ok-it-2.field-0 c.in_default-2.is c.in_ok-it-2.ensures.none x
  ],
)
"""


def files_of(body: str) -> dict[str, str]:
    """The files of the crate of a module, without their first lines."""
    modules = read_text(module_text(body), "m.asn1", Problems())
    crate = command.crate_of("it", modules, [], [], Problems())
    return {path: text.partition("\n")[2] for path, text in crate.files().items()}


class Tried(unittest.TestCase):
    def test_each_alternative_is_a_call_that_found_none(self):
        self.assertEqual(ANSWERS, files_of("T ::= CHOICE { a [0] NULL, ... }")["proofs/types/TTryVia/try_from_parts/Answers.antt"])

    def test_the_first_byte_of_a_later_alternative(self):
        text = files_of("T ::= CHOICE { a [0] NULL, ... }")["proofs/types/is_t_later/Answers.antt"]
        self.assertIn("use Rattle.it.proofs.types.is_t_later.Goals as goal\n\npub returns-in-Some : goal.returns-in-Some\n", text)

    def test_the_lemmas_are_there_once(self):
        found = files_of("T ::= CHOICE { a [0] NULL, ... }\nU ::= CHOICE { b [1] NULL, ... }")
        wanted = ["proofs/elements.antt", "proofs/elements/Reasons.antt", "proofs/elements/encoded_if/Answers.antt"]
        self.assertEqual(wanted, [it for it in found if it.startswith("proofs/elements")])
        self.assertEqual("pub mod Reasons\n", found["proofs/elements.antt"])

    def test_a_choice_needs_none(self):
        self.assertEqual([], [it for it in files_of("T ::= CHOICE { a [0] NULL }") if it.startswith("proofs/elements")])


if __name__ == "__main__":
    unittest.main()
