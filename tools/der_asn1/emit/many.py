"""What many alternatives say of their values, as a term of what each type says.

The checker passes an implementation for each bound of each type in a term such as `⟦<Parts as ExactAlternatives>⟧`, and for the bounds of that
one. The number grows as the third power of the alternatives, and may be 16,384 at most. This term names an implementation of each type alone.
"""
from collections.abc import Sequence

from ..meaning.declarations import ChoiceDeclaration, Declaration, UnionDeclaration
from ..meaning.library import FOUR
from ..meaning.rust_types import RustType
from .imports import Uses
from .layout import GHOST_WIDTH, STEP, type_lines
from .private_names import PrivateNames

# the file of the terms that build it up, which a crate has that needs them
MANY_FILE = "ManyAlternatives"
# how many alternatives the checker's own term may have: of values with their elements, and of others
_MOST_ELEMENTS, _MOST_OTHERS = 12, 30
_NEXT, _FOUR = "next_values", "four_values"
_INDENT = STEP * 2

_TERMS = """
-- What many alternatives say of their values, by what each type says of its own.
use Rattle.picky_der_de.specs.declared.alternatives.OneOf.{OneOf}
use Rattle.picky_der_de.specs.declared.choice4.Choice4.{Choice4}
use Rattle.picky_der_de.specs.FourChoices.{one_by_one}
use Rattle.der_types.specs.Exact.{Values}
use Rattle.der_types.specs.ExactChoices.{ChoiceValues, this_or_other_values, choice_as}
use Rattle.der_types.specs.ExactFourChoices.{one_of_four}

-- an alternative and those after it
abbrev pub next_values : {A B : Type 0} → Values A → ChoiceValues B → ChoiceValues (OneOf A B)
next_values a b = this_or_other_values a a.notation a.meaning b b.notation b.chosen

-- four alternatives and those after them
abbrev pub four_values : {A B C D E : Type 0} → Values A → Values B → Values C → Values D → ChoiceValues E
    → ChoiceValues (Choice4 A B C D E)
four_values a b c d e =
    choice_as (next_values a (next_values b (next_values c (next_values d e)))) one_by_one one_of_four
"""


def has_many(declared: Declaration) -> bool:
    """Whether a type has too many alternatives for the checker's own term."""
    if isinstance(declared, UnionDeclaration):
        return len(declared.variants) > _MOST_ELEMENTS
    return isinstance(declared, ChoiceDeclaration) and len(declared.variants) > _MOST_OTHERS


def many_terms() -> list[str]:
    """The lines of the file of terms, after its first one."""
    return _TERMS.strip("\n").split("\n")


def many_uses(declared: Declaration, crate: str) -> Uses:
    """What the term of a type with many alternatives names."""
    if not has_many(declared):
        return Uses()
    words = {_FOUR, *([_NEXT] if len(declared.variants) % FOUR else [])}
    return Uses(terms={f"Rattle.{crate}.specs.{MANY_FILE}": words})


class Quoted:
    """The types of alternatives as a term may quote them. One with a block, as `{ usize::MAX }`, has a name of its own for that."""

    def __init__(self, types: Sequence[RustType], declared: Declaration, names: PrivateNames) -> None:
        self.types, self.lines = [], []
        for number, it in enumerate(map(str, types), 1):
            if "{" in it and has_many(declared):
                name = names.of(declared, f"Part{number}")
                self.lines += type_lines("", f"type {name} = ", it, ";")
                it = name
            self.types.append(it)


def many_lines(types: Sequence[str], end: str) -> list[str]:
    """The lines of the term for alternatives of these types, after which is this end: four at a time, and the last three one by one."""
    fours = len(types) // FOUR * FOUR
    groups = [types[at : at + FOUR] for at in range(0, fours, FOUR)] + [[it] for it in types[fours:]]
    lines = [line for it in groups for line in _group_lines(it)]
    return [*lines, f"{_INDENT}⟦<{end} as ExactAlternatives>⟧.chosen_values{')' * len(groups)}"]


def _group_lines(types: Sequence[str]) -> list[str]:
    """The lines of some alternatives, without those after them."""
    lines, now = [], f"{_INDENT}({_FOUR if len(types) == FOUR else _NEXT}"
    for it in types:
        word = f"⟦<{it} as Exact>⟧.values"
        if len(f"{now} {word}") > GHOST_WIDTH and now.strip():
            lines.append(now)
            now = f"{_INDENT}{word}"
        else:
            now = f"{now} {word}"
    return [*lines, now]
