"""When two values of a type of der_types whose content passes a test are equal, what a copy of one is, and how they are ordered."""
from string import Template

from generation.contents import FORMS
from generation.files import Files, Lines, proof, source
from generation.table import Content, contents

SOURCE = "crates/der_types/src/generated/equality.rt"
PROOF = "crates/der_types/proofs/generated/equality/content_equality/Answers.antt"


def derived() -> list[Content]:
    """The types whose `==` is derived for the content. The others have laws of their own."""
    return [row for row in contents() if not row.equality]


def content_of(row: Content, value: str) -> str:
    """The content of a value."""
    return Template(FORMS[row.form].content).substitute(it=value)


def clauses(rows: list[Content], claim: str) -> Lines:
    """A clause for each of these types: a claim of `$name` and `$part`, its content."""
    shown = [Template(claim).substitute(name=row.name, part=f"(λ it. {content_of(row, 'it')})") for row in rows]
    return [f"    ensures {row.module} {{ {it} }}" for row, it in zip(rows, shown)]


def law() -> Lines:
    """The laws of all such types, a clause each."""
    copied = [row for row in contents() if FORMS[row.form].copy]
    ordered = [row for row in contents() if row.order == "content"]
    return [
        *source("When two values of a type whose content passes a test are equal by `==`, what a copy is, and how they are ordered."),
        "ghost use Rattle.std.specs.Cmp.Lexicographic.{slice_cmp};",
        "ghost use Rattle.std.specs.Ordering.{nat_cmp};",
        "ghost use Rattle.picky_der_core.specs.Equality.{IsEqualityOf, IsKept, IsThatOf};",
        "",
        f"use crate::{{{', '.join(sorted({row.name for row in [*derived(), *copied, *ordered]}))}}};",
        "",
        "/// Two values are equal by `==` exactly if their contents are the same.",
        "pub fn content_equality()",
        *clauses(derived(), "IsEqualityOf ⟦<$name as PartialEq>⟧.eq $part"),
        "{}",
        "",
        "/// A copy has the same content.",
        "pub fn content_copies()",
        *clauses(copied, "IsKept ⟦<$name as Clone>⟧.is_clone $part"),
        "{}",
        "",
        "/// Values are ordered by the bytes of their contents, at the first index where these differ.",
        "pub fn content_orders()",
        *clauses(ordered, "IsThatOf ⟦<$name as Ord>⟧.cmp $part (slice_cmp nat_cmp)"),
        "{}",
    ]


def answers() -> Lines:
    """Bytes are equal by `==` exactly if they are the same."""
    goals = [
        line
        for row in derived()
        for line in (
            "",
            f"pub returns-clause-{row.module} : goal.returns-clause-{row.module}",
            f"returns-clause-{row.module} c x y = bytes_decides {content_of(row, 'x')} {content_of(row, 'y')}",
        )
    ]
    return [
        *proof(),
        "use Rattle.std.specs.Cmp.Lexicographic.{bytes_decides}",
        "use Rattle.der_types.proofs.generated.equality.content_equality.Goals as goal",
        *goals,
    ]


def files() -> Files:
    """The law and its proof."""
    return {SOURCE: law(), PROOF: answers()}
