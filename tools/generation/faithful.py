"""What repeats for each number and tuple in the traits of what equal values mean, and of readable values."""
from generation.files import Files, Lines, pieces, source
from generation.numbers import SIGNED, UNSIGNED, USIZE
from generation.tuples import AT_ONCE, NAMES, nested, of, tuple_of

# the parameters of a tuple of each width
WIDTHS = [NAMES[:width] for width in range(1, AT_ONCE + 1)]


def implementation(parameters: str, trait: str, value: str, *ghosts: str) -> Lines:
    """One implementation, of a trait with only ghost members."""
    members = "\n\n".join(f"    ghost {ghost};" for ghost in ghosts)
    return pieces(f"impl{parameters} {trait} for {value} {{\n{members}\n}}")


def same(parameters: str, trait: str, value: str, sameness: str) -> Lines:
    """One implementation of `Faithful`, or of members."""
    return implementation(parameters, trait, value, f"sameness = {{ {sameness} }}", "respects = { Prim.assumption }")


def faithful_numbers() -> Lines:
    """Equal numbers mean the same tree."""
    found = []
    for number in [*UNSIGNED, USIZE]:
        most = f"(2 ^ {number.bits} - 1)"
        found += same("", "Faithful", number.name, f"plain_sameness nat_eq (unsigned_tree {most}) (unsigned_respects {most})")
    for number in SIGNED:
        fits = f"(fits_signed {number.bits})"
        found += same("", "Faithful", number.name, f"plain_sameness int_eq (int_tree {fits}) (int_respects {fits})")
    return found


def faithful_defaults() -> Lines:
    """Equal numbers are both a default, or neither is."""
    found = []
    for number in [*UNSIGNED, USIZE]:
        out = "(λ it. nat_eq it N)"
        found += same("<const N: u8>", f"FaithfulDefault<{number.name}>", "Number<N>", f"plain_default nat_eq {out} (number_alike {out})")
    for number in SIGNED:
        out = "(λ it. int_eq it N)"
        found += same("<const N: i8>", f"FaithfulDefault<{number.name}>", "SignedNumber<N>", f"plain_default int_eq {out} (int_alike {out})")
    return found


def faithful_members(names: str) -> Lines:
    """Equal members of a tuple mean the same trees."""
    heads = [f"member_then (λ it. it.{at}) {it}.sameness {it}.facts.eq {it}.prepend" for at, it in enumerate(names)]
    sameness = nested(heads, f"(members_at (λ it. it.{len(names)}) Z.sameness Z.facts.tests Z.members)")
    return same(of(names, "FaithfulMember", "FaithfulMembers"), "FaithfulMembers", tuple_of([*names, "Z"]), sameness)


def faithful_tuple(names: str) -> Lines:
    """Equal tuples mean the same tree."""
    heads = [f"element_then (λ it. it.{at}) {it}.sameness {it}.eq {it}.meaning" for at, it in enumerate(names)]
    sameness = f"tuple_sameness ({nested(heads, 'no_members')}) (λ it. it)"
    return same(of(names, "Faithful"), "Faithful", tuple_of(names), sameness)


def faithful() -> Lines:
    """The file of what equal numbers and tuples mean."""
    return [
        *source("Equal numbers and equal tuples mean the same tree."),
        "ghost use Rattle.std.specs.Prelude.{◌^◌, ◌-◌, nat_eq};",
        "ghost use Rattle.std.specs.Ordering.{int_eq};",
        "ghost use Rattle.picky_der_core.specs.Integer.{fits_signed, int_tree, unsigned_tree};",
        "ghost use Rattle.picky_der_de.specs.Faithful.{plain_sameness, unsigned_respects, int_respects, no_members};",
        "ghost use Rattle.picky_der_de.specs.Faithful.{element_then, member_then, members_at, tuple_sameness};",
        "ghost use Rattle.picky_der_de.specs.Faithful.{plain_default, number_alike, int_alike};",
        "",
        "use crate::{Faithful, FaithfulDefault, FaithfulMember, FaithfulMembers};",
        "use picky_der_ser::{Number, SignedNumber};",
        "",
        *faithful_numbers(),
        *faithful_defaults(),
        *[line for names in WIDTHS for line in [*faithful_members(names), *faithful_tuple(names)]],
    ]


def inhabited_numbers() -> Lines:
    """Zero is readable."""
    found = []
    for number in [*UNSIGNED, USIZE]:
        found += implementation("", "Inhabited", number.name, "example = { (0, tt) }")
    for number in SIGNED:
        found += implementation("", "Inhabited", number.name, f"example = {{ (pos 0, zero_readable (fits_signed {number.bits}) refl) }}")
    return found


def inhabited_tuples() -> Lines:
    """A tuple of readable values is readable."""
    found = []
    for names in WIDTHS:
        value = "record { 0 = A.example.0 }" if len(names) == 1 else tuple_of([f"{it}.example.0" for it in names])
        readable = "".join(f"({it}.example.1, " for it in names) + "tt" + ")" * len(names)
        found += implementation(of(names, "Inhabited"), "Inhabited", tuple_of(names), f"example = {{ ({value}, (tt, {readable})) }}")
    return found


def inhabited() -> Lines:
    """The file of readable numbers and tuples."""
    return [
        *source("Readable numbers and tuples."),
        "ghost use Rattle.std.specs.Prelude.{pos, refl};",
        "ghost use Rattle.picky_der_core.specs.Integer.{fits_signed};",
        "ghost use Rattle.picky_der_de.specs.Examples.{zero_readable};",
        "",
        "use crate::Inhabited;",
        "",
        *inhabited_numbers(),
        *inhabited_tuples(),
    ]


def files() -> Files:
    """The files of these traits."""
    folder = "crates/picky_der_de/src/generated"
    return {f"{folder}/faithful.rt": faithful(), f"{folder}/inhabited.rt": inhabited()}
