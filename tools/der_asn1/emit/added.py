"""Members that an extension added: a struct that is no type of its own, but the end of another one's members."""
from ..meaning.declarations import AddedDeclaration
from .imports import PRELUDE, Uses
from .layout import GHOST_WIDTH, STEP, signature
from .private_names import PrivateNames
from .struct import REFERENCES, called, definition, last_impl, last_reference, member_reference, member_type, member_types, struct_impl, tuple_names, whole

_TWO = STEP * 2
# how the sequence is called that is written, and the one that is read
_WRITTEN, _READ = "picky_asn1_der::ser::Sequence<'_, W>", "picky_asn1_der::de::Sequence<'_, R>"

_TERMS = {
    PRELUDE: {"refl"},
    "Rattle.picky_der_de.specs.MembersFacts": {"members_facts"},
    "Rattle.picky_der_de.specs.Faithful": {"members_at"},
    "Rattle.der_types.specs.ExactAdded": {"fields_values"},
}
_NAMES = """ReadExt WriteExt AddedMembers DeserializeMembers Result SerializeMembers Struct deserialize_members_as NotatedMembers ExactMembers
FaithfulMembers""".split()


def added_uses(declared: AddedDeclaration) -> Uses:
    """What the items of added members name."""
    used = {*_NAMES, *(name for it in declared.parts() for name in member_type(it).names())}
    references = {member_reference(it).partition("(")[0].partition("::")[0] for it in declared.fields}
    used |= references & {"OptionalRef", "DefaultedRef"}
    used |= {"Sequence"} if len(declared.fields) > REFERENCES else set()
    return Uses(used, terms=_TERMS)


def added_lines(declared: AddedDeclaration, names: PrivateNames) -> list[str]:
    """The items of added members."""
    members = tuple_names(declared, names)[0]
    more = [notated_impl(declared, members), exact_impl(declared, members), faithful_impl(declared, members)]
    return [*definition(declared), "", *added_impls(declared, names), *(line for it in more for line in ["", *it])]


def added_impls(declared: AddedDeclaration, names: PrivateNames) -> list[str]:
    """What all added members have, but for their definition."""
    tuples = tuple_names(declared, names)
    members = tuples[0]
    return [
        *member_types(declared, tuples),
        *struct_impl(declared, members),
        "",
        *serialize_impl(declared, members, names),
        "",
        *last_impl(declared, tuples, names),
        *deserialize_impl(declared, members),
        "",
        f"impl AddedMembers for {declared.name} {{",
        f"{STEP}ghost present = {{ refl }};",
        "}",
    ]


def serialize_impl(declared: AddedDeclaration, members: str, names: PrivateNames) -> list[str]:
    """The implementation of `SerializeMembers`."""
    rest = f"{names.of(declared, 'Last')}(self)" if len(declared.fields) > REFERENCES else last_reference(declared, "self")
    items = [*(member_reference(it) for it in declared.fields[:REFERENCES]), rest]
    return [
        f"impl SerializeMembers for {declared.name} {{",
        f"{STEP}ghost members = {{ λ it. ⟦<{members} as SerializeMembers>⟧.members (⟦<Self as Struct>⟧.parts it) }};",
        "",
        *signature(STEP, "serialize_members", ["&self", f"sequence: &mut {_WRITTEN}"], "Result<()>", "<W: WriteExt>"),
        *called(items, "serialize_members", "sequence"),
        f"{STEP}}}",
        "}",
    ]


def deserialize_impl(declared: AddedDeclaration, members: str) -> list[str]:
    """The implementation of `DeserializeMembers`."""
    facts = ["members_facts ⟦<Self as Struct>⟧.parts", f"⟦<{members} as DeserializeMembers>⟧.facts", f"⟦<{members} as SerializeMembers>⟧.members"]
    return [
        f"impl DeserializeMembers for {declared.name} {{",
        f"{STEP}ghost layout = {{ ⟦<{members} as DeserializeMembers>⟧.layout }};",
        "",
        *ghost("facts", facts),
        "",
        *signature(STEP, "deserialize_members", [f"sequence: &mut {_READ}"], f"Result<{declared.name}>", "<R: ReadExt>"),
        f"{_TWO}deserialize_members_as(sequence)",
        f"{STEP}}}",
        "",
        f"{STEP}ghost proved = {{ Prim.assumption }};",
        "}",
    ]


def notated_impl(declared: AddedDeclaration, members: str) -> list[str]:
    """The implementation of `NotatedMembers`."""
    return [
        f"impl NotatedMembers for {declared.name} {{",
        f"{STEP}ghost members_notation = {{ ⟦<{members} as NotatedMembers>⟧.members_notation }};",
        "",
        f"{STEP}ghost denoted_layout = {{ refl }};",
        "}",
    ]


def exact_impl(declared: AddedDeclaration, members: str) -> list[str]:
    """The implementation of `ExactMembers`: each value of the tuples is that of a struct."""
    return [
        f"impl ExactMembers for {declared.name} {{",
        f"{STEP}ghost all_values = {{ fields_values ⟦<{members} as ExactMembers>⟧.all_values",
        f"{_TWO}⟦<{members} as NotatedMembers>⟧.members_notation ⟦<{members} as SerializeMembers>⟧.members ⟦<Self as Struct>⟧.parts",
        *whole(declared),
        "",
        f"{STEP}ghost exact_members = {{ Prim.assumption }};",
        "}",
    ]


def faithful_impl(declared: AddedDeclaration, members: str) -> list[str]:
    """The implementation of `FaithfulMembers`."""
    words = ["members_at ⟦<Self as Struct>⟧.parts", f"⟦<{members} as FaithfulMembers>⟧.sameness"]
    words += [f"⟦<{members} as DeserializeMembers>⟧.facts.tests", f"⟦<{members} as SerializeMembers>⟧.members"]
    return [
        f"impl FaithfulMembers for {declared.name} {{",
        *ghost("sameness", words),
        "",
        f"{STEP}ghost respects = {{ Prim.assumption }};",
        "}",
    ]


def ghost(name: str, words: list[str]) -> list[str]:
    """A ghost item, on one line if that fits, or with each of these words but the first two on a line of its own."""
    line = f"{STEP}ghost {name} = {{ {' '.join(words)} }};"
    if len(line) <= GHOST_WIDTH:
        return [line]
    return [f"{STEP}ghost {name} = {{ {' '.join(words[:2])}", *(f"{_TWO}{it}" for it in words[2:-1]), f"{_TWO}{words[-1]} }};"]
