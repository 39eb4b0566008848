"""A struct, in the form of docs/YOUR_TYPES.md."""
from ..meaning.declarations import AddedDeclaration, Field, Generics, StructDeclaration
from ..meaning.rust_types import RustType, of
from ..parse.tree import Presence
from .comments import default_note, difference_note, sentence
from .imports import PRELUDE, Uses
from .layout import GHOST_WIDTH, STEP, STRUCT_LITERAL_WIDTH, TUPLE_WIDTH, WIDTH, assigned, comment, signature, tuple_lines
from .private_names import PrivateNames

CHUNK = 8  # members of one tuple of types
REFERENCES = 16  # members of one tuple of references
# the field of a member that holds its value, if that isn't the member
PART_NAMES = {Presence.OPTIONAL: "0", Presence.DEFAULT: "value"}
_TWO = STEP * 2
_THREE = STEP * 3
_LIFETIME, _ANY_LIFETIME = "'a", "'_"

_TERMS = {
    PRELUDE: {"refl"},
    "Rattle.picky_der_de.specs.MembersFacts": {"struct_facts", "sequence_of", "sequence_shape"},
    "Rattle.der_types.specs.Notation": {"Notation"},
    "Rattle.der_types.specs.ExactMembers": {"struct_values"},
}
_NAMES = """ReadExt WriteExt Deserialize DeserializeMembers Deserializer Result Serialize SerializeMembers Serializer Struct
deserialize_struct_as Begins Tag List Notated NotatedMembers Exact ExactMembers""".split()


def chunks(items: list[Field]) -> list[list[Field]]:
    """The members in tuples of eight. A struct of members of later versions alone has one tuple, of none."""
    return [items[it : it + CHUNK] for it in range(0, len(items), CHUNK)] or [[]]


def tuple_names(declared: StructDeclaration, names: PrivateNames) -> list[str]:
    """The tuples of types: their names, with the parameters that they have."""
    count = len(chunks(declared.fields))
    found = [names.of(declared, f"Parts{number}" if number > 1 else "Parts") for number in range(1, count + 1)]
    return [f"{it}{used_from(declared, index * CHUNK).arguments()}" for index, it in enumerate(found)]


def used_from(declared: StructDeclaration, first: int) -> Generics:
    """The parameters that the members from this one on have."""
    types = [*declared.fields[first:], *([declared.later] if declared.later else [])]
    return declared.generics.used_in(set().union(*(it.type.words() for it in types)))


def variable_names(declared: StructDeclaration) -> list[str]:
    """The names of the variables of the tuples after the first, which aren't those of members."""
    count = len(chunks(declared.fields))
    found = ["others", "last"][: count - 1] if count <= 3 else [f"from_{it * CHUNK + 1}" for it in range(1, count)]
    taken = {it.name for it in declared.parts()}
    return [f"{it}_members" if it in taken else it for it in found]


def member_type(it: Field) -> RustType:
    """A member in the tuple of types."""
    if it.is_element:
        return of("Element", it.type)
    if it.presence is Presence.OPTIONAL:
        return of("Optional", it.type)
    return of("Defaulted", it.type, it.default) if it.presence is Presence.DEFAULT else it.type


def member_part(it: Field, before: str = "it") -> str:
    """A member in `parts`."""
    if it.is_element or it.presence is Presence.OPTIONAL:
        return f"record {{ 0 = {before}.{it.name} }}"
    if it.presence is Presence.DEFAULT:
        return f"record {{ value = {before}.{it.name}; default = record {{}} }}"
    return f"{before}.{it.name}"


def member_reference(it: Field, before: str = "self") -> str:
    """A member in the tuple of references."""
    if it.presence is Presence.OPTIONAL:
        return f"OptionalRef(&{before}.{it.name})"
    if it.presence is Presence.DEFAULT:
        return f"DefaultedRef::<{it.type}, {it.default}>::new(&{before}.{it.name})"
    return f"&{before}.{it.name}"


def struct_uses(declared: StructDeclaration) -> Uses:
    """What the items of a struct name."""
    used = {*_NAMES, *(name for it in declared.parts() for name in member_type(it).names())}
    presences = {it.presence for it in declared.fields}
    used |= {"OptionalRef"} if Presence.OPTIONAL in presences else set()
    used |= {"DefaultedRef"} if Presence.DEFAULT in presences else set()
    used |= {"Sequence"} if len(declared.fields) > REFERENCES else set()
    used |= {"TagOrdered"} if declared.is_set else set()
    return Uses(used, terms=_TERMS)


def struct_lines(declared: StructDeclaration, names: PrivateNames) -> list[str]:
    """The items of a struct."""
    members = tuple_names(declared, names)[0]
    more = [struct_impls(declared, names), notated_impl(declared, members), exact_impl(declared, members)]
    return [*definition(declared), *(line for it in more for line in ["", *it])]


def struct_impls(declared: StructDeclaration, names: PrivateNames) -> list[str]:
    """What each struct has, but for its definition."""
    tuples = tuple_names(declared, names)
    return [
        *member_types(declared, tuples),
        *struct_impl(declared, tuples[0]),
        "",
        *serialize_impl(declared, tuples[0], names),
        "",
        *last_impl(declared, tuples, names),
        *deserialize_impl(declared, tuples[0]),
        "",
        *begins_impl(declared),
    ]


def definition(declared: StructDeclaration) -> list[str]:
    """The struct with its comments: the module's comments, and the notation of each member."""
    form = "the members of a SET in the order of their tags" if declared.is_set else "a SEQUENCE"
    lines = comment("", "///", f"{sentence(declared.comment)} `{declared.source}` of {declared.module}, as {form}.")
    if isinstance(declared, AddedDeclaration):
        lines = comment("", "///", f"The members that an extension added to `{declared.source}` of {declared.module}, and all members after them.")
    lines += difference_note(declared)
    lines += ["#[derive(Debug, Drop, PartialEq, Eq)]", f"pub struct {declared.name} {{"]
    for it in declared.parts():
        type_ = of("Option", it.type) if it.presence is Presence.OPTIONAL else it.type
        lines += comment(STEP, "///", f"{sentence(it.comment)} `{it.notation}`{default_note(it)}.")
        lines += assigned(STEP, f"pub {it.name}:", str(type_), ",")
    return [*lines, "}"]


def member_types(declared: StructDeclaration, names: list[str]) -> list[str]:
    """The tuples of types, which have these names."""
    parts, lines = chunks(declared.fields), []
    for index, (name, part) in enumerate(zip(names, parts)):
        rest = names[index + 1] if index + 1 < len(names) else str(declared.later.type) if declared.later else "()"
        items = [*(str(member_type(it)) for it in part), rest]
        head = f"type {name.partition('<')[0]}{used_from(declared, index * CHUNK).without_bounds()} = "
        lines += [*tuple_lines("", head, items, ";"), ""]
    return lines


def struct_impl(declared: StructDeclaration, members: str) -> list[str]:
    """The implementation of `Struct`."""
    return [
        f"impl{declared.generics.declared('Deserialize')} Struct for {declared.shown} {{",
        f"{STEP}type Members = {members};",
        "",
        *ghost_tuple(f"{STEP}ghost parts = {{ λ it. ", chunks(declared.fields), " };", "it", last_part(declared, "it")),
        "",
        *signature(STEP, "from_parts", [f"members: {members}"], declared.shown),
        *bindings(declared),
        *struct_literal(declared),
        f"{STEP}}}",
        "}",
    ]


def last_part(declared: StructDeclaration, value: str) -> str:
    """What comes after the last member in a term of the members."""
    return f"{value}.{declared.later.name}" if declared.later else "tt"


def ghost_tuple(before: str, parts: list[list[Field]], after: str, value: str, last: str) -> list[str]:
    """The members as a term: nested tuples, each on one line if that fits."""
    items = [member_part(it, value) for it in parts[0]]
    rest = nested(parts[1:], value, last)
    line = f"{before}({', '.join([*items, rest])}){after}" if items else f"{before}{rest}{after}"
    if len(line) <= GHOST_WIDTH:
        return [line]
    indent = " " * (len(before) - len(before.lstrip()) + 2)
    lines = [f"{before}(", *(f"{indent}{it}," for it in items)]
    if len(parts) == 1 or len(f"{indent}{rest},") <= GHOST_WIDTH:
        lines.append(f"{indent}{rest},")
    else:
        lines += ghost_tuple(indent, parts[1:], ",", value, last)
    return [*lines, f"{indent[2:]}){after}"]


def nested(parts: list[list[Field]], value: str, last: str) -> str:
    """Tuples of members as a term on one line."""
    if not parts:
        return last
    return f"({', '.join([*(member_part(it, value) for it in parts[0]), nested(parts[1:], value, last)])})"


def bindings(declared: StructDeclaration) -> list[str]:
    """The lines that take the members out of the tuples."""
    names, lines, source = variable_names(declared), [], "members"
    for index, part in enumerate(chunks(declared.fields)):
        rest = names[index] if index < len(names) else declared.later.name if declared.later else "()"
        lines += binding([*map(bound, part), rest], source)
        source = rest
    return lines


def bound(it: Field) -> str:
    """A member where its tuple is taken apart."""
    if it.is_element:
        return f"Element({it.name})"
    return f"Optional({it.name})" if it.presence is Presence.OPTIONAL else it.name


def binding(items: list[str], source: str) -> list[str]:
    """One tuple that is taken apart."""
    pattern = f"{_TWO}let ({', '.join(items)}) =" if len(items) > 1 else f"{_TWO}let {items[0]} ="
    if len(f"{pattern} {source};") <= WIDTH:
        return [f"{pattern} {source};"]
    if len(pattern) <= WIDTH:
        return [pattern, f"{_THREE}{source};"]
    return [f"{_TWO}let (", *(f"{_THREE}{it}," for it in items), f"{_TWO}) = {source};"]


def struct_literal(declared: StructDeclaration) -> list[str]:
    """The value of the struct."""
    items = [f"{it.name}: {it.name}.value" if it.presence is Presence.DEFAULT else it.name for it in declared.parts()]
    if len(", ".join(items)) <= STRUCT_LITERAL_WIDTH:
        return [f"{_TWO}{declared.name} {{ {', '.join(items)} }}"]
    return [f"{_TWO}{declared.name} {{", *(f"{_THREE}{it}," for it in items), f"{_TWO}}}"]


def serialize_impl(declared: StructDeclaration, members: str, names: PrivateNames) -> list[str]:
    """The implementation of `Serialize`."""
    rest = f"{names.of(declared, 'Last')}(self)" if len(declared.fields) > REFERENCES else last_reference(declared, "self")
    items = [*(member_reference(it) for it in declared.fields[:REFERENCES]), rest]
    parameters = ["&self", "serializer: &mut Serializer<W>"]
    return [
        f"impl{declared.generics.declared('Serialize')} Serialize for {declared.shown} {{",
        *meaning(declared, members),
        "",
        *signature(STEP, "serialize", parameters, "Result<usize>", "<W: WriteExt>"),
        *called(items, "serialize_sequence", "serializer"),
        f"{STEP}}}",
        "}",
    ]


def meaning(declared: StructDeclaration, members: str) -> list[str]:
    """The meaning of a value. A struct with parameters has its parts only where these can be read, so they are spelled out."""
    start = f"{STEP}ghost meaning = {{ sequence_of ⟦<{members} as SerializeMembers>⟧.members"
    if not declared.generics.parameters:
        return [f"{start} ⟦<Self as Struct>⟧.parts }};"]
    parts = ghost_tuple(f"{_TWO}(λ it. ", chunks(declared.fields), ") };", "it", last_part(declared, "it"))
    return [f"{start} {parts[0].strip()}"] if len(parts) == 1 and len(f"{start} {parts[0].strip()}") <= GHOST_WIDTH else [start, *parts]


def last_reference(declared: StructDeclaration, before: str) -> str:
    """What comes after the last member in a tuple of references."""
    return f"&{before}.{declared.later.name}" if declared.later else "()"


def called(items: list[str], method: str, argument: str) -> list[str]:
    """A call of a tuple's method: broken at the argument if the tuple is short enough for one line, or else after the tuple."""
    inner = ", ".join(items)
    if len(items) == 1:
        return [f"{_TWO}{items[0].removeprefix('&')}.{method}({argument})"]
    lines = tuple_lines(_TWO, "", items, f".{method}({argument})")
    if len(lines) == 1:
        return lines
    if len(inner) <= TUPLE_WIDTH:
        return [f"{_TWO}({inner}).{method}(", f"{_THREE}{argument},", f"{_TWO})"]
    return [*lines[:-1], f"{_TWO})", f"{_THREE}.{method}({argument})"]


def last_impl(declared: StructDeclaration, tuples: list[str], names: PrivateNames) -> list[str]:
    """The struct that refers to the members after the sixteenth, if there are any."""
    if len(declared.fields) <= REFERENCES:
        return []
    rest, name, generics = declared.fields[REFERENCES:], names.of(declared, "Last"), declared.generics
    before = f"{STEP}ghost members = {{ λ it. ⟦<{tuples[2]} as SerializeMembers>⟧.members "
    return [
        "// The members after the sixteenth field.",
        "#[derive(Drop)]",
        f"struct {name}{generics.declared(first=(_LIFETIME,))}(&'a {declared.shown});",
        "",
        f"impl{generics.declared('Serialize')} SerializeMembers for {name}{generics.arguments(first=(_ANY_LIFETIME,))} {{",
        *ghost_tuple(before, chunks(rest), " };", "it.0.now", last_part(declared, "it.0.now")),
        "",
        f"{STEP}fn serialize_members<W: WriteExt>(&self, sequence: &mut Sequence<'_, W>) -> Result<()> {{",
        *called([*(member_reference(it, "self.0") for it in rest), last_reference(declared, "self.0")], "serialize_members", "sequence"),
        f"{STEP}}}",
        "}",
        "",
    ]


def deserialize_impl(declared: StructDeclaration, members: str) -> list[str]:
    """The implementation of `Deserialize`."""
    facts = f"struct_facts ⟦<{members} as DeserializeMembers>⟧.facts refl ⟦<Self as Struct>⟧.parts"
    return [
        f"impl{declared.generics.declared('Deserialize')} Deserialize for {declared.shown} {{",
        f"{STEP}ghost shape = {{ sequence_shape ⟦<{members} as DeserializeMembers>⟧.layout }};",
        "",
        f"{STEP}ghost facts = {{ {facts} }};",
        "",
        *signature(STEP, "deserialize", ["deserializer: &mut Deserializer<R>"], f"Result<{declared.shown}>", "<R: ReadExt>"),
        f"{_TWO}deserialize_struct_as(deserializer)",
        f"{STEP}}}",
        "",
        f"{STEP}ghost proved = {{ Prim.assumption }};",
        "}",
    ]


def notated_impl(declared: StructDeclaration, members: str) -> list[str]:
    """The implementation of `Notated`: a SEQUENCE of what the members are."""
    return [
        f"impl{declared.generics.declared('Notated')} Notated for {declared.shown} {{",
        f"{STEP}ghost notation = {{ Notation.sequence ⟦<{members} as NotatedMembers>⟧.members_notation }};",
        "",
        f"{STEP}ghost denoted = {{ refl }};",
        "}",
    ]


def exact_impl(declared: StructDeclaration, members: str) -> list[str]:
    """The implementation of `Exact`: its members are exact, and each value of the tuples is that of a struct."""
    return [
        f"impl{declared.generics.declared('Exact')} Exact for {declared.shown} {{",
        f"{STEP}ghost values = {{ struct_values ⟦<{members} as ExactMembers>⟧.all_values ⟦<{members} as NotatedMembers>⟧.members_notation",
        f"{_TWO}⟦<{members} as SerializeMembers>⟧.members ⟦<Self as Struct>⟧.parts",
        *whole(declared),
        "",
        f"{STEP}ghost exact = {{ Prim.assumption }};",
        "}",
    ]


def whole(declared: StructDeclaration) -> list[str]:
    """The term of the struct that has these members, on one line if that fits."""
    items = [f"{it.name} = {member_value(it, path)}" for it, path in zip(declared.fields, member_paths(declared))]
    items += [f"{declared.later.name} = {after_last(declared)}"] if declared.later else []
    line = f"{_TWO}(λ m. (record {{ {'; '.join(items)} }}, refl {{a = m}})) }};"
    if len(line) <= GHOST_WIDTH:
        return [line]
    record = [f"{_TWO}  record {{", *(f"{_TWO}    {it};" for it in items), f"{_TWO}  }},"]
    return [f"{_TWO}(λ m. (", *record, f"{_TWO}  refl {{a = m}},", f"{_TWO})) }};"]


def member_paths(declared: StructDeclaration) -> list[str]:
    """Where each member is in the tuples."""
    return [f"m{f'.{CHUNK}' * (at // CHUNK)}.{at % CHUNK}" for at in range(len(declared.fields))]


def after_last(declared: StructDeclaration) -> str:
    """Where what comes after the last member is in the tuples."""
    tuples = chunks(declared.fields)
    return f"m{f'.{CHUNK}' * (len(tuples) - 1)}.{len(tuples[-1])}" if declared.fields else "m"


def member_value(it: Field, path: str) -> str:
    """The field of a member that is there in the tuples."""
    if it.is_element:
        return f"{path}.0"
    return f"{path}.{PART_NAMES[it.presence]}" if it.presence in PART_NAMES else path


def begins_impl(declared: StructDeclaration) -> list[str]:
    """What a struct needs to be a member that may be absent, an alternative, or under another tag."""
    lines = [
        f"impl{declared.generics.declared('Deserialize')} Begins for {declared.shown} {{",
        f"{STEP}fn begins_with(tag: Tag) -> bool {{",
        f"{_TWO}tag == Tag::SEQUENCE",
        f"{STEP}}}",
        "}",
        "",
        f"impl{declared.generics.declared('Serialize')} List for {declared.shown} {{",
        f"{STEP}ghost is_list = {{ λ it. tt }};",
        "}",
    ]
    if declared.is_set:
        lines += ["", f"impl{declared.generics.declared('Deserialize')} TagOrdered for {declared.shown} {{", f"{STEP}ghost ordered = {{ refl }};", "}"]
    return lines
