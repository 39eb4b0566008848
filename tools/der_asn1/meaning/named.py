"""Names that no type of Rust has: of bits, of numbers, of the items of an enumeration that may have others, and of values."""
import re
from dataclasses import dataclass, replace
from typing import Iterable, Iterator, Optional, Union

from ..parse import tree
from ..parse.source import Problems
from .bounds import integer, whole_number_limits
from .declarations import Declaration, EnumDeclaration, StructDeclaration
from .inside import NUMBER, Types, constraints, excluded, without_tags
from .meaning import Meaning
from .scopes import Program, Scope, resolve
from .subtypes import Reader, resolve_with_constraints
from .values import addition_numbers, enumerated_numbers, integer_of, named_numbers, value_of
from .wording import snake, words

# strings of which a text is a value
_TEXTS = re.compile(r"(?!OCTET |BIT |CHARACTER )\w+String|ObjectDescriptor")
# a line of a text ends between its spaces (X.680, 12.14)
_LINE_END = re.compile(r"[ \t]*\n[ \t]*")


@dataclass(frozen=True)
class Name:
    """A name with its number and the type of Rust of that. `source` is the name in the module."""

    name: str
    source: str
    number: int
    type: str
    comment: str = ""


@dataclass(frozen=True)
class Names:
    """The names of a type, and in words what has them. `name` is that of the module of their constants."""

    name: str
    about: str
    names: tuple[Name, ...]
    module: str


@dataclass(frozen=True)
class Constant:
    """A value that has a name: a number, a text, octets, TRUE or FALSE. `notation` is its type in the module.

    `value` is the text or the octets, or else the value in Rust.
    """

    name: str
    source: str
    notation: str
    type: str
    value: Union[str, list[int]]
    module: str


@dataclass(frozen=True)
class _Part:
    """A type in an assignment: its name as a hint has it, and what it is in words."""

    type: tree.Type
    hint: str
    about: str

    def inner(self, type_: tree.Type, name: str, about: str) -> "_Part":
        """A part of it."""
        return _Part(type_, f"{self.hint}-{name}", f"{about} of {self.about}")


def constant_name(source: str) -> str:
    """The name of a constant."""
    found = "_".join(words(source)).upper()
    return found if found[:1].isalpha() else f"N{found}"


def plain_type(numbers: Iterable[int]) -> str:
    """The type of Rust of numbers whose type has any."""
    return "i64" if all(-(2**63) <= it < 2**63 for it in numbers) else "i128"


def silent(program: Program) -> Program:
    """The same modules, where nothing is said of what is wrong, which is said before."""
    found = Program(program.modules, Problems(), program.all_modules[len(program.modules) :])
    found.by_import = program.by_import
    return found


def names_of(program: Program, types: Types) -> list[Names]:
    """The names of the types that are written, in the order of the modules, and then the defaults of their members."""
    program = silent(program)
    written = {(it.module, it.root) for it in types.values()}
    enums = {it.place for it in types.values() if isinstance(it, EnumDeclaration)}
    found: list[Names] = []
    for module in program.all_modules:
        scope = program.scope_of(module)
        for it in module.assignments:
            if isinstance(it, tree.TypeAssignment) and (module.name, it.name) in written:
                parts = parts_of(_Part(it.type, it.name, f"`{it.name}`"))
                found += [names for part in parts if part.type.place not in enums for names in names_in(program, part, scope)]
    return distinct([*found, *(it for declared in types.values() for it in defaults_of(declared, types))])


def defaults_of(declared: Declaration, types: Types) -> Iterator[Names]:
    """The numbers that are defaults of a struct's members where a field that is `None` has them."""
    if not isinstance(declared, StructDeclaration):
        return
    found = []
    for it in declared.fields:
        around, inside = constraints(without_tags(it.type, types).inner, types) if it.is_other else ((), None)
        if around:
            number = excluded(around[0])
            rust = inside.name if NUMBER.fullmatch(inside.name) else plain_type([number])
            found.append(Name(f"{constant_name(it.name)}_DEFAULT", it.name, number, rust))
    if found:
        yield Names(snake(declared.source), f"The defaults of `{declared.source}` of {declared.module}", tuple(found), declared.module)


def parts_of(part: _Part) -> Iterator[_Part]:
    """A type and the types in it that have no names of their own."""
    yield part
    type_ = part.type
    if isinstance(type_, (tree.StructureType, tree.ChoiceType)):
        for it in type_.members if isinstance(type_, tree.StructureType) else type_.alternatives:
            if isinstance(it, tree.Member):
                yield from parts_of(part.inner(it.type, it.name, f"`{it.name}`"))
    if isinstance(type_, tree.ListType):
        yield from parts_of(part.inner(type_.element, "item", "an item"))
    for it in type_.constraints:
        if isinstance(it, tree.ContentsConstraint) and it.type:
            yield from parts_of(part.inner(it.type, "content", "the content"))


def names_in(program: Program, part: _Part, scope: Scope) -> Iterator[Names]:
    """The names that a type has, if it has any whose numbers are known."""
    type_, module = part.type, scope.module.name
    if isinstance(type_, tree.EnumeratedType):
        items, kind = [*type_.items, *type_.additions], "items"
        numbers = [*enumerated_numbers(program, type_.items, scope), *addition_numbers(program, type_, scope)]
    else:
        items, kind = getattr(type_, "named", []), "bits" if isinstance(type_, tree.BitStringType) else "numbers"
        numbers = [integer_of(program, it.number, scope) for it in items]
    known = [(it, number) for it, number in zip(items, numbers) if number is not None and (number >= 0 or kind != "bits")]
    if known:
        rust = type_in(program, type_, scope, [number for _, number in known])
        names = distinct([Name(constant_name(it.name), it.name, number, rust, it.comment) for it, number in known])
        yield Names(snake(part.hint), f"The {kind} of {part.about} of {module}", tuple(names), module)


def type_in(program: Program, type_: tree.Type, scope: Scope, numbers: list[int]) -> str:
    """The type of Rust of numbers that have names in a type: that of an INTEGER, as far as it has all of them."""
    if isinstance(type_, tree.BitStringType):
        return "usize"
    if isinstance(type_, tree.EnumeratedType):
        return plain_type(numbers)
    found = resolve_with_constraints(program, type_, scope)
    limits = Reader(program, type_.named).limits(found.constraints)
    rust = integer(Meaning, whole_number_limits(limits)).rust
    inside = [it for it in sorted(rust.type.names()) if NUMBER.fullmatch(it)] if rust else []
    has_all = all(any(low <= it <= high for low, high in limits.numbers.pairs) for it in numbers)
    return inside[0] if inside and has_all else plain_type(numbers)


def distinct(found: list) -> list:
    """The same with a number after a name that another one has."""
    taken: set[str] = set()
    kept = []
    for it in found:
        number, name = 1, it.name
        while name in taken:
            number += 1
            name = f"{it.name}_{number}"
        taken.add(name)
        kept.append(replace(it, name=name))
    return kept


def constants_of(program: Program, modules: list[tree.Module], taken: Iterable[str]) -> list[Constant]:
    """The values of modules that are constants of Rust, in their order. None has a name in `taken`, which object identifiers have."""
    program, found, names = silent(program), [], {*taken}
    for module in modules:
        for it in module.assignments:
            if isinstance(it, tree.ValueAssignment) and not it.parameters:
                constant = constant_of(program, it, program.scope_of(module))
                if constant and constant.name not in names:
                    names.add(constant.name)
                    found.append(constant)
    return found


def constant_of(program: Program, assignment: tree.ValueAssignment, scope: Scope) -> Optional[Constant]:
    """A value as a constant, if its type is INTEGER, BOOLEAN, OCTET STRING or a string of characters."""
    base = resolve(program, assignment.type, scope).type
    value, _ = value_of(program, assignment.value, scope)
    found = None
    if isinstance(base, tree.IntegerType):
        number = integer_of(program, assignment.value, scope, named_numbers(program, assignment.type, scope))
        found = number is not None and (plain_type([number]), str(number))
    elif isinstance(base, tree.SimpleType):
        found = simple_constant(base.name, value)
    if not found:
        return None
    return Constant(constant_name(assignment.name), assignment.name, assignment.type.text, *found, scope.module.name)


def simple_constant(name: str, value: tree.Value) -> Optional[tuple[str, Union[str, list[int]]]]:
    """A value of a type of this name as a constant: its type, and itself as Constant has it."""
    if name == "BOOLEAN" and isinstance(value, tree.BooleanValue):
        return "bool", "true" if value.truth else "false"
    if name == "OCTET STRING" and isinstance(value, tree.BitsValue):
        return "&[u8]", octets(value)
    if _TEXTS.fullmatch(name) and isinstance(value, tree.TextValue):
        return "&str", _LINE_END.sub("", value.text)
    return None


def octets(value: tree.BitsValue) -> list[int]:
    """The octets of a bstring or an hstring, with zero bits after the last one if it isn't whole (X.680, 23.4 and 23.5)."""
    bits = "".join(f"{int(it, 16):0{value.width}b}" for it in value.digits)
    bits += "0" * (-len(bits) % 8)
    return [int(bits[it : it + 8], 2) for it in range(0, len(bits), 8)]
