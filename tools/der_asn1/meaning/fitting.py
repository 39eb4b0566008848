"""Whether a value is one of its type: a default, a value with a name, and what else a module has a value for (X.680, 17 to 44)."""
from dataclasses import dataclass
from typing import Optional

from ..parse import tree
from ..parse.source import NotationError, Place
from .alphabets import CHARACTERS
from .members import members_of, selected
from .scopes import Binding, Found, Program, Scope, resolve
from .subtypes import Limits, Reader, only_contents, resolve_with_constraints
from .tagging import fixed_field_type
from .values import integer_of, named_numbers

_DEPTH = 40
# a type isn't shown by its text if this is longer
_LONGEST = 60

# strings whose characters aren't those of ISO/IEC 10646, so that a value of one is none of another string type
_OTHER_CHARACTERS = frozenset(("TeletexString", "T61String", "VideotexString", "GraphicString", "GeneralString"))
STRINGS = frozenset((*CHARACTERS, *_OTHER_CHARACTERS, "UTF8String", "BMPString", "UniversalString"))

_TEXT = (tree.TextValue, tree.BraceValue)
# which values a type may have, by its name or by the kind of its notation
_VALUES = {
    "BOOLEAN": (tree.BooleanValue,),
    "NULL": (tree.NullValue,),
    "REAL": (tree.IntegerValue, tree.RealValue, tree.BraceValue),
    "OBJECT IDENTIFIER": (tree.BraceValue,),
    "RELATIVE-OID": (tree.BraceValue,),
    "OCTET STRING": (tree.BitsValue,),
    "UTCTime": (tree.TextValue,),
    "GeneralizedTime": (tree.TextValue,),
    "ObjectDescriptor": (tree.TextValue,),
    **dict.fromkeys(STRINGS, _TEXT),
    tree.IntegerType: (tree.IntegerValue,),
    tree.EnumeratedType: (),
    tree.BitStringType: (tree.BitsValue, tree.BraceValue),
    tree.StructureType: (tree.BraceValue,),
    tree.ListType: (tree.BraceValue,),
    tree.ChoiceType: (tree.ChosenValue,),
}


@dataclass(frozen=True)
class Misfit:
    """Why a value isn't one of its type, and where that is seen. It has a clause of its own if its name leads nowhere."""

    place: Place
    text: str
    clause: str = ""


def misfit(program: Program, value: tree.Value, scope: Scope, type_: tree.Type, type_scope: Scope, depth: int = 0) -> Optional[Misfit]:
    """Why a value isn't one of the type, or None if it is one, or if a part of either isn't known."""
    found = resolve_with_constraints(program, type_, type_scope)
    if found.type is None or depth > _DEPTH or value is None:
        return None
    if isinstance(found.type, tree.SelectionType):
        alternative = selected(program, found.type, found.scope)
        return alternative and misfit(program, value, scope, alternative.member.type, alternative.scope, depth + 1)
    if isinstance(found.type, tree.FieldType):
        fixed = fixed_field_type(program, found.type, found.scope)
        return misfit(program, value, scope, *fixed, depth + 1) if fixed else None
    if isinstance(value, tree.NamedValue):
        return _named(program, value, scope, type_, type_scope, depth)
    allowed = _VALUES.get(_kind(found.type))
    if allowed is None or isinstance(value, tree.FieldValue) or only_contents(found.constraints):
        return None
    if not isinstance(value, allowed):
        return Misfit(value.place, _isnt(value, type_))
    limits = Reader(program, getattr(found.type, "named", [])).limits(found.constraints)
    return _outside(program, value, scope, found.type, found.scope, limits, type_)


def _kind(type_: tree.Type) -> object:
    return type_.name if isinstance(type_, tree.SimpleType) else type(type_)


def _outside(program: Program, value: tree.Value, scope: Scope, base: tree.Type, home: Scope, limits: Limits, type_: tree.Type) -> Optional[Misfit]:
    """Why a value of the right kind isn't one of the type: its number, its size, its characters or its name."""
    wrong = Misfit(value.place, _isnt(value, type_))
    if limits.unknown:
        return None
    if isinstance(value, tree.IntegerValue):
        return None if _has(limits.numbers.pairs, value.number) else wrong
    if isinstance(value, tree.TextValue):
        known = CHARACTERS.get(getattr(base, "name", ""))
        is_known = known is None or set(value.text) <= known
        return None if is_known and _has(limits.size.pairs, len(value.text)) else wrong
    if isinstance(value, tree.BitsValue):
        bits = len(value.digits) * value.width
        size = bits if isinstance(base, tree.BitStringType) else (bits + 7) // 8
        return None if getattr(base, "named", []) or _has(limits.size.pairs, size) else wrong
    if isinstance(value, tree.BraceValue) and getattr(base, "named", []):
        return next((Misfit(it.place, f"{it.shown()} isn't a bit of {_shown(type_)}") for it in _unknown_bits(value, base)), None)
    if isinstance(value, tree.ChosenValue):
        return _alternative(program, value, scope, base, home, type_)
    return None


def _has(pairs: tuple, number: int) -> bool:
    return any(low <= number <= high for low, high in pairs)


def _unknown_bits(value: tree.BraceValue, base: tree.BitStringType) -> list:
    names = {it.name for it in base.named}
    return [it for it in value.tokens if it.kind.name in ("LOWER", "UPPER") and it.text not in names]


def _alternative(program: Program, value: tree.ChosenValue, scope: Scope, base: tree.ChoiceType, home: Scope, type_: tree.Type) -> Optional[Misfit]:
    """Why `name : value` isn't a value of a CHOICE (X.680, 29.10)."""
    try:
        known = {it.member.name: it for it in members_of(program, base, home)}
    except NotationError:
        return None
    if value.name not in known:
        return Misfit(value.place, f"{_shown(type_)} has no alternative `{value.name}`")
    return misfit(program, value.value, scope, known[value.name].member.type, known[value.name].scope)


# ---- names of values


def _named(program: Program, value: tree.NamedValue, scope: Scope, type_: tree.Type, type_scope: Scope, depth: int) -> Optional[Misfit]:
    """Why a name isn't a value of the type: it has another type, or it leads nowhere."""
    base = resolve(program, type_, type_scope)
    if isinstance(base.type, tree.EnumeratedType) and value.name in {it.name for it in (*base.type.items, *base.type.additions)}:
        return None
    named = named_numbers(program, type_, type_scope)
    if isinstance(base.type, tree.IntegerType) and value.name in {it.name for it in named}:
        number = integer_of(program, value, base.scope, named)
        plain = tree.IntegerValue(value.place, number)
        return number is not None and misfit(program, plain, scope, type_, type_scope, depth + 1) or None
    found = program.find(value.name, scope, value.module, value.place)
    if isinstance(found, Binding):
        given = found.argument.value
        return misfit(program, given, found.scope, type_, type_scope, depth + 1) if given else None
    if found is None:
        return undefined(program, value, scope)
    if not isinstance(found.assignment, tree.ValueAssignment):
        return None if isinstance(found.assignment, (tree.UnreadAssignment, tree.MacroAssignment)) else Misfit(value.place, f"`{value.name}` isn't a value")
    return _of_assignment(program, value, found, type_, type_scope, base.type, depth)


def _of_assignment(program: Program, value: tree.NamedValue, found: Found, type_: tree.Type, type_scope: Scope, base: tree.Type, depth: int) -> Optional[Misfit]:
    """Why the value of an assignment isn't one of the type."""
    own = resolve(program, found.assignment.type, found.scope).type
    if not are_compatible(own, base):
        return Misfit(value.place, f"`{value.name}` is a value of {_shown(found.assignment.type)}, and {_shown(type_)} has other values")
    if not isinstance(base, tree.IntegerType):
        return None
    number = integer_of(program, value, found.scope)
    if number is None:
        return None
    return misfit(program, tree.IntegerValue(value.place, number), found.scope, type_, type_scope, depth + 1)


def undefined(program: Program, value: tree.NamedValue, scope: Scope) -> Optional[Misfit]:
    """That a name isn't defined, or None if it may be defined in a module that isn't given."""
    if program.is_elsewhere(value.name, value.module, scope.module):
        return None
    return Misfit(value.place, f"`{value.name}` isn't defined", "X.680, 14.1")


def are_compatible(own: Optional[tree.Type], other: Optional[tree.Type]) -> bool:
    """Whether a value of one type may be one of the other, as far as their kinds show. Strings with the characters of ISO/IEC 10646 are."""
    if own is None or other is None:
        return True
    kinds = (_kind(own), _kind(other))
    if any(it not in _VALUES for it in kinds) or kinds[0] == kinds[1]:
        return True
    return all(it in STRINGS and it not in _OTHER_CHARACTERS for it in kinds) or {*kinds} <= {"TeletexString", "T61String"}


# ---- as text


def shown_value(value: tree.Value) -> str:
    """A value as a message has it."""
    if isinstance(value, tree.BooleanValue):
        return "`TRUE`" if value.truth else "`FALSE`"
    if isinstance(value, tree.BitsValue):
        return f"`'{value.digits}'{'B' if value.width == 1 else 'H'}`"
    if isinstance(value, tree.TextValue):
        return f'`"{value.text}"`'
    if isinstance(value, tree.ChosenValue):
        return f"`{value.name} : ..`"
    words = {tree.IntegerValue: "number", tree.RealValue: "text", tree.NamedValue: "name"}
    if type(value) in words:
        return f"`{getattr(value, words[type(value)])}`"
    return "`NULL`" if isinstance(value, tree.NullValue) else "a value in braces"


def _shown(type_: tree.Type) -> str:
    if type_.text and len(type_.text) <= _LONGEST:
        return f"`{type_.text}`"
    kind = _kind(type_)
    return f"this {kind if isinstance(kind, str) else kind.__name__.removesuffix('Type').upper()}"


def _isnt(value: tree.Value, type_: tree.Type) -> str:
    return f"{shown_value(value)} isn't a value of {_shown(type_)}"
