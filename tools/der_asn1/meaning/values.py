"""Values, through the names that lead to them (X.680, 19, 22 and 32)."""
from typing import Iterable, Optional

from ..parse import tree
from ..parse.cursor import Cursor
from ..parse.tokens import Kind, Token
from .scopes import Binding, Program, Scope, resolve

DEPTH = 40

# the arcs that have names of their own (X.660, annex A), below the root and below 0, 1 and 2
_ROOT_ARCS = {"itu-t": 0, "ccitt": 0, "itu-r": 0, "iso": 1, "joint-iso-itu-t": 2, "joint-iso-ccitt": 2}
_SECOND_ARCS = {
    0: {"recommendation": 0, "question": 1, "administration": 2, "network-operator": 3, "identified-organization": 4},
    1: {"standard": 0, "registration-authority": 1, "member-body": 2, "identified-organization": 3},
    2: {},
}


def named_numbers(program: Program, type_: tree.Type, scope: Scope) -> list[tree.NamedNumber]:
    """The named numbers that a type has, through references."""
    found = resolve(program, type_, scope)
    return getattr(found.type, "named", []) if found.type else []


def enumerated_numbers(program: Program, items: list[tree.NamedNumber], scope: Scope) -> list[int]:
    """The numbers of the items of an enumeration: one without a number has the least that no other has (X.680, 20.5)."""
    given = [integer_of(program, it.number, scope) if it.number is not None else None for it in items]
    taken = {it for it in given if it is not None}
    found, following = [], 0
    for it in given:
        if it is None:
            while following in taken:
                following += 1
            it, following = following, following + 1
        found.append(it)
    return found


def addition_numbers(program: Program, type_: tree.EnumeratedType, scope: Scope) -> list[Optional[int]]:
    """The numbers of items after the extension marker: one without a number has the least that no item before it has (X.680, 20.6)."""
    taken = set(enumerated_numbers(program, type_.items, scope))
    found, following = [], 0
    for it in type_.additions:
        number = integer_of(program, it.number, scope) if it.number is not None else None
        if it.number is None:
            while following in taken:
                following += 1
            number = following
        if number is not None:
            following = max(following, number + 1)
        found.append(number)
    return found


def value_of(program: Program, value: tree.Value, scope: Scope, depth: int = 0) -> tuple[tree.Value, Scope]:
    """A value that is no name, with its scope and its governor's named numbers: through value references (X.680, 14)."""
    if not isinstance(value, tree.NamedValue) or depth > DEPTH:
        return value, scope
    found = program.find(value.name, scope, value.module, value.place)
    if isinstance(found, Binding):
        return value_of(program, found.argument.value, found.scope, depth + 1) if found.argument.value else (value, scope)
    if found and isinstance(found.assignment, tree.ValueAssignment):
        return value_of(program, found.assignment.value, found.scope, depth + 1)
    return value, scope


def integer_of(
    program: Program,
    value: tree.Value,
    scope: Scope,
    named: Iterable[tree.NamedNumber] = (),
    depth: int = 0,
) -> Optional[int]:
    """The number that a value is, or None. `named` are the named numbers of its type, which come first (X.680, 19.12)."""
    if isinstance(value, tree.IntegerValue):
        return value.number
    if not isinstance(value, tree.NamedValue) or depth > DEPTH:
        return None
    for it in named:
        if it.name == value.name:
            return integer_of(program, it.number, scope, (), depth + 1)
    found = program.find(value.name, scope, value.module, value.place)
    if isinstance(found, Binding):
        return integer_of(program, found.argument.value, found.scope, (), depth + 1)
    if found and isinstance(found.assignment, tree.ValueAssignment):
        inner = found.assignment
        return integer_of(program, inner.value, found.scope, named_numbers(program, inner.type, found.scope), depth + 1)
    return None


def arcs_of(program: Program, value: tree.Value, scope: Scope, depth: int = 0) -> Optional[list[int]]:
    """The arcs of an object identifier (X.680, 32.3), or None."""
    if depth > DEPTH:
        return None
    if isinstance(value, tree.NamedValue):
        found = program.find(value.name, scope, value.module, value.place)
        if isinstance(found, Binding):
            return arcs_of(program, found.argument.value, found.scope, depth + 1) if found.argument.value else None
        if found and isinstance(found.assignment, tree.ValueAssignment):
            return arcs_of(program, found.assignment.value, found.scope, depth + 1)
        return None
    if not isinstance(value, tree.BraceValue):
        return None
    return _arcs_in_braces(program, value, scope, depth)


def _arcs_in_braces(program: Program, value: tree.Value, scope: Scope, depth: int) -> Optional[list[int]]:
    cursor = Cursor([*value.tokens, Token(Kind.END, "", value.place)], None)
    arcs = []
    while cursor.now.kind is not Kind.END:
        token = cursor.take()
        if cursor.accept("("):
            number = cursor.take()
            cursor.accept(")")
            more = _arc(program, number, scope, arcs, depth)
        else:
            more = _arc(program, token, scope, arcs, depth)
        if more is None:
            return None
        arcs += more
    return arcs or None


def _arc(program: Program, token: Token, scope: Scope, arcs: list[int], depth: int) -> Optional[list[int]]:
    """The arcs of one item in the braces, or None."""
    if token.kind is Kind.NUMBER:
        return [int(token.text)]
    if not arcs and token.text in _ROOT_ARCS:
        return [_ROOT_ARCS[token.text]]
    if len(arcs) == 1 and token.text in _SECOND_ARCS.get(arcs[0], {}):
        return [_SECOND_ARCS[arcs[0]][token.text]]
    name = tree.NamedValue(token.place, token.text)
    number = integer_of(program, name, scope)
    return [number] if number is not None else arcs_of(program, name, scope, depth + 1)
