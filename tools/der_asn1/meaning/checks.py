"""What X.680 asks of types beyond their grammar: names and numbers that are distinct, and values that their types have.

Each is an error at the name, the number or the value that is wrong. What a parameter stands for is looked at where it is given.
"""
from typing import Iterable, Optional

from ..parse import tree
from ..parse.source import NotationError, Place
from .fitting import CHARACTERS, STRINGS, misfit, undefined
from .intervals import Intervals
from .members import members_of
from .objects import class_named
from .scopes import Found, Program, Scope
from .subtypes import Reader, ScopedConstraint, resolve_with_constraints
from .values import addition_numbers, enumerated_numbers, integer_of

# the clauses of the types that have names of members
_CLAUSES = {tree.Form.SEQUENCE: "X.680, 25", tree.Form.SET: "X.680, 27"}
_CHOICE, _OF_INTEGER = "X.680, 29", "X.680, 19"
# types that are strings by their definition (X.680, 46 to 48), and types that have a size or characters (51.1)
_DEFINED_STRINGS = frozenset(("UTCTime", "GeneralizedTime", "ObjectDescriptor"))
_LETTERED = STRINGS | _DEFINED_STRINGS | {"CHARACTER STRING"}
_SIZED = _LETTERED | {"OCTET STRING"}
_DEPTH = 40


class Checks:
    """Looks at types with all that is in them. Each type is looked at once in each scope."""

    def __init__(self, program: Program) -> None:
        self.program, self.done = program, set()

    def error(self, place: Place, text: str, clause: str) -> None:
        """Says what is wrong."""
        self.program.problems.error(place, text, clause)

    def assignment(self, found: Found) -> None:
        """Looks at the type of an assignment, once with the same arguments."""
        key = (*found.scope.key, found.assignment.name, found.assignment.place)
        if key not in self.done and isinstance(found.assignment, tree.TypeAssignment):
            self.done.add(key)
            self.type(found.assignment.type, found.scope)

    def type(self, type_: tree.Type, scope: Scope) -> None:
        """Looks at a type as it is written."""
        self.tags(type_, scope)
        self.constraints(type_, scope)
        look = getattr(self, "of_" + type(type_).__name__.lower(), None)
        if look:
            look(type_, scope)

    def tags(self, type_: tree.Type, scope: Scope) -> None:
        """The number of a tag is known (X.680, 31.2.1)."""
        for it in type_.tags:
            number = integer_of(self.program, it.number, scope)
            if number is not None and number < 0:
                self.error(it.place, f"the number of a tag isn't below 0: `{number}`", "X.680, 31.2.1")
            elif number is None and isinstance(it.number, tree.NamedValue) and not scope.binding(it.number.name):
                if undefined(self.program, it.number, scope):
                    self.error(it.number.place, f"`{it.number.name}` isn't the number of a tag", "X.680, 31.2.1")

    # ---- numbers with names

    def of_integertype(self, type_: tree.IntegerType, scope: Scope) -> None:
        """Named numbers (X.680, 19)."""
        self.named_numbers(type_.named, scope, _OF_INTEGER)

    def of_bitstringtype(self, type_: tree.BitStringType, scope: Scope) -> None:
        """Named bits (X.680, 22)."""
        self.named_numbers(type_.named, scope, "X.680, 22")
        for it in type_.named:
            number = integer_of(self.program, it.number, scope)
            if number is not None and number < 0:
                self.error(it.number.place, f"the number of a bit isn't below 0: `{number}`", "X.680, 22.1")

    def named_numbers(self, named: list[tree.NamedNumber], scope: Scope, clause: str) -> None:
        """Neither two names nor two numbers are the same, and each name of a number leads to one."""
        self.names(named, clause)
        numbers = [integer_of(self.program, it.number, scope) if it.number is not None else None for it in named]
        self.numbers(named, numbers, clause)
        for it, number in zip(named, numbers):
            if number is None and isinstance(it.number, tree.NamedValue):
                self.name_of_number(it.number, scope)

    def name_of_number(self, value: tree.NamedValue, scope: Scope) -> None:
        """The name of a number leads to one, unless it is in a module that isn't given."""
        found = undefined(self.program, value, scope) if self.program.find(value.name, scope, value.module, value.place) is None else None
        if found:
            self.error(found.place, found.text, found.clause)

    def names(self, named: Iterable, clause: str) -> None:
        """No two of these have the same name."""
        first = {}
        for it in named:
            before = first.setdefault(it.name, it)
            if it.name and before is not it:
                self.error(it.place, f"`{it.name}` is there twice, at {before.place.line}:{before.place.column} too", clause)

    def numbers(self, named: list[tree.NamedNumber], numbers: list[Optional[int]], clause: str) -> None:
        """No two of these have the same number. It is plain what two names of a number of an INTEGER mean."""
        said = self.program.problems.deviation if clause == _OF_INTEGER else self.program.problems.error
        first = {}
        for it, number in zip(named, numbers):
            before = first.setdefault(number, it)
            if number is not None and before is not it and before.name != it.name:
                said(it.place, f"`{it.name}` has the number {number}, as `{before.name}` has at {before.place.line}:{before.place.column}", clause)

    def of_enumeratedtype(self, type_: tree.EnumeratedType, scope: Scope) -> None:
        """Items with distinct names and numbers, and those of later versions in the order of their numbers (X.680, 20)."""
        items = [*type_.items, *type_.additions]
        self.names(items, "X.680, 20")
        numbers = [*enumerated_numbers(self.program, type_.items, scope), *addition_numbers(self.program, type_, scope)]
        self.numbers(items, numbers, "X.680, 20.3")
        last = None
        for it, number in zip(type_.additions, numbers[len(type_.items) :]):
            if last is not None and number is not None and number < last:
                self.error(it.place, f"`{it.name}` has the number {number}, which isn't above {last}, that of the item of a version before", "X.680, 20")
            last = number
        for it in items:
            if isinstance(it.number, tree.NamedValue) and integer_of(self.program, it.number, scope) is None:
                self.name_of_number(it.number, scope)

    # ---- members

    def of_structuretype(self, type_: tree.StructureType, scope: Scope) -> None:
        """Members with distinct names, and defaults that their types have (X.680, 25 and 27)."""
        self.members(type_, type_.members, scope, _CLAUSES[type_.form])

    def of_choicetype(self, type_: tree.ChoiceType, scope: Scope) -> None:
        """Alternatives with distinct names (X.680, 29)."""
        self.members(type_, type_.alternatives, scope, _CHOICE)

    def members(self, type_: tree.Type, written: list, scope: Scope, clause: str) -> None:
        """All members, those of COMPONENTS OF by their names alone."""
        try:
            self.names([it.member for it in members_of(self.program, type_, scope)], clause)
        except NotationError:
            self.names([it for it in written if isinstance(it, tree.Member)], clause)
        for it in written:
            self.type(it.type, scope)
            if isinstance(it, tree.Member) and it.presence is tree.Presence.DEFAULT:
                self.value(it.default, it.type, scope, clause)

    def value(self, value: tree.Value, type_: tree.Type, scope: Scope, clause: str) -> None:
        """A value is one of its type."""
        found = misfit(self.program, value, scope, type_, scope)
        if found:
            self.error(found.place, found.text, found.clause or clause)

    def of_listtype(self, type_: tree.ListType, scope: Scope) -> None:
        """The element of a list."""
        self.type(type_.element, scope)

    def of_selectiontype(self, type_: tree.SelectionType, scope: Scope) -> None:
        """The choice of a selection."""
        self.type(type_.choice, scope)

    # ---- names

    def of_referencetype(self, type_: tree.ReferenceType, scope: Scope) -> None:
        """A name that leads to itself, and the arguments of one that has some."""
        for it in type_.arguments or []:
            if it.type is not None and not isinstance(it.type, tree.ReferenceType):
                self.type(it.type, scope)
        first, names = self.program.find(type_.name, scope, type_.module), []
        found = first
        while isinstance(found, Found) and isinstance(getattr(found.assignment, "type", None), tree.ReferenceType) and len(names) < _DEPTH:
            names.append(found.assignment)
            found = self.program.find(found.assignment.type.name, found.scope, found.assignment.type.module)
            if isinstance(found, Found) and isinstance(first, Found) and found.assignment is first.assignment:
                place, name = first.assignment.place, first.assignment.name
                self.error(place, f"`{name}` is defined by itself alone: {' ::= '.join([*(it.name for it in names), name])}", "X.680, 14.1")
                return

    def of_fieldtype(self, type_: tree.FieldType, scope: Scope) -> None:
        """A field of a class, which has it (X.681, 14.1)."""
        found = class_named(self.program, type_.class_name, scope)
        if found is None:
            known = self.program.find(type_.class_name, scope, None, type_.place)
            if isinstance(known, Found) and isinstance(known.assignment, tree.TypeAssignment) and not self.leads_out(known):
                self.error(type_.place, f"`{type_.class_name}` isn't a class", "X.681, 14.1")
        elif len(type_.fields) == 1 and not found.definition.field_named(type_.fields[0]):
            self.error(type_.place, f"the class `{type_.class_name}` has no field `{type_.fields[0]}`", "X.681, 14.1")

    def leads_out(self, found: Found, depth: int = 0) -> bool:
        """Whether a name leads to a module that isn't given, or to a parameter."""
        type_ = getattr(found.assignment, "type", None)
        if not isinstance(type_, tree.ReferenceType) or depth > _DEPTH:
            return False
        inner = self.program.find(type_.name, found.scope, type_.module)
        return self.leads_out(inner, depth + 1) if isinstance(inner, Found) else True

    # ---- constraints

    def constraints(self, type_: tree.Type, scope: Scope) -> None:
        """Constraints that the type may have (X.680, 51.1)."""
        found = resolve_with_constraints(self.program, type_, scope)
        kind = found.type.name if isinstance(found.type, tree.SimpleType) else type(found.type)
        for it in type_.constraints:
            if isinstance(it, tree.ContentsConstraint) and it.type is not None:
                self.type(it.type, scope)
            elif isinstance(it, tree.ElementSet) and found.type is not None:
                for element in elements(it):
                    self.element(element, kind, scope)
                    self.bound_names(element, getattr(found.type, "named", []), scope)
        if isinstance(found.type, tree.IntegerType):
            self.ranges(found.type, found.constraints)

    def element(self, element: tree.Element, kind: object, scope: Scope) -> None:
        """An element that the type may have in a constraint."""
        is_open = kind in (tree.AnyType, tree.FieldType, tree.ObjectFieldType, tree.SelectionType, tree.InstanceOfType)
        name = kind if isinstance(kind, str) else {tree.IntegerType: "INTEGER", tree.EnumeratedType: "ENUMERATED"}.get(kind, "")
        has_size = kind in _SIZED or kind in (tree.BitStringType, tree.ListType)
        shown = f"`{name}`" if name else "this type"
        if isinstance(element, tree.SizeConstraint) and not has_size and not is_open:
            self.error(element.place, f"{shown} has no SIZE", "X.680, 51.1")
        elif isinstance(element, tree.Alphabet) and kind not in _LETTERED and not is_open:
            self.error(element.place, f"{shown} has no characters, and no FROM", "X.680, 51.1")
        elif isinstance(element, tree.Alphabet) and kind in CHARACTERS:
            self.characters(element, kind)

    def characters(self, element: tree.Alphabet, name: str) -> None:
        """The characters of FROM are those of the type (X.680, 51.7)."""
        for it in elements(element.inner):
            ends = [it.value] if isinstance(it, tree.SingleValue) else [it.low, it.high] if isinstance(it, tree.ValueRange) else []
            for value in ends:
                wrong = isinstance(value, tree.TextValue) and [one for one in value.text if one not in CHARACTERS[name]]
                if wrong:
                    self.error(value.place, f"{name} doesn't have the character `{wrong[0]}`", "X.680, 51.7")

    def bound_names(self, element: tree.Element, named: list[tree.NamedNumber], scope: Scope) -> None:
        """The names of the bounds of ranges lead somewhere, in SIZE too."""
        if isinstance(element, (tree.SizeConstraint, tree.Alphabet)):
            for it in elements(element.inner):
                self.bound_names(it, [], scope)
        for value in [element.low, element.high] if isinstance(element, tree.ValueRange) else []:
            if isinstance(value, tree.NamedValue) and value.name not in {it.name for it in named} and not scope.binding(value.name):
                self.name_of_number(value, scope)

    def ranges(self, type_: tree.IntegerType, constraints: tuple[ScopedConstraint, ...]) -> None:
        """The bounds of a range are numbers of the type that it is a constraint of (X.680, 51.4)."""
        before = ()
        for it in constraints:
            if isinstance(it.constraint, tree.ElementSet):
                allowed = Reader(self.program, type_.named).limits(before)
                for element in [] if allowed.unknown else elements(it.constraint):
                    self.bounds(element, allowed.numbers, type_, it.scope)
            before = (*before, it)

    def bounds(self, element: tree.Element, allowed: Intervals, type_: tree.IntegerType, scope: Scope) -> None:
        """The bounds of one range, or a single number."""
        if isinstance(element, tree.SingleValue):
            ends = [element.value]
        else:
            ends = [element.low, element.high] if isinstance(element, tree.ValueRange) else []
        for value in ends:
            number = None if value is None else integer_of(self.program, value, scope, type_.named)
            if number is not None and not any(low <= number <= high for low, high in allowed.pairs):
                self.error(value.place, f"{number} isn't a number of the type before this constraint", "X.680, 51.4")


def elements(constraint: tree.ElementSet) -> Iterable[tree.Element]:
    """The elements of a set, without those inside of SIZE and FROM."""
    left = [it for it in (constraint.root, constraint.additions) if it is not None]
    while left:
        element = left.pop(0)
        if isinstance(element, (tree.Union_, tree.Intersection)):
            left = [*element.parts, *left]
        elif isinstance(element, tree.Except):
            left = [*(it for it in (element.part, element.excluded) if it is not None), *left]
        else:
            yield element
