"""What constraints allow (X.680, 49 to 52): numbers, sizes, and what else they say."""
from dataclasses import dataclass, field, replace
from typing import Optional

from ..parse import tree
from .alphabets import alphabet_of, set_of_type
from .contents import ANY_CONTENT, Contents, content_of
from .intervals import ALL, INFINITY, NATURAL, Intervals
from .scopes import Program, Scope, target_of
from .values import integer_of, value_of

_DEPTH = 20


@dataclass(frozen=True)
class ScopedConstraint:
    """A constraint and the scope of the names in it."""

    constraint: tree.Constraint
    scope: Scope


@dataclass(frozen=True)
class Limits:
    """What is left of a type's values.

    `numbers`, `size` and `alphabet`, the numbers of characters, are intervals, and `contents` is a set of contents. `other` says that values are
    left out by something else, and `unknown` that a name in a constraint leads nowhere.
    """

    numbers: Intervals = ALL
    size: Intervals = NATURAL
    alphabet: Intervals = NATURAL
    contents: Contents = ANY_CONTENT
    other: bool = False
    unknown: bool = False

    def both(self, more: "Limits") -> "Limits":
        """The limits of an intersection."""
        return Limits(
            self.numbers.intersection(more.numbers),
            self.size.intersection(more.size),
            self.alphabet.intersection(more.alphabet),
            self.contents.both(more.contents),
            self.other or more.other,
            self.unknown or more.unknown,
        )

    def either(self, more: "Limits") -> "Limits":
        """The limits of a union, which are intervals if one kind of limit is all that there is."""
        unknown = self.unknown or more.unknown
        if self.only("numbers") and more.only("numbers"):
            return Limits(numbers=self.numbers.union(more.numbers), unknown=unknown)
        if self.only("size") and more.only("size"):
            return Limits(size=self.size.union(more.size), unknown=unknown)
        if self.only("alphabet") and more.only("alphabet"):
            return Limits(alphabet=self.alphabet.union(more.alphabet), unknown=unknown)
        if self.only("contents") and more.only("contents"):
            return Limits(contents=self.contents.either(more.contents), unknown=unknown)
        return replace(NONE, other=True, unknown=unknown)

    def only(self, name: str) -> bool:
        """Whether there is no limit of another kind than this one."""
        return all(getattr(self, it) == getattr(NONE, it) for it in _KINDS if it != name)


NONE = Limits()
# the kinds of limits
_KINDS = ("numbers", "size", "alphabet", "contents", "other")


@dataclass
class Reader:
    """Works out the limits of constraints. `named` are the named numbers of the type that is constrained, `base` is its name.

    `type` is the type itself, whose names are of `home`, where contents of single values are worked out.
    """

    program: object
    named: list = field(default_factory=list)
    base: str = ""
    type: Optional[tree.Type] = None
    home: Optional[Scope] = None

    def limits(self, constraints: tuple[ScopedConstraint, ...]) -> Limits:
        """The limits of constraints one after another (X.680, 49.2)."""
        found = NONE
        for it in constraints:
            if isinstance(it.constraint, tree.ElementSet):
                found = found.both(self.of_set(it.constraint, it.scope))
        return found

    def of_set(self, constraint: tree.ElementSet, scope: Scope, depth: int = 0) -> Limits:
        """The limits of a set. One that is extensible may have any value in a later version (X.680, 52.4)."""
        return NONE if constraint.extensible else self.of(constraint.root, scope, depth)

    def of(self, element: tree.Element, scope: Scope, depth: int = 0) -> Limits:
        """The limits of an element."""
        if depth > _DEPTH:
            return replace(NONE, unknown=True)
        reader = getattr(self, "of_" + type(element).__name__.strip("_").lower())
        return reader(element, scope, depth + 1)

    def of_union(self, element: tree.Union_, scope: Scope, depth: int) -> Limits:
        found = [self.of(it, scope, depth) for it in element.parts]
        total = found[0]
        for it in found[1:]:
            total = total.either(it)
        return total

    def of_intersection(self, element: tree.Intersection, scope: Scope, depth: int) -> Limits:
        total = NONE
        for it in element.parts:
            total = total.both(self.of(it, scope, depth))
        return total

    def of_except(self, element: tree.Except, scope: Scope, depth: int) -> Limits:
        part = self.of(element.part, scope, depth) if element.part else NONE
        excluded = self.of(element.excluded, scope, depth)
        unknown = part.unknown or excluded.unknown
        if excluded.only("numbers"):
            return replace(part.both(Limits(numbers=excluded.numbers.complement())), unknown=unknown)
        if excluded.only("size"):
            return replace(part.both(Limits(size=excluded.size.complement())), unknown=unknown)
        if excluded.only("contents"):
            return replace(part.both(Limits(contents=excluded.contents.complement())), unknown=unknown)
        return replace(part, other=True, unknown=unknown)

    def of_singlevalue(self, element: tree.SingleValue, scope: Scope, depth: int) -> Limits:
        number = integer_of(self.program, element.value, scope, self.named)
        if number is not None:
            return Limits(numbers=Intervals.of((number, number)))
        content = content_of(self.program, element.value, scope, self.type, self.home)
        return Limits(other=True) if content is None else Limits(contents=Contents(frozenset((content,)), False))

    def of_valuerange(self, element: tree.ValueRange, scope: Scope, depth: int) -> Limits:
        low, high = self.bound(element.low, scope, -INFINITY), self.bound(element.high, scope, INFINITY)
        if low is None or high is None:
            return self.of_characters(element, scope)
        return Limits(numbers=Intervals.of((low + element.low_open, high - element.high_open)))

    def of_characters(self, element: tree.ValueRange, scope: Scope) -> Limits:
        """A range of texts, or of a name that leads nowhere."""
        ends = [value_of(self.program, it, scope)[0] for it in (element.low, element.high) if it is not None]
        if all(isinstance(it, (tree.TextValue, tree.BraceValue)) for it in ends):
            return Limits(other=True)
        return replace(NONE, other=True, unknown=not any(isinstance(it, tree.RealValue) for it in ends))

    def bound(self, value: Optional[tree.Value], scope: Scope, infinite: float) -> Optional[float]:
        """The number of a bound. None if it is no number."""
        return infinite if value is None else integer_of(self.program, value, scope, self.named)

    def of_containedsubtype(self, element: tree.ContainedSubtype, scope: Scope, depth: int) -> Limits:
        """The limits of another type. Another string type is a set of characters."""
        found = resolve_with_constraints(self.program, element.type, scope)
        if found.type is None:
            return replace(NONE, unknown=True)
        own = Reader(self.program, getattr(found.type, "named", []), type=self.type and found.type, home=found.scope).limits(found.constraints)
        if not isinstance(found.type, tree.SimpleType) or not found.type.name.endswith("String") or found.type.name == self.base:
            return own
        characters = set_of_type(found.type.name)
        return replace(own, other=True) if characters is None else replace(own, alphabet=own.alphabet.intersection(characters))

    def of_sizeconstraint(self, element: tree.SizeConstraint, scope: Scope, depth: int) -> Limits:
        inner = self.of_set(element.inner, scope, depth)
        return Limits(size=inner.numbers.intersection(NATURAL), unknown=inner.unknown)

    def of_alphabet(self, element: tree.Alphabet, scope: Scope, depth: int) -> Limits:
        if element.inner.extensible:
            return NONE
        found = alphabet_of(self.program, element.inner.root, scope)
        return Limits(other=True) if found is None else Limits(alphabet=found)

    def of_innersubtyping(self, element: tree.InnerSubtyping, scope: Scope, depth: int) -> Limits:
        return Limits(other=True)

    def of_pattern(self, element: tree.Pattern, scope: Scope, depth: int) -> Limits:
        return Limits(other=True)


@dataclass(frozen=True)
class Constrained:
    """A type that is no reference, the scope of its names, and the constraints on it, those nearest to it first."""

    type: Optional[tree.Type]
    scope: Scope
    constraints: tuple


def resolve_with_constraints(
    program: Program,
    type_: tree.Type,
    scope: Scope,
    outer: tuple[ScopedConstraint, ...] = (),
    depth: int = 0,
) -> Constrained:
    """The type that a name leads to, with the constraints on the way. It stops at a type with tags, too."""
    constraints = (*(ScopedConstraint(it, scope) for it in type_.constraints), *outer)
    if not isinstance(type_, tree.ReferenceType):
        return Constrained(type_, scope, constraints)
    target = target_of(program, type_, scope) if depth < 2 * _DEPTH else None
    if target is None:
        return Constrained(None, scope, constraints)
    return resolve_with_constraints(program, target.type, target.scope, constraints, depth + 1)


def only_contents(constraints: tuple[ScopedConstraint, ...]) -> Optional[ScopedConstraint]:
    """The CONTAINING constraint among these, or None."""
    return next((it for it in constraints if isinstance(it.constraint, tree.ContentsConstraint)), None)

