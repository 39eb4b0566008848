"""Whether the printed terms of a crate are the types of its modules, after what terms don't have is left out of both.

It compares the types as they are read: it goes through names, COMPONENTS OF, automatic tags, and constraints that are ranges and sizes, and
asks nothing of what the compiler makes of them. Left out are names of members, items, bits and numbers. `CONSTRAINED BY {}` in the printed
type says that the library's values differ: another constraint may be there then, and any default where `DEFAULT {}` is.
"""
import re
from dataclasses import dataclass, replace
from typing import Optional

from ..emit.printed import Terms, printed
from ..meaning.character_sets import characters_of
from ..meaning.inner import inner_types
from ..meaning.intervals import Intervals
from ..meaning.members import is_extensible, members_of, selected
from ..meaning.objects import BUILT_IN_CLASSES
from ..meaning.scopes import BUILT_IN_ANY, Found, Program, Scope, target_of
from ..meaning.subtypes import Reader, ScopedConstraint, only_contents
from ..meaning.tagging import default_mode, effective_mode, fixed_field_type
from ..meaning.types import ASSOCIATED
from ..meaning.values import addition_numbers, enumerated_numbers, integer_of, value_of
from ..parse import tree
from ..parse.modules import read_text
from ..parse.source import Problems

_OPEN = (tree.AnyType, tree.ObjectFieldType)


@dataclass(frozen=True)
class Side:
    """A type of one of the two, the scope of its names, and the constraints of the names that led to it."""

    program: Program
    type: tree.Type
    scope: Scope
    constraints: tuple = ()

    def all(self) -> tuple:
        """All constraints, those next to the type first."""
        return (*(ScopedConstraint(it, self.scope) for it in self.type.constraints), *self.constraints)

    def part(self, type_: tree.Type, scope: Optional[Scope] = None) -> "Side":
        """A part of it."""
        return Side(self.program, type_, scope or self.scope)

    def opened(self) -> Optional["Side"]:
        """What a name without a tag stands for, with the constraints on the way, or None."""
        if isinstance(self.type, tree.SelectionType):
            found = selected(self.program, self.type, self.scope)
            return found and Side(self.program, found.member.type, found.scope, self.all())
        if isinstance(self.type, tree.SimpleType) and self.type.name == "EXTERNAL" and not self.type.tags:
            found = ASSOCIATED.find("External", ASSOCIATED.scope_of(ASSOCIATED.modules[0]))
            return Side(ASSOCIATED, found.assignment.type, found.scope, self.all())
        if isinstance(self.type, tree.FieldType) and fixed_field_type(self.program, self.type, self.scope):
            return Side(self.program, *fixed_field_type(self.program, self.type, self.scope), self.all())
        target = target_of(self.program, self.type, self.scope) if isinstance(self.type, tree.ReferenceType) and not self.type.tags else None
        return target and target.type and Side(self.program, target.type, target.scope, self.all())

    def untagged(self) -> "Side":
        """It without its outermost tag."""
        return replace(self, type=replace(self.type, tags=self.type.tags[1:]))

    def left(self) -> "Side":
        """What WITH COMPONENTS leaves of it (X.680, 51.8), if that is one type."""
        found = inner_types(self.program, self.type, self.scope, self.all())
        return replace(self, type=found.types[0], constraints=found.others) if found and len(found.types) == 1 else self

    def is_wide(self) -> bool:
        """Whether a printed type says that its values differ."""
        return any(isinstance(it.constraint, tree.UserConstraint) for it in self.all())

    def limits(self) -> tuple:
        """The numbers, the sizes and the characters that the constraints leave, and whether they say more than that."""
        base = self.type.name if isinstance(self.type, tree.SimpleType) else ""
        found = Reader(self.program, getattr(self.type, "named", []), base).limits(self.all())
        # zeros after the last named bit that is set are put in or left out as a size wants them (X.680, 22.7)
        is_named = isinstance(self.type, tree.BitStringType) and self.type.named
        size = Intervals.of((0, found.size.high)) if is_named and found.size.pairs else found.size
        return (found.numbers, size, characters_of(base).intersection(found.alphabet)), found.other or found.unknown


def levels(members: list) -> list[int]:
    """For each member, how many additions with a member that is always there have begun up to it. A value ends before one of them, or has all
    members that are always there up to the next."""
    always = {it.member.group for it in members if it.member.presence is tree.Presence.REQUIRED} - {None}
    begun = [next(place for place, it in enumerate(members) if it.member.group == group) for group in always]
    return [sum(it <= place for it in begun) for place in range(len(members))]


class Agreement:
    """Compares printed types with those of modules. `names` has the printed name of each, by its module and its name there."""

    def __init__(self, text: str, names: dict[tuple[str, str], str], program: Program) -> None:
        self.program, self.names = program, names
        (self.module,) = read_text(text, "printed", Problems())
        self.printed = Program([self.module], Problems())

    @classmethod
    def of_terms(cls, terms: Terms, program: Program) -> "Agreement":
        """Of the printed terms of a crate."""
        return cls(printed(terms), {(it.module, it.source): it.name for it in terms.types if it.source}, program)

    def difference(self, assignment: tree.TypeAssignment, module: tree.Module) -> Optional[str]:
        """How the printed type of an assignment differs from it, or None."""
        name = self.names.get((module.name, assignment.name))
        if name is None:
            return "it isn't printed"
        mine = Side(self.printed, self.printed.indexes[id(self.module)][name].type, self.printed.scope_of(self.module))
        return self.compare(mine, Side(self.program, assignment.type, self.program.scope_of(module)))

    def compare(self, mine: Side, other: Side) -> Optional[str]:
        """How two types differ, through names where one has a name and the other doesn't."""
        if mine.type.tags and other.type.tags:
            return self.tags(mine, other) or self.compare(mine.untagged(), other.untagged())
        if self.is_kept(mine):
            return None
        if self.is_same_name(mine, other):
            return self.constraints(mine, other)
        if not other.type.tags and not isinstance(other.type, _OPEN) and other.opened():
            return self.compare(mine, other.opened())
        if not mine.type.tags and mine.opened():
            return self.compare(mine.opened(), other)
        if mine.type.tags or other.type.tags:
            return f"a tag is there on one side alone: `{mine.type.text}`, `{other.type.text}`"
        return self.kinds(mine, other.left())

    @staticmethod
    def is_kept(mine: Side) -> bool:
        """Whether the printed type says that any content, or another type, is there in place of the module's."""
        tags = mine.type.tags
        return mine.is_wide() and (bool(tags) or isinstance(mine.type, tree.AnyType))

    def is_same_name(self, mine: Side, other: Side) -> bool:
        """Whether both are names of one type, of which the printed one may have fewer levels."""
        if not all(isinstance(it.type, tree.ReferenceType) and not it.type.tags for it in (mine, other)):
            return False
        found = other.program.find(other.type.name, other.scope, other.type.module)
        name = isinstance(found, Found) and self.names.get((found.scope.module.name, found.assignment.name))
        return bool(name) and re.fullmatch(rf"{name}\d*", mine.type.name) is not None

    def tags(self, mine: Side, other: Side) -> Optional[str]:
        """How the outermost tags differ. One that says none is as the heading says, or EXPLICIT by a rule that the text doesn't show."""
        first, second = mine.type.tags[0], other.type.tags[0]
        numbers = [integer_of(it.program, tag.number, it.scope) for it, tag in ((mine, first), (other, second))]
        modes = [tag.mode or default_mode(it.scope) for it, tag in ((mine, first), (other, second))]
        inner = None if len(other.type.tags) > 1 else replace(other.type, tags=[])
        if modes[0] is tree.TagMode.EXPLICIT and modes[0] is not modes[1]:
            modes[1] = effective_mode(other.program, second, inner, other.scope)
        same = numbers[0] == numbers[1] and first.tag_class is second.tag_class and modes[0] is modes[1]
        return None if same else f"the tags differ: `{mine.type.text}`, `{other.type.text}`"

    def constraints(self, mine: Side, other: Side) -> Optional[str]:
        """How ranges, sizes and alphabets differ. What else a constraint says has to make the printed type a wider one."""
        limits, more = zip(mine.limits(), other.limits())
        if mine.is_wide():
            return None
        if limits[0] != limits[1] or more[1]:
            return f"the constraints differ: `{mine.type.text}`, `{other.type.text}`"
        return None

    def kinds(self, mine: Side, other: Side) -> Optional[str]:
        """How two types without names and tags differ."""
        one, two = mine.type, other.type
        is_open = isinstance(two, (*_OPEN, tree.FieldType)) or isinstance(two, tree.ReferenceType)
        if isinstance(one, tree.AnyType):
            known = not isinstance(two, tree.ReferenceType) or two.name in BUILT_IN_ANY | BUILT_IN_CLASSES
            return None if is_open and known else f"an open type is printed for `{two.text}`"
        names = [it.name if isinstance(it, tree.SimpleType) else type(it).__name__ for it in (one, two)]
        if names[0] != names[1]:
            return None if mine.is_wide() and isinstance(one, tree.EnumeratedType) else f"`{one.text}` is printed for `{two.text}`"
        look = getattr(self, type(one).__name__.removesuffix("Type").lower(), None)
        contents = [only_contents(it.all()) for it in (mine, other)]
        if all(contents):
            return self.compare(mine.part(contents[0].constraint.type), other.part(contents[1].constraint.type, contents[1].scope))
        if any(contents):
            return f"`{one.text}` is printed for `{two.text}`"
        return self.constraints(mine, other) or (look and look(mine, other))

    def enumerated(self, mine: Side, other: Side) -> Optional[str]:
        """Items by their numbers. One that is extensible may have any."""
        open_ = other.type.extensible or other.scope.module.extensibility_implied
        numbers = [enumerated_numbers(it.program, it.type.items, it.scope) for it in (mine, other)]
        same = mine.type.extensible if open_ or mine.is_wide() else not mine.type.extensible and numbers[0] == numbers[1]
        return None if same else f"the items differ: `{mine.type.text}`, `{other.type.text}`"

    def bitstring(self, mine: Side, other: Side) -> Optional[str]:
        """Whether bits have names, which leaves out zeros at the end (X.690, 11.2)."""
        return None if bool(mine.type.named) == bool(other.type.named) else f"the bits differ: `{mine.type.text}`, `{other.type.text}`"

    def list(self, mine: Side, other: Side) -> Optional[str]:
        """The element of a list."""
        if mine.type.form is not other.type.form:
            return f"`{mine.type.text}` is printed for `{other.type.text}`"
        return self.compare(mine.part(mine.type.element), other.part(other.type.element))

    def choice(self, mine: Side, other: Side) -> Optional[str]:
        """Alternatives. Which of them an extension added says nothing about a value."""
        return self.members(mine, other)

    def structure(self, mine: Side, other: Side) -> Optional[str]:
        """Members of the same form."""
        return self.members(mine, other) if mine.type.form is other.type.form else f"`{mine.type.text}` is printed for `{other.type.text}`"

    def members(self, mine: Side, other: Side) -> Optional[str]:
        """Members or alternatives, how each is there, and the extension marker."""
        ours, theirs = [members_of(it.program, it.type, it.scope) for it in (mine, other)]
        is_choice = isinstance(mine.type, tree.ChoiceType)
        if not is_choice and not mine.is_wide() and levels(ours) != levels(theirs):
            return f"the additions differ: `{mine.type.text}`, `{other.type.text}`"
        if len(ours) != len(theirs) or is_extensible(mine.type, mine.scope) != is_extensible(other.type, other.scope):
            return f"the members differ: `{mine.type.text}`, `{other.type.text}`"
        for one, two in zip(ours, theirs):
            if not self.is_named_alike(one.member, two.member):
                return f"the names differ: `{mine.type.text}`, `{other.type.text}`"
            found = self.compare(mine.part(one.member.type, one.scope), other.part(two.member.type, two.scope))
            if found or not self.is_there_alike(mine, one, other, two):
                return f"{two.member.name}: {found or f'it is there otherwise: `{one.member.text}`, `{two.member.text}`'}"
        return None

    def is_named_alike(self, one: tree.Member, two: tree.Member) -> bool:
        """Whether two members have the same name, as far as the printed ones have names. Those of terms have none."""
        return True

    def is_there_alike(self, mine: Side, one, other: Side, two) -> bool:
        """Whether two members are there alike: with the same default, and if they are always there both in the root or both after the marker."""
        presences = (one.member.presence, two.member.presence)
        if presences[0] is not presences[1]:
            return False
        if presences[0] is tree.Presence.DEFAULT:
            return self.default(mine.program, one) in ("{}", self.default(other.program, two))
        groups = [it.member.group is not None for it in (one, two)]
        return isinstance(mine.type, tree.ChoiceType) or presences[0] is tree.Presence.OPTIONAL or groups[0] == groups[1]

    def default(self, program: Program, resolved) -> object:
        """A default: a truth, a number, the number of an item, or braces for none of these."""
        side = Side(program, resolved.member.type, resolved.scope)
        while side.opened() or side.type.tags:
            side = side.untagged() if side.type.tags else side.opened()
        value, type_ = resolved.member.default, side.type
        if isinstance(type_, tree.EnumeratedType) and isinstance(value, tree.NamedValue):
            numbers = dict(zip((it.name for it in type_.items), enumerated_numbers(program, type_.items, side.scope)))
            named = value if value.name in numbers else value_of(program, value, resolved.scope)[0]
            return numbers.get(named.name)
        number = integer_of(program, value, resolved.scope, getattr(type_, "named", []))
        found, _ = value_of(program, value, resolved.scope)
        if isinstance(found, tree.BooleanValue):
            return found.truth
        return "{}" if number is None and isinstance(found, tree.BraceValue) and not found.tokens else number


class NamedAgreement(Agreement):
    """Compares the printed types of a table with those of modules, and their names of members, items and bits, too.

    Those of numbers are there where each value of the type has one.
    """

    def is_named_alike(self, one: tree.Member, two: tree.Member) -> bool:
        """Whether two members have the same name."""
        return one.name == two.name

    def is_there_alike(self, mine: Side, one, other: Side, two) -> bool:
        """Whether two members are there alike. One whose default is neither a truth nor a number is optional in a table."""
        if one.member.presence is tree.Presence.OPTIONAL and two.member.presence is tree.Presence.DEFAULT:
            return not isinstance(self.default(other.program, two), int)
        return super().is_there_alike(mine, one, other, two)

    def kinds(self, mine: Side, other: Side) -> Optional[str]:
        """How two types without names and tags differ, or the names in them."""
        found, names = super().kinds(mine, other), named(mine)
        if found or names == named(other) or isinstance(mine.type, tree.IntegerType) and not names:
            return found
        return f"the names differ: `{mine.type.text}`, `{other.type.text}`"


def named(side: Side) -> list[tuple[str, Optional[int]]]:
    """The names of items, bits or numbers with their numbers."""
    type_ = side.type
    if isinstance(type_, tree.EnumeratedType):
        items = [*type_.items, *type_.additions]
        numbers = [*enumerated_numbers(side.program, type_.items, side.scope), *addition_numbers(side.program, type_, side.scope)]
        return [*zip((it.name for it in items), numbers)]
    return [(it.name, integer_of(side.program, it.number, side.scope)) for it in getattr(type_, "named", [])]
