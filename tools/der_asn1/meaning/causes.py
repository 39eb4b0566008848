"""Why types aren't those of the notation: one cause for each member that lacks something, and the types that contain it."""
from collections.abc import Iterable
from dataclasses import dataclass, replace
from typing import Union

from ..parse.source import Place, Problem, Problems, Severity
from .features import Feature, Level, Note

_PAGE = "docs/ASN1.md"


@dataclass(frozen=True)
class Where:
    """A member, or a type that has a name: its place, its module, the type that it is in, and the name of the member if it is one."""

    place: Place
    module: str = ""
    owner: str = ""
    member: str = ""

    def shown(self) -> str:
        """What a message calls it."""
        return f"`{self.member}` of `{self.owner}`" if self.member else f"`{self.owner}`"


@dataclass(frozen=True)
class Cause:
    """What the library lacks for a member, or what it needs of its own."""

    where: Where
    lack: Union[Feature, Note]

    @property
    def level(self) -> Level:
        """The level of a type that contains it."""
        return self.lack.level

    @property
    def text(self) -> str:
        """What is lacking."""
        return self.lack.text

    def refusal(self, number: int) -> str:
        """Why a crate isn't written, how many types contain the cause, and which option writes it."""
        what, why = self.where.shown(), f"{self.text}{_containing(number)}"
        if self.level is Level.REFUSED:
            return f"{what} has no type: {why}. `--allow-raw` keeps as bytes what contains it"
        if self.level >= Level.PARTLY_RAW:
            return f"{what} would be kept as bytes: {why}. `--allow-raw {self.where.owner}` allows it"
        return f"{what} would have other values than the notation: {why}. `--allow-wider {self.where.owner}` allows it"


class Allowed:
    """The types for which an option is given: all of them, those with some names, or none."""

    def __init__(self, given: Iterable[str] = ()) -> None:
        names = list(given)
        self.all = "" in names
        self.names = frozenset(name for it in names for name in it.split(",") if name)

    def has(self, where: Where) -> bool:
        """Whether it is given for the type that this is in."""
        return self.has_name(where.owner)

    def has_name(self, name: str) -> bool:
        """Whether it is given for the type with this name."""
        return self.all or name in self.names


def counts(found: Iterable[Iterable[Cause]]) -> dict[Cause, int]:
    """How many types contain each cause, by the causes of each type. The causes are in the order of their places."""
    numbers: dict[Cause, int] = {}
    for causes in found:
        for it in causes:
            numbers[it] = numbers.get(it, 0) + 1
    return {it: numbers[it] for it in sorted(numbers, key=lambda it: (it.where.place, it.where.owner, it.lack.name))}


def counted(problems: Problems, numbers: dict[Cause, int]) -> None:
    """Says in each error at the place of a cause how many types contain it."""
    most: dict[Place, int] = {}
    for cause, number in numbers.items():
        most[cause.where.place] = max(number, most.get(cause.where.place, 0))
    problems.found = [_counted(it, most[it.place]) if it.place in most else it for it in problems.found]


def _counted(problem: Problem, number: int) -> Problem:
    is_said = problem.severity is not Severity.ERROR or problem.text.endswith(_containing(number))
    return problem if is_said else replace(problem, text=f"{problem.text}{_containing(number)}")


def _containing(number: int) -> str:
    return f"; {number} {'type contains' if number == 1 else 'types contain'} it"


def refuse(problems: Problems, numbers: dict[Cause, int], raw: Allowed, wider: Allowed) -> None:
    """One error for each cause that no option allows, unless there is one at its place already."""
    counted(problems, numbers)
    said = {it.place for it in problems.of(Severity.ERROR)}
    for cause, number in numbers.items():
        needs_raw = cause.level >= Level.PARTLY_RAW
        if cause.level in (Level.EXACT, Level.OPEN) or cause.where.place in said:
            continue
        if not (raw if needs_raw else wider).has(cause.where):
            problems.error(cause.where.place, cause.refusal(number), _PAGE)
