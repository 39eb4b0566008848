"""Places in a text, and what is said of them."""
from dataclasses import dataclass, field
from enum import Enum


@dataclass(frozen=True, order=True)
class Place:
    """A line and a column of a file, both counted from 1."""

    path: str
    line: int
    column: int

    def __str__(self) -> str:
        return f"{self.path}:{self.line}:{self.column}"


class Severity(Enum):
    """Whether a problem stops the command."""

    ERROR = "error"
    WARNING = "warning"


@dataclass(frozen=True)
class Problem:
    """An error or a warning, with its place and the clause of the standard that says so."""

    place: Place
    text: str
    clause: str
    severity: Severity = Severity.ERROR

    def __str__(self) -> str:
        return f"{self.place}: {self.severity.value}: {self.text} ({self.clause})"


class NotationError(Exception):
    """The notation can't be read on from here."""

    def __init__(self, place: Place, text: str, clause: str) -> None:
        super().__init__(text)
        self.problem = Problem(place, text, clause)


class NotGiven(NotationError):
    """The notation can't be read on, since a type that it names isn't given."""


@dataclass
class Problems:
    """The errors and warnings of a run. A strict run has errors in place of warnings of deviations."""

    strict: bool = False
    found: list = field(default_factory=list)

    def add(self, problem: Problem) -> None:
        """Keeps a problem, each one once."""
        if problem not in self.found:
            self.found.append(problem)

    def deviation(self, place: Place, text: str, clause: str) -> None:
        """Says that a module isn't what the standard allows, though it is plain what is meant."""
        self.add(Problem(place, text, clause, Severity.ERROR if self.strict else Severity.WARNING))

    def warn(self, place: Place, text: str, clause: str) -> None:
        """Says what a reader of the output should know."""
        self.add(Problem(place, text, clause, Severity.WARNING))

    def error(self, place: Place, text: str, clause: str) -> None:
        """Says what makes the module unusable."""
        self.add(Problem(place, text, clause))

    def of(self, severity: Severity) -> list[Problem]:
        """The problems of one severity, in the order of their places."""
        return sorted((it for it in self.found if it.severity is severity), key=lambda it: it.place)
