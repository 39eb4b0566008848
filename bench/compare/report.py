"""Compares the results, and says by which rule they differ."""
from collections.abc import Iterable
from dataclasses import dataclass

from causes import OPENSSL, PYCA, RULES, THIS, Rule
from lines import Answer, Line
from structures import broken_rules

PROGRAMS = (THIS, PYCA, OPENSSL)
UNCLASSIFIED = ("unclassified",)


def verdict_of(answer: Answer, wanted: str) -> str:
    """The verdict of a program on a line, if this value is wanted."""
    if not answer.is_read:
        return "refuses"
    return "reads" if answer.value == wanted else "other value"


@dataclass(frozen=True)
class Compared:
    """A line, with what each program printed."""

    line: Line
    answers: dict[str, Answer]

    def verdicts(self) -> tuple[str, ...]:
        """The verdict of each program on the line. The wanted value is the one that this repository's program reads, if it reads one."""
        own = self.answers[THIS]
        values = [it.value for it in self.answers.values() if it.is_read]
        wanted = own.value if own.is_read else next(iter(values), "")
        return tuple(verdict_of(self.answers[it], wanted) for it in PROGRAMS)

    def is_agreed(self) -> bool:
        """Whether all refuse the line, or read the same value."""
        return len(set(self.verdicts())) == 1


def explains(rules: Iterable[Rule], word: str, verdicts: tuple[str, ...]) -> bool:
    """Whether these rules, as the only ones that are broken, lead to these verdicts on a line of this word."""
    for program, verdict in zip(PROGRAMS, verdicts, strict=True):
        if (verdict == "refuses") != any(it.is_refused_by(program, word) for it in rules):
            return False
        if verdict == "other value" and not any(program in it.changed_by for it in rules):
            return False
    return True


def cause_of(compared: Compared) -> tuple[str, ...]:
    """The rule by which the programs differ, several where none does alone, or none where they agree."""
    word = compared.line.word
    broken = broken_rules(word, compared.line.data)
    verdicts = compared.verdicts()
    if broken is None:
        return () if set(verdicts) == {"refuses"} else UNCLASSIFIED
    names = sorted(broken, key=list(RULES).index)
    if not explains([RULES[it] for it in names], word, verdicts):
        return UNCLASSIFIED
    if compared.is_agreed():
        return ()
    for name in names:
        if explains([RULES[name]], word, verdicts):
            return (name,)
    return tuple(names)


@dataclass
class Difference:
    """The lines on which the programs differ in one way by one cause."""

    cause: tuple[str, ...]
    verdicts: tuple[str, ...]
    lines: list[Compared]

    def title(self) -> str:
        """The cause in words."""
        return " and ".join(self.cause)

    def row(self) -> str:
        """The row of the table."""
        clauses = "; ".join(dict.fromkeys(RULES[it].clause for it in self.cause if it in RULES))
        certificates = sum(it.line.word == "certificate" for it in self.lines)
        return f"| {self.title()} | {clauses} | {' | '.join(self.verdicts)} | {len(self.lines) - certificates} | {certificates} |"

    def example(self) -> str:
        """The shortest line, with its results."""
        compared = min(self.lines, key=lambda it: (len(it.line.data), it.line.data))
        answers = "\n".join(f"    {it}: {shortened(str(compared.answers[it]))}" for it in PROGRAMS)
        return f"{self.title()} ({', '.join(self.verdicts)})\n  {shortened(compared.line.text())}\n{answers}"


def shortened(text: str, most: int = 160) -> str:
    """The text, or its ends where it is long."""
    return text if len(text) <= most else f"{text[: most // 2]}..{text[-most // 2 :]} ({len(text)} signs)"


def differences(several: list[Compared]) -> list[Difference]:
    """The ways in which the programs differ, the commonest first, and what isn't classified before all.

    Lines on which all agree are held against the rules too, and aren't classified where these say otherwise.
    """
    found: dict[tuple[tuple[str, ...], tuple[str, ...]], Difference] = {}
    for compared in several:
        cause = cause_of(compared)
        if cause:
            key = (cause, compared.verdicts())
            found.setdefault(key, Difference(*key, [])).lines.append(compared)
    return sorted(found.values(), key=lambda it: (it.cause != UNCLASSIFIED, -len(it.lines)))


def counts(title: str, several: list[Compared]) -> str:
    """How many lines were compared, and on how many all agree."""
    agreed = [it for it in several if it.is_agreed()]
    read = sum(it.answers[THIS].is_read for it in agreed)
    return f"{title}: {len(several)}; all agree on {len(agreed)}, of which {read} are read and {len(agreed) - read} refused"


def report(kinds: dict[str, list[Compared]]) -> list[Difference]:
    """Prints how many lines of each kind were compared, the table of the differences, and an example of each."""
    for title, several in kinds.items():
        print(counts(title, several))
    found = differences([it for several in kinds.values() for it in several])
    print(f"\n| Cause | Clause | {' | '.join(PROGRAMS)} | {' | '.join(kinds)} |")
    print(f"|{'---|' * (2 + len(PROGRAMS) + len(kinds))}")
    for difference in found:
        print(difference.row())
    for difference in found:
        print(f"\n{difference.example()}")
    return found
