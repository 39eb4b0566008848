"""The table of how well the types of modules are expressed, and which features are missing."""
from collections import Counter
from dataclasses import dataclass, field
from typing import Iterable, Union

from .meaning.causes import counted, counts
from .meaning.examples import of_type
from .meaning.features import OUTSIDE, Feature, Level, Note
from .meaning.meaning import Meaning, lacks
from .meaning.module_checks import ModuleChecks, identified
from .meaning.objects import class_named
from .meaning.scopes import Program
from .meaning.recursion import DEPTH
from .meaning.types import Meanings, recursion_in
from .parse import tree
from .parse.source import Problems, Severity


@dataclass
class Row:
    """A type of a module with its meaning. `has_example` says that a readable value of it is found when a program is checked."""

    module: tree.Module
    name: str
    meaning: Meaning
    has_example: bool = False

    @property
    def level(self) -> Level:
        """How well it is expressed."""
        return self.meaning.level


@dataclass
class Report:
    """The types of some modules. `templates` are those with parameters, which count where they are used. `wrong` are the files with errors."""

    rows: list[Row] = field(default_factory=list)
    modules: list[tree.Module] = field(default_factory=list)
    templates: int = 0
    values: int = 0
    wrong: set[str] = field(default_factory=set)

    def add(self, other: "Report") -> None:
        """Takes over another report."""
        self.rows += other.rows
        self.modules += other.modules
        self.templates += other.templates
        self.values += other.values
        self.wrong |= other.wrong

    def plain_modules(self) -> list[tree.Module]:
        """The modules that are written without a flag: those without an error, whose types all are."""
        others = {id(it.module) for it in self.rows if not it.level.is_plain}
        return [it for it in self.modules if id(it) not in others and it.path not in self.wrong]

    def complete_modules(self) -> list[tree.Module]:
        """The modules that could be written: those without an error, in which all is there that their types name."""
        others = {id(it.module) for it in self.rows if it.meaning.missing & OUTSIDE}
        return [it for it in self.modules if id(it) not in others and it.path not in self.wrong]


def report_of(
    modules: list[tree.Module],
    problems: Problems,
    imported: Iterable[tree.Module] = (),
    depth: int = DEPTH,
    optional_defaults: bool = False,
) -> Report:
    """The report of modules that see each other, and those that are imported from."""
    program = identified(Program(modules, problems, imported))
    meanings = Meanings(program, recursion=recursion_in(program, depth), optional_defaults=optional_defaults)
    checks = ModuleChecks(program)
    found = Report(modules=list(modules))
    for module in modules:
        checks.module(module)
        for it in program.indexes[id(module)].values():
            _add(found, meanings, module, it)
    counted(problems, counts(it.causes for it in meanings.known.values()))
    found.wrong = {it.place.path for it in problems.of(Severity.ERROR)}
    return found


def _add(report: Report, meanings: Meanings, module: tree.Module, assignment: tree.Assignment) -> None:
    if isinstance(assignment, tree.UnreadAssignment):
        report.rows.append(Row(module, assignment.name, Meaning(None).lacking(Feature.NOT_READ)))
    elif isinstance(assignment, tree.ValueAssignment):
        report.values += 1
    elif isinstance(assignment, tree.TypeAssignment):
        if assignment.parameters:
            report.templates += 1
        elif not _names_a_class(meanings, assignment, module):
            meaning = meanings.of_assignment(assignment, module)
            found = bool(meaning.rust) and of_type(meaning.rust.type, meanings.declarations.by_name)
            report.rows.append(Row(module, assignment.name, meaning, found))


def _names_a_class(meanings: Meanings, assignment: tree.TypeAssignment, module: tree.Module) -> bool:
    type_ = assignment.type
    return isinstance(type_, tree.ReferenceType) and class_named(meanings.program, type_.name, meanings.program.scope_of(module)) is not None


# ---- as text

_LEVELS = list(Level)


def counts_line(label: str, rows: list[Row], width: int) -> str:
    """One line of the table."""
    counts = Counter(it.level for it in rows)
    return f"{label:{width}} {len(rows):6}" + "".join(f"{counts[it]:12}" for it in _LEVELS)


def heading(width: int) -> str:
    """The first line of the table."""
    return f"{'':{width}} {'types':>6}" + "".join(f"{it.shown:>12}" for it in _LEVELS)


def table(report: Report) -> list[str]:
    """The table by modules, and the line of all."""
    width = max([8, *(len(it.name) for it in report.modules)])
    lines = [heading(width)]
    for module in report.modules:
        lines.append(counts_line(module.name, [it for it in report.rows if it.module is module], width))
    return [*lines, counts_line("in all", report.rows, width)]


def types_table(report: Report) -> list[str]:
    """A line for each type: where it is, how well it is expressed and as which type, and what is missing."""
    lines = []
    for it in report.rows:
        missing = ", ".join(lacks(it.meaning))
        rust = it.meaning.rust.text if it.meaning.rust else "no type"
        lines.append(f"{it.module.name}.{it.name}: {it.level.shown}, {rust}" + (f"; {missing}" if missing else ""))
    return lines


def summary(report: Report) -> list[str]:
    """What is written without a flag, what is exact, and what the exact types leave open."""
    total, exact = len(report.rows), [it for it in report.rows if it.level is Level.EXACT]
    plain = [it for it in report.rows if it.level.is_plain]
    by_hand = [it for it in report.rows if it.level is Level.BY_HAND]
    to_depth = [it for it in report.rows if it.level is Level.TO_DEPTH]
    complete = [it for it in report.rows if not it.meaning.missing & OUTSIDE]
    closed = [it for it in exact if Note.OPEN not in it.meaning.notes]
    lines = [
        f"{share(len(report.plain_modules()), len(report.modules))} modules written without a flag",
        f"{share(len(report.plain_modules()), len(report.complete_modules()))} modules written without a flag, of those whose notation is complete",
        f"{share(len(plain), total)} types written without a flag",
        f"{share(len(exact), total)} types exact and written",
        f"{share(len(closed), total)} types exact and written, without an open type",
        f"{share(sum(not it.meaning.missing & OUTSIDE for it in exact), len(complete))} types exact and written, of those whose notation is complete",
        f"{share(sum(not it.meaning.missing for it in complete), len(complete))} types exact, or exact to a depth, and written, of these",
        f"{share(len(to_depth), total)} types written to a depth, since they contain themselves",
        f"{share(len(by_hand), total)} types exact only with types by hand, in place of which `--allow-wider` writes wider ones",
    ]
    for note in Note:
        count = sum(note in it.meaning.notes for it in (by_hand if note.is_own else exact))
        if count:
            lines.append(f"    {count:5} of {'those by hand' if note.is_own else 'the exact ones'}: {note.text}")
    return lines


def share(count: int, total: int) -> str:
    """A count with its part of the whole."""
    return f"{count} of {total} ({100 * count / total if total else 0:.1f} %)"


def without_exact(report: Report) -> list[str]:
    """The types that have neither `Exact` nor `Faithful`, each with the reason: those without a type."""
    missing = [it for it in report.rows if it.meaning.rust is None]
    reasons = [", ".join(sorted(one.text for one in it.meaning.features)) for it in missing]
    counted = f"{share(len(report.rows) - len(missing), len(report.rows))} with `Exact` and `Faithful`"
    return [counted, *(f"    {it.module.name}.{it.name} has none: {reason}" for it, reason in zip(missing, reasons))]


def without_inhabited(report: Report) -> list[str]:
    """The types that can't have `Inhabited`: those without a type, and those of which no readable value is found."""
    missing = [it for it in report.rows if it.meaning.rust and not it.has_example]
    counted = f"{share(sum(it.has_example for it in report.rows), len(report.rows))} with `Inhabited`"
    return [counted, *(f"    {it.module.name}.{it.name} has none: no readable value is found" for it in missing)]


def features_table(report: Report) -> list[str]:
    """How many types each missing feature or type by hand stops, and how many lack it alone."""
    stops, alone = Counter(), Counter()
    for it in report.rows:
        stops.update(it.meaning.missing)
        if len(it.meaning.missing) == 1:
            alone.update(it.meaning.missing)
    lines = [f"{'stops':>6} {'alone':>6}  missing feature"]
    ordered = sorted(stops, key=lambda it: (-stops[it], it.name))
    return lines + [f"{stops[it]:6} {alone[it]:6}  {it.text}" for it in ordered]


def greedy(report: Report) -> list[str]:
    """The missing features in the order in which each makes the most further types exact."""
    missing = [it.meaning.missing for it in report.rows]
    done, lines = frozenset(), []
    count = sum(not it for it in missing)
    lines.append(f"{count:6}  exact and written now")
    while True:
        left = frozenset().union(*missing) - done - OUTSIDE
        if not left:
            break
        best = max(left, key=lambda it: (_exact_with(missing, done | {it}), _weight(missing, done, it), it.name))
        done |= {best}
        count = _exact_with(missing, done)
        lines.append(f"{count:6}  with {best.text}")
    return lines


def _exact_with(missing: list[frozenset], done: frozenset) -> int:
    return sum(it <= done for it in missing)


def _weight(missing: list[frozenset], done: frozenset, feature: Union[Feature, Note]) -> float:
    """How near types that lack a feature are to being exact with it."""
    return sum(1 / len(it - done) for it in missing if feature in it)


def whole(report: Report) -> list[str]:
    """All of the report as lines."""
    return [
        *table(report),
        "",
        *summary(report),
        "",
        *without_exact(report),
        *without_inhabited(report),
        "",
        *features_table(report),
        "",
        *greedy(report),
        "",
        f"{report.templates} types with parameters and {report.values} values aren't counted",
    ]
