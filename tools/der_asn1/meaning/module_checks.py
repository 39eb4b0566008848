"""What X.680 asks of modules: what they import is there, and each value is one of its type."""
from typing import Optional

from ..parse import tree
from .checks import Checks
from .objects import class_named
from .scopes import Binding, Found, Program, Scope
from .values import arcs_of

_DEPTH = 40


def identified(program: Program) -> Program:
    """The same program, which also knows by its object identifier a module that is imported from under another name (X.680, 13.16)."""
    modules = [it for it in program.all_modules if it.identifier]
    by_arcs = {}
    for it in modules:
        by_arcs.setdefault(_arcs(program, it.identifier, it), it)
    for module in program.all_modules:
        for it in module.imports:
            if it.identifier and program.module_named(it.module) is None:
                found = by_arcs.get(_arcs(program, it.identifier, module))
                if found is not None and found is not module:
                    program.by_import[it.module.lower()] = found
    return program


def _arcs(program: Program, tokens: list, module: tree.Module) -> Optional[tuple]:
    """The arcs of a module's identifier. One whose names lead nowhere has none, which isn't those of another one."""
    found = arcs_of(program, tree.BraceValue(tokens[0].place, tokens), program.scope_of(module))
    return tuple(found) if found else (id(tokens),)


class ModuleChecks:
    """Looks at modules with all their assignments."""

    def __init__(self, program: Program) -> None:
        self.program, self.checks = program, Checks(program)

    def module(self, module: tree.Module) -> None:
        """All of a module. What has parameters is looked at where it is used."""
        scope = self.program.scope_of(module)
        for it in module.assignments:
            if isinstance(it, tree.TypeAssignment) and not it.parameters:
                self.checks.assignment(Found(it, scope))
            elif isinstance(it, tree.ValueAssignment) and not it.parameters:
                self.value(it, scope)
        for it in module.imports:
            self.imported(it, module)

    def imported(self, name: tree.Import, module: tree.Module) -> None:
        """What a module imports is in the module that it names, which exports it (X.680, 13.16)."""
        home = self.program.home_of(name)
        if home is None:
            return
        if home is module:
            self.program.problems.error(name.place, self.program.why_not_imported(name, module), "X.680, 13.16")
        elif self.program.find_in(name.name, home, ()) is None and not self.program.source_of(name.name, home):
            self.program.problems.deviation(name.place, self.program.why_not_imported(name, module), "X.680, 13.16")
        elif home.exports is not None and name.name not in home.exports:
            self.program.problems.error(name.place, f"the module `{home.name}` doesn't export `{name.name}`", "X.680, 13.16")

    def value(self, assignment: tree.ValueAssignment, scope: Scope) -> None:
        """A value with a name, which isn't an object of a class."""
        type_ = assignment.type
        if isinstance(type_, tree.ReferenceType) and class_named(self.program, type_.name, scope):
            return
        loop = self.loop(assignment, scope)
        if loop:
            text = f"`{assignment.name}` is defined by itself alone: {' ::= '.join(loop)}"
            self.program.problems.error(assignment.place, text, "X.680, 16.2")
            return
        if isinstance(assignment.value, tree.NamedValue) and isinstance(self.program.find(assignment.value.name, scope), Binding):
            return
        self.checks.type(type_, scope)
        self.checks.value(assignment.value, type_, scope, "X.680, 16.2")

    def loop(self, assignment: tree.ValueAssignment, scope: Scope) -> list[str]:
        """The names by which a value leads to itself, or none."""
        names, found = [assignment.name], Found(assignment, scope)
        while isinstance(found, Found) and isinstance(found.assignment, tree.ValueAssignment) and len(names) < _DEPTH:
            value = found.assignment.value
            if not isinstance(value, tree.NamedValue):
                return []
            found = self.program.find(value.name, found.scope, value.module)
            names.append(value.name)
            if isinstance(found, Found) and found.assignment is assignment:
                return names
        return []
