"""Names, across the modules that are given (X.680, 13 and 14; X.683, 9)."""
import os
from dataclasses import dataclass, field
from typing import Iterable, Optional, Union

from ..parse import tree
from ..parse.source import Place, Problems

# Names for an element of any type, which compilers of others have without a definition.
# what stands for the type of a field of values begins so, which no name of a module does: over it a tag is as over that type
FIXED_FIELD = "&fixed"
BUILT_IN_ANY = frozenset(("heim_any", "heim_any_set", "HEIM_ANY", "HEIM_ANY_SET"))


@dataclass(frozen=True)
class Binding:
    """What a parameter stands for, and where the names in it are looked up."""

    argument: tree.Argument
    scope: "Scope"


@dataclass(frozen=True)
class Scope:
    """Where names are looked up: a module, and the parameters of the assignment that the names are in."""

    module: tree.Module = field(hash=False, compare=False)
    key: tuple = ()
    bindings: tuple = field(default=(), hash=False, compare=False)

    def binding(self, name: str) -> Optional[Binding]:
        """What a parameter stands for, or None if the name is none."""
        return next((it for known, it in self.bindings if known == name), None)


@dataclass(frozen=True)
class Found:
    """An assignment, and the scope of the names in it."""

    assignment: tree.Assignment
    scope: Scope


def _is_same(first: tree.Assignment, other: tree.Assignment) -> bool:
    """Whether two assignments of types have the same text."""
    return isinstance(first, tree.TypeAssignment) and isinstance(other, tree.TypeAssignment) and first.type.text == other.type.text


class Program:
    """The modules that are given, by their names. The `imported` ones are there for what the others import."""

    def __init__(self, modules: list[tree.Module], problems: Problems, imported: Iterable[tree.Module] = ()) -> None:
        self.modules, self.problems = modules, problems
        self.by_name, self.by_stem, self.indexes = {}, {}, {}
        self.by_import = {}  # modules that are imported from under another name than theirs
        self.of_one_name: dict[str, list[tree.Module]] = {}
        self.all_modules = [*modules, *imported]
        for module in modules:
            self.add(module, True)
        for module in self.all_modules[len(modules) :]:
            self.add(module, False)

    def add(self, module: tree.Module, is_own: bool) -> None:
        """Makes a module known by its name and that of its file. The first one of a name has it."""
        first = self.by_name.setdefault(module.name.lower(), module)
        self.of_one_name.setdefault(module.name.lower(), []).append(module)
        if is_own and first is not module:
            said = self.problems.error if first.path == module.path else self.problems.deviation
            said(module.place, f"the module `{module.name}` is in {first.path}, too, which is used", "X.680, 13.1")
        self.by_stem.setdefault(os.path.splitext(os.path.basename(module.path))[0].lower(), module)
        self.indexes[id(module)] = self.index(module)

    def index(self, module: tree.Module) -> dict[str, tree.Assignment]:
        """The assignments of a module by their names. A name has one of them (X.680, 13.10), or the same one twice, which is plain."""
        found = {}
        for it in module.assignments:
            first = found.setdefault(it.name, it)
            if first is not it and not isinstance(it, tree.UnreadAssignment):
                said = self.problems.deviation if _is_same(first, it) else self.problems.error
                said(it.place, f"`{it.name}` is assigned at {first.place.line}:{first.place.column} too, which is used", "X.680, 13.10")
        return found

    def module_named(self, name: str, asking: Optional[tree.Module] = None) -> Optional[tree.Module]:
        """The module with this name, or else in a file with this name, or imported under it. It isn't the module that asks."""
        found = self.by_name.get(name.lower()) or self.by_stem.get(name.lower()) or self.by_import.get(name.lower())
        return None if found is asking else found

    def scope_of(self, module: tree.Module) -> Scope:
        """The scope of a module's own names."""
        return Scope(module, (module.path, module.name))

    def home_of(self, name: tree.Import, module: Optional[tree.Module] = None) -> Optional[tree.Module]:
        """The module that a name is imported from, if it is given. It isn't the module that asks.

        Of several modules of one name it is the first one. If the name has parameters, it is the first one in which it has some (X.683, 9.1).
        """
        first = self.module_named(name.module, module)
        if first is None or not name.has_parameters:
            return first
        homes = [first, *self.of_one_name[first.name.lower()]]
        return next((it for it in homes if it is not module and self.has_parameters(name.name, it)), first)

    def has_parameters(self, name: str, module: tree.Module) -> bool:
        """Whether a module has an assignment of this name with parameters."""
        found = self.indexes[id(module)].get(name)
        return bool(found and found.parameters)

    def import_of(self, name: str, module: tree.Module) -> Optional[tree.Import]:
        """The import of a name, or None."""
        return next((it for it in module.imports if it.name == name), None)

    def source_of(self, name: str, module: tree.Module) -> Optional[str]:
        """The name of the module that a name is imported from, or None."""
        found = self.import_of(name, module)
        return found.module if found else None

    def why_not_imported(self, name: tree.Import, module: tree.Module) -> str:
        """Why a module that is given has no name that another module, or itself, imports from it."""
        home = self.module_named(name.module)
        if home is module:
            return f"`{module.name}` imports `{name.name}` from itself"
        return f"the module `{home.name if home else name.module}` has no `{name.name}`"

    def is_elsewhere(self, name: str, module_name: Optional[str], module: tree.Module) -> bool:
        """Whether a name would be of a module that isn't given: one that is written before it, or that it is imported from."""
        source = module_name or self.source_of(name, module)
        return source is not None and self.module_named(source) is None

    def find(
        self,
        name: str,
        scope: Scope,
        module_name: Optional[str] = None,
        place: Optional[Place] = None,
    ) -> Optional[Union[Binding, Found]]:
        """The assignment or the binding of a name, or None. A name at a place may be one that isn't imported, though it should be."""
        if module_name is None and scope.binding(name):
            return scope.binding(name)
        home = scope.module if module_name is None else self.module_named(module_name)
        found = self.find_in(name, home, ())
        return found or self.find_unimported(name, scope.module, place) if place else found

    def find_unimported(self, name: str, module: tree.Module, place: Place) -> Optional[Found]:
        """The assignment of a name that isn't imported: the only one of that name, in the module's folder or else anywhere."""
        if self.source_of(name, module):
            return None
        homes = [it for it in self.modules if it is not module and name in self.indexes[id(it)]]
        near = [it for it in homes if os.path.dirname(it.path) == os.path.dirname(module.path)]
        homes = near or homes
        if len(homes) != 1:
            return None
        self.problems.deviation(place, f"`{name}` of the module `{homes[0].name}` isn't imported", "X.680, 13.16")
        return self.find_in(name, homes[0], ())

    def find_in(self, name: str, module: Optional[tree.Module], visited: tuple[int, ...]) -> Optional[Found]:
        """The assignment of a name that is seen in a module."""
        if module is None or id(module) in visited:
            return None
        found = self.indexes[id(module)].get(name)
        if found:
            return Found(found, self.scope_of(module))
        source = self.import_of(name, module)
        return self.find_in(name, self.home_of(source, module), (*visited, id(module))) if source else None

    def apply(self, found: Found, arguments: list[tree.Argument], scope: Scope) -> Optional[Scope]:
        """The scope inside of a parameterized assignment with these arguments, or None if there are too few (X.683, 9.7)."""
        parameters = found.assignment.parameters
        if len(arguments) != len(parameters):
            return None
        bindings = tuple((it.name, self.bind(argument, scope)) for it, argument in zip(parameters, arguments))
        key = (*found.scope.key, found.assignment.name, *((it.argument.text, it.scope.key) for _, it in bindings))
        return Scope(found.scope.module, key, bindings)

    def bind(self, argument: tree.Argument, scope: Scope) -> Binding:
        """The binding of an argument. One that is a parameter itself is what that one stands for."""
        name = None
        if isinstance(argument.type, tree.ReferenceType) and not argument.type.arguments and not argument.type.tags:
            name = argument.type.name
        elif isinstance(argument.value, tree.NamedValue):
            name = argument.value.name
        elif argument.set_tokens and len(argument.set_tokens) == 1:
            name = argument.set_tokens[0].text
        return (name and scope.binding(name)) or Binding(argument, scope)


@dataclass(frozen=True)
class Resolved:
    """A type that is no reference, with the constraints of the references on the way and the scope of its names."""

    type: Optional[tree.Type]
    scope: Scope


def resolve(program: Program, type_: tree.Type, scope: Scope, depth: int = 0) -> Resolved:
    """The type that names without tags lead to. None in place of the type if a name leads nowhere."""
    if not isinstance(type_, tree.ReferenceType) or depth > 40:
        return Resolved(type_ if depth <= 40 else None, scope)
    target = target_of(program, type_, scope)
    return resolve(program, target.type, target.scope, depth + 1) if target else Resolved(None, scope)


def target_of(program: Program, reference: tree.ReferenceType, scope: Scope) -> Optional[Resolved]:
    """What a reference to a type names: the type and its scope, or None."""
    found = program.find(reference.name, scope, reference.module, reference.place)
    if isinstance(found, Binding):
        return Resolved(found.argument.type, found.scope) if found.argument.type else None
    if found is None or not isinstance(found.assignment, (tree.TypeAssignment, tree.SetAssignment)):
        return None
    inside = found.scope
    if found.assignment.parameters or reference.arguments:
        inside = program.apply(found, reference.arguments or [], scope)
    if inside is None:
        wanted, given = len(found.assignment.parameters), len(reference.arguments or [])
        program.problems.error(reference.place, f"`{reference.name}` has {wanted} parameters, and {given} arguments are given", "X.683, 9.7")
    return Resolved(found.assignment.type, inside) if inside else None
