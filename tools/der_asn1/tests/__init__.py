"""Tests of the compiler. What they expect is worked out from the standards, and written before it is run."""
from ..meaning.scopes import Program
from ..meaning.recursion import DEPTH
from ..meaning.types import Meanings, recursion_in
from ..parse.modules import read_text
from ..parse.source import Problems


def module_text(body, header="EXPLICIT TAGS"):
    """The text of a module `M` with these assignments, which begin on its second line."""
    return f"M DEFINITIONS {header} ::= BEGIN\n{body}\nEND\n"


def read(body, header="EXPLICIT TAGS", strict=False):
    """The module with these assignments, and what is said of it."""
    problems = Problems(strict)
    (module,) = read_text(module_text(body, header), "m.asn1", problems)
    return module, problems


def read_clean(case, body, header="EXPLICIT TAGS"):
    """The module with these assignments, of which nothing may be said."""
    module, problems = read(body, header)
    case.assertEqual([], [str(it) for it in problems.found])
    return module


def type_of(case, notation, header="EXPLICIT TAGS"):
    """A type as it is read."""
    return read_clean(case, f"T ::= {notation}", header).assignments[0].type


def value_of(case, notation, type_="INTEGER"):
    """A value as it is read."""
    return read_clean(case, f"v {type_} ::= {notation}").assignments[0].value


class Given:
    """Modules that see each other, and the meanings of their types."""

    def __init__(self, *texts, depth=DEPTH):
        self.problems = Problems()
        modules = [it for number, text in enumerate(texts) for it in read_text(text, f"{number}.asn1", self.problems)]
        self.program = Program(modules, self.problems)
        self.meanings = Meanings(self.program, recursion=recursion_in(self.program, depth))

    def assignment(self, name, module=0):
        """An assignment with its module."""
        home = self.program.modules[module]
        return self.program.indexes[id(home)][name], home

    def scope(self, module=0):
        """The scope of a module."""
        return self.program.scope_of(self.program.modules[module])

    def meaning(self, name, module=0):
        """The meaning of a type by its name."""
        return self.meanings.of_assignment(*self.assignment(name, module))


def given(body, header="EXPLICIT TAGS"):
    """A module `M` with these assignments, with the meanings of its types."""
    return Given(module_text(body, header))
