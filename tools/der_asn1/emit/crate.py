"""The files of a crate: its root, its types, its values, and the terms with the law that each type is the one of its term."""
from dataclasses import dataclass, field
from pathlib import Path
from typing import Iterable

from ..meaning.causes import Allowed, Cause
from ..meaning.declarations import AliasDeclaration, ChoiceDeclaration, Declaration, Declarations, EnumDeclaration, ListedDeclaration
from ..meaning.declarations import SetDeclaration, UnionDeclaration
from ..meaning.library_table import LIBRARY_NAMES
from ..meaning.named import Constant, Names
from ..meaning.terms import names_of
from ..parse import tree
from .choice import answers_path, serialize_answers
from .constructors import Made, constructor_file, is_made
from .copies import COPIES
from .enum import TERMS_FILE, terms_file
from .folder import NOTE
from .imports import MOST_GROUPED
from .layout import comment, filled, natural
from .listed import LISTED_FILE, is_element, is_encoded, listed_terms
from .many import MANY_FILE, has_many, many_terms
from .named import named_file
from .notation import defined, notation_file, notation_terms
from .private_names import PrivateNames
from .tried import later_answers, later_path, shared_proofs, tried_answers, tried_path
from .types import ONLY, Context, stems_of, types_file
from .union import ELEMENTS, TRIED, elements_file
from .values import Value, value_file

# the crates that each crate uses
NEEDS = "der_types picky_asn1_der picky_der_core picky_der_ser picky_der_de".split()
# what no file of a module or a group can be called
RESERVED = frozenset([ONLY, ELEMENTS, "constructors", "named", "values", "notation", "lib", "main", *NEEDS])
_REPOSITORY = Path(__file__).resolve().parents[3]


@dataclass
class Crate:
    """What a crate declares: its name, its types by their names, its values, and the modules that they are of.

    `elsewhere` has the other crate of each type that it names and doesn't declare. `groups` has the names of the types of each file that
    isn't the one of a module. `own` are the modules of `src` that are written by hand, by their names: the public names of each that the
    root exports. `own_terms` are those of `specs`. `causes` are why types aren't those of the notation, each with how many contain it.
    `constants` are the values that aren't object identifiers, `names` the names of bits, numbers and items, and `constructed` says for which
    types there are constructors.
    `derives` are the traits that all types derive, besides those that each has.
    """

    name: str
    types: dict[str, Declaration]
    values: list[Value]
    modules: list[tree.Module]
    elsewhere: dict[str, str] = field(default_factory=dict)
    groups: dict[str, list[str]] = field(default_factory=dict)
    own: dict[str, list[str]] = field(default_factory=dict)
    own_terms: list[str] = field(default_factory=list)
    causes: dict[Cause, int] = field(default_factory=dict)
    constants: list[Constant] = field(default_factory=list)
    names: list[Names] = field(default_factory=list)
    constructed: Allowed = field(default_factory=Allowed)
    derives: list[str] = field(default_factory=list)

    def files(self) -> dict[str, str]:
        """The text of each file, by its path in the crate."""
        found = {**self.type_files(), **self.term_files(), "src/lib.rt": self.file("//!", self.root(), self.module_names())}
        if self.has_unions():
            found[f"src/{ELEMENTS}.rt"] = self.file("//!", elements_file(), set())
            found.update({path: self.file("--", lines, set()) for path, lines in shared_proofs(self.name).items()})
        if self.values or self.constants:
            modules = {it.module for it in [*self.values, *self.constants]}
            found["src/values.rt"] = self.file("//!", value_file(self.values, self.constants), modules)
        if self.names:
            found["src/named.rt"] = self.file("//!", named_file(self.names), {it.module for it in self.names})
        made = self.with_constructors()
        if made:
            lines = constructor_file(made, self.homes(), self.types)
            found["src/constructors.rt"] = self.file("//!", lines, {it.module for it in made})
        return dict(sorted(found.items()))

    def with_constructors(self) -> list[Made]:
        """The types that have constructors, in the order of the files."""
        types = [it for found in self.types_by_stem().values() for it in found]
        return [it for it in types if is_made(it) and self.constructed.has_name(it.root)]

    def type_files(self) -> dict[str, str]:
        """The files of types, and the proofs of choices and of types that are tried."""
        found, stems, context = {}, self.stems(), self.context()
        for stem, types in self.types_by_stem().items():
            found[f"src/{stem}.rt"] = self.file("//!", types_file(types, stem, context), {it.module for it in types})
        for it in self.sorted_types():
            stem = stems[it.name]
            answers = serialize_answers(it, self.name, stem) if isinstance(it, ChoiceDeclaration) else []
            if answers:
                found[answers_path(it, stem)] = self.file("--", answers, {it.module})
            if isinstance(it, UnionDeclaration):
                found[tried_path(it.name, stem)] = self.file("--", tried_answers(it, self.name, stem), {it.module})
            if isinstance(it, ListedDeclaration) and is_element(it):
                found[later_path(it, stem)] = self.file("--", later_answers(it, self.name, stem), {it.module})
        return found

    def term_files(self) -> dict[str, str]:
        """The files of terms, and that of the law."""
        types, context = defined(self.sorted_types()), self.context()
        found = {}
        if types:
            modules = {it.module for it in types}
            found["src/notation.rt"] = self.file("//!", notation_file(types, context.homes, self.name), modules)
            found["specs/Notation.antt"] = self.file("--", notation_terms(types, self.modules, context.homes), modules)
        enumerations = [it for it in self.sorted_types() if isinstance(it, EnumDeclaration)]
        if enumerations:
            lines = terms_file(enumerations, self.name, self.stems())
            found[f"specs/{TERMS_FILE}.antt"] = self.file("--", lines, {it.module for it in enumerations})
        lists = [it for it in self.sorted_types() if isinstance(it, ListedDeclaration)]
        if lists:
            found[f"specs/{LISTED_FILE}.antt"] = self.file("--", listed_terms(lists), {it.module for it in lists})
        if any(map(has_many, self.types.values())):
            found[f"specs/{MANY_FILE}.antt"] = self.file("--", many_terms(), set())
        names = sorted([*(Path(it).stem for it in found if it.startswith("specs/")), *self.own_terms])
        if names:
            found["specs/Lib.antt"] = self.file("--", [f"pub mod {it}" for it in names], self.module_names())
        return found

    def has_unions(self) -> bool:
        """Whether some type is read as any element, and then tried."""
        return any(isinstance(it, UnionDeclaration) or isinstance(it, ListedDeclaration) and is_encoded(it) for it in self.types.values())

    def file(self, mark: str, lines: list[str], modules: set[str]) -> str:
        """The text of a file: a note that says what it is made from, and its lines."""
        paths = list(dict.fromkeys(shown(it.path) for it in self.modules if it.name in modules and Path(it.path).suffix))
        origin = "" if not paths else f" from {paths[0] if len(paths) == 1 else f'{len(paths)} modules of ASN.1'}"
        return "\n".join([f"{mark} {NOTE}{origin}. Don't edit.", *([mark] if mark == "//!" else []), *lines]) + "\n"

    def module_names(self) -> set[str]:
        """The names of the modules that something of the crate is of."""
        return {it.module for it in [*self.types.values(), *self.values, *self.constants]}

    def context(self) -> Context:
        """What the files of types depend on."""
        fields = {part.name for it in self.types.values() if not isinstance(it, (AliasDeclaration, SetDeclaration)) for part in it.parts()}
        return Context(self.name, self.homes(), PrivateNames([*self.homes(), *LIBRARY_NAMES, *fields]), self.types, tuple(self.derives))

    def homes(self) -> dict[str, str]:
        """The crate of each type, by its name, and of the defaults of enumerations: `crate` for this one."""
        defaults = [name for it in self.types.values() if isinstance(it, EnumDeclaration) for name in it.defaults]
        elements = {TRIED: f"crate::{ELEMENTS}"} if self.has_unions() else {}
        copies = {COPIES: "der_types", "AllocError": "std::alloc"}
        return {**copies, **dict.fromkeys([*self.types, *defaults], "crate"), **elements, **self.elsewhere}

    def sorted_types(self) -> list[Declaration]:
        """The types in the order of their names."""
        return [self.types[it] for it in sorted(self.types, key=natural)]

    def stems(self) -> dict[str, str]:
        """The name of the file of each type, by the name of the type."""
        taken = RESERVED | {*self.own, *self.groups, *self.elsewhere.values()}
        return stems_of(list(self.types.values()), self.groups, frozenset(taken))

    def types_by_stem(self) -> dict[str, list[Declaration]]:
        """The types of each file, in the order of the modules, by the name of the file."""
        order = {it.name: index for index, it in enumerate(self.modules)}
        stems, found = self.stems(), {}
        for it in sorted(self.types.values(), key=lambda it: (order.get(it.module, len(order)), it.place, natural(it.name))):
            found.setdefault(stems[it.name], []).append(it)
        return found

    def root(self) -> list[str]:
        """The lines of `lib.rt`, after its first one."""
        by_home = {stem: [name for it in types for name in (it.name, *getattr(it, "defaults", []))] for stem, types in self.types_by_stem().items()}
        by_home.update(self.own)
        public = [*(["notation"] if defined(self.sorted_types()) else []), *(["values"] if self.values or self.constants else [])]
        public += ["named"] if self.names else []
        private = ["constructors"] if self.with_constructors() else []
        sources = ", ".join(sorted({it.module for it in self.types.values()}))
        lines = [*comment("", "//!", f"The types of {sources}."), "#![tactic(auto)]", ""]
        private += [ELEMENTS] if self.has_unions() else []
        lines += [f"pub mod {it};" if it in public else f"mod {it};" for it in sorted({*by_home, *public, *private})]
        lines += [""] if by_home else []
        is_grouped = sum(map(len, by_home.values())) <= MOST_GROUPED
        for home in sorted(by_home, key=natural):
            found = sorted(by_home[home], key=natural)
            if is_grouped and len(found) > 1:
                lines += filled("", f"pub use {home}::", found, ";")
            else:
                lines += [f"pub use {home}::{it};" for it in found]
        return lines


def shown(path: str) -> str:
    """The path of a module in the repository, or the name of its file alone."""
    whole = Path(path).resolve()
    return whole.relative_to(_REPOSITORY).as_posix() if whole.is_relative_to(_REPOSITORY) else whole.name


def reached(declarations: Declarations, names: Iterable[str]) -> dict[str, Declaration]:
    """The declarations that these names lead to."""
    return {name: it for name, it in all_reached(declarations, names).items() if name not in declarations.elsewhere}


def reached_elsewhere(declarations: Declarations, names: Iterable[str]) -> dict[str, str]:
    """The paths of the types of other crates that these names lead to, by their names here."""
    found = all_reached(declarations, names)
    return {name: path for name, path in declarations.elsewhere.items() if name in found}


def all_reached(declarations: Declarations, names: Iterable[str]) -> dict[str, Declaration]:
    """The declarations that these names lead to, those of other crates without what they lead to."""
    found, left = {}, list(names)
    while left:
        name = left.pop()
        if name in found or name not in declarations.by_name:
            continue
        found[name] = declarations.by_name[name]
        if name not in declarations.elsewhere:
            left += sorted(named_in_types(found[name]) | named_in_term(found[name]))
    return found


def named_in_types(declared: Declaration) -> set[str]:
    """The names of the types that a declaration is made of."""
    if isinstance(declared, AliasDeclaration):
        return declared.type.names()
    if isinstance(declared, (EnumDeclaration, SetDeclaration)):
        return set()
    return set().union(*(it.type.names() for it in declared.parts()))


def named_in_term(declared: Declaration) -> set[str]:
    """The names in the term of a declaration. A tag may be around what a name stands for, so that the type hasn't the name."""
    return names_of([declared.term.inline()]) if declared.term else set()
