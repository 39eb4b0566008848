"""The files that `derive` writes for a Rust file: the implementations, the terms of enumerations, and the proofs of choices."""
import re
from dataclasses import dataclass
from pathlib import Path

from ..derive.derived_types import Derived, derived_types, determined
from ..derive.rust_items import RustFile, read_items
from ..meaning.declarations import AddedDeclaration, ChoiceDeclaration, Declaration, EnumDeclaration, StructDeclaration, TestedDeclaration
from ..meaning.library_table import LIBRARY_NAMES
from ..meaning.wording import joined
from . import added as emit_added, choice as emit_choice, enum as emit_enum, newtype as emit_newtype, struct as emit_struct
from .added import added_impls, added_uses
from .choice import choice_impls, choice_uses, serialize_answers, variants_import
from .copies import COPIES, clone_impl, copies_uses
from .enum import enum_impls, enum_uses, terms_file
from .faithful import faithful_impl, faithful_uses, inhabited_impl, inhabited_uses
from .folder import NOTE
from .imports import Uses
from .newtype import newtype_impls, newtype_uses
from .private_names import PrivateNames
from .struct import struct_impls, struct_uses, tuple_names
from .tested import tested_clone_impl, tested_impls, tested_uses

# the module of what is written, below that of the file
MODULE = "derived"
# what `Notated` names, and what `Exact` does
_NOTATED = frozenset("Notated NotatedMembers NotatedAlternatives Notation".split())
_EXACT = frozenset(
    """Exact ExactMembers ExactAlternatives ExactContents struct_values fields_values choice_values enumerated_values named_values own_contents
    newtype_values""".split()
)
# what added members name for the same of their `==`
_FAITHFUL = frozenset("FaithfulMembers members_at".split())
# names of the library that the compiler has no use for, by their modules
_HOMES = {
    "Element": "picky_asn1_der::ser",
    COPIES: "der_types",
    "AllocError": "std::alloc",
}
# what a file that uses the library can't have as a name of its own
LIBRARY = LIBRARY_NAMES | frozenset(_HOMES)
# what each file of implementations imports
ALWAYS = frozenset("ReadExt WriteExt Deserialize Deserializer Result Serialize Serializer Begins Tag".split())
_GHOST_USE = re.compile(r"^ghost use (\S+)\.\{([^}]*)\};", re.M)


@dataclass(frozen=True)
class Place:
    """Where a file is: its crate, the folder of the crate, and the names of its module."""

    crate: str
    folder: Path
    module: tuple[str, ...]

    @property
    def source(self) -> str:
        """The path of the file in its crate."""
        return f"src/{'/'.join(self.module)}.rt"

    @property
    def terms(self) -> str:
        """The name of the file of its terms."""
        return joined("_".join(self.module))

    @property
    def home(self) -> str:
        """The module of terms of the types of the file."""
        return f"Rattle.{self.crate}.specs.declared.{'.'.join(self.module)}"


class DerivedNames(PrivateNames):
    """Names of the parts of types: `Members` and `Parts` in a file of one type, and otherwise after the type's name."""

    def __init__(self, taken: set[str], is_one: bool) -> None:
        super().__init__(taken)
        self.is_one = is_one

    def of(self, declared: Declaration, suffix: str) -> str:
        """The name of a part."""
        if not self.is_one:
            return super().of(declared, suffix)
        return self.numbered(suffix.replace("Parts", "Members") if isinstance(declared, StructDeclaration) else suffix)


def derived_files(place: Place, path: str, text: str) -> dict[str, str]:
    """The texts of the files that are written for a file, by their paths in the crate."""
    file = read_items(path, text)
    if MODULE not in file.modules:
        raise file.source.error(1, f"the file doesn't have the line `mod {MODULE};`")
    types = derived_types(file, place.source)
    if not types:
        raise file.source.error(1, "the file has no struct or enum")
    check(file, types)
    folder = "/".join(place.module)
    found = {f"src/{folder}/{MODULE}.rt": whole(place, "//!", implementations(place, file, types))}
    declarations = [it.declaration for it in types]
    for it in declarations:
        answers = serialize_answers(it, place.crate, f"{'.'.join(place.module)}.{MODULE}") if isinstance(it, ChoiceDeclaration) else []
        if answers:
            found[f"proofs/{folder}/{MODULE}/{it.name}Serialize/serialize/Answers.antt"] = whole(place, "--", answers)
    enumerations = [it for it in declarations if isinstance(it, EnumDeclaration)]
    if enumerations:
        stems = dict.fromkeys([it.name for it in enumerations], ".".join(place.module))
        found[f"specs/{place.terms}.antt"] = whole(place, "--", terms_file(enumerations, place.crate, stems))
    return found


def whole(place: Place, mark: str, lines: list[str]) -> str:
    """The text of a file: a note that says what it is made from, and its lines."""
    return "\n".join([f"{mark} {NOTE} derive from {place.source}. Don't edit.", *lines]) + "\n"


def check(file: RustFile, types: list[Derived]) -> None:
    """Refuses what can't be written: a type whose name the implementations need, and a test without a known proof."""
    own = {it.name for it in file.items} | file.names
    given = {name for it in file.items for part in it.parts if part.type for name in part.type.names()}
    for it in types:
        declared = it.declaration
        if isinstance(declared, TestedDeclaration) and determined(declared) is None:
            wanted = f"`{declared.part}` as a number, or `{declared.part}.content.items`"
            raise file.source.error(declared.place.line, f"the test of `{declared.name}` may be about {wanted} alone: implement `Constrained` by hand")
        needed = (uses_of(it, Place("", Path(), ("",))).names - given) | ALWAYS
        hidden = needed & LIBRARY & own
        if hidden:
            raise file.source.error(declared.place.line, f"a type can't be called `{min(hidden)}`, which the library has")


def uses_of(it: Derived, place: Place) -> Uses:
    """What the items of a type name, with the type itself."""
    declared, found = it.declaration, Uses()
    if isinstance(declared, AddedDeclaration):
        found.add(added_uses(declared))
    elif isinstance(declared, StructDeclaration):
        found.add(struct_uses(declared))
    elif isinstance(declared, ChoiceDeclaration):
        found.add(choice_uses(declared, it.exact))
    elif isinstance(declared, EnumDeclaration):
        found.add(enum_uses(declared, place.crate, place.terms))
    else:
        found.add(tested_uses(declared) if isinstance(declared, TestedDeclaration) else newtype_uses(declared))
    unused = (frozenset() if it.notated else _NOTATED) | (frozenset() if it.exact else _EXACT) | (frozenset() if it.faithful else _FAITHFUL)
    found.names -= unused
    found.terms = {home: names - unused for home, names in found.terms.items() if names - unused}
    if it.faithful:
        found.add(faithful_uses(declared, f"Rattle.{place.crate}.specs.{place.terms}"))
    if it.inhabited:
        found.add(inhabited_uses())
    if it.cloned:
        found.add(Uses({"AllocError"}) if isinstance(declared, TestedDeclaration) else copies_uses(declared))
    found.add(Uses({declared.name}))
    return found


def implementations(place: Place, file: RustFile, types: list[Derived]) -> list[str]:
    """The lines of the file of implementations, after its first one."""
    own = file.names | {it.name for it in file.items}
    homes = {**_HOMES, **{name: absolute(path, place) for name, path in file.imports.items()}, **dict.fromkeys(own, "super")}
    names = DerivedNames({*homes}, len(types) == 1)
    uses, body = Uses(), []
    for it in types:
        uses.add(uses_of(it, place))
        uses.add(test_uses(it, file))
        body += ["", *items_of(it, place, names)]
    shown = ", ".join(f"`{it.declaration.name}`" for it in types)
    return ["//!", f"//! How {shown} {'is' if len(types) == 1 else 'are'} written and read.", *uses.term_lines(), "", *uses.rust_lines(homes, set()), *body]


def absolute(path: str, place: Place) -> str:
    """The path of an import of the file, as another module may write it."""
    first, _, rest = path.partition("::")
    if first not in ("self", "super"):
        return path
    above = ["crate", *(place.module if first == "self" else place.module[:-1])]
    return "::".join([*above, *([rest] if rest else [])])


def test_uses(it: Derived, file: RustFile) -> Uses:
    """The terms that a test names, from where the file has them."""
    found = Uses()
    if isinstance(it.declaration, TestedDeclaration):
        for home, names in _GHOST_USE.findall(file.source.text):
            used = {name.strip() for name in names.split(",") if is_in(name.strip(), it.declaration.test)}
            found.add(Uses(terms={home: used} if used else {}))
    return found


def is_in(name: str, term: str) -> bool:
    """Whether a term has this name, which may be an operator with `◌` for each operand."""
    parts = [part for part in name.split("◌") if part]
    return bool(parts) and all(re.search(rf"(?<![\w-]){re.escape(part)}(?![\w-])" if re.match(r"\w", part) else re.escape(part), term) for part in parts)


def items_of(it: Derived, place: Place, names: PrivateNames) -> list[str]:
    """The items of a type, but for its definition."""
    declared = it.declaration
    variants, inner = variants_import(declared, place.home), ""
    if isinstance(declared, AddedDeclaration):
        inner = tuple_names(declared, names)[0]
        impls, emitter, given = added_impls(declared, names), emit_added, ([inner], [inner])
    elif isinstance(declared, StructDeclaration):
        inner = tuple_names(declared, names)[0]
        impls, emitter, given = struct_impls(declared, names), emit_struct, ([inner], [inner])
    elif isinstance(declared, ChoiceDeclaration):
        inner = names.of(declared, "Parts")
        impls, emitter, given = choice_impls(declared, names, place.home), emit_choice, ([inner], [inner, variants])
    elif isinstance(declared, EnumDeclaration):
        impls, emitter, given = enum_impls(declared, place.home), emit_enum, ([variants], [variants])
    elif isinstance(declared, TestedDeclaration):
        impls, emitter, given = tested_impls(declared), emit_newtype, ([], [])
    else:
        impls, emitter, given = newtype_impls(declared), emit_newtype, ([], [])
    return [
        *impls,
        *after_a_line(emitter.notated_impl(declared, *given[0]) if it.notated else []),
        *after_a_line(emitter.exact_impl(declared, *given[1]) if it.exact else []),
        *after_a_line(faithful_impl(declared, inner, place.home) if it.faithful else []),
        *after_a_line(inhabited_impl(declared.name) if it.inhabited else []),
        *after_a_line(cloned(declared) if it.cloned else []),
    ]


def cloned(declared: Declaration) -> list[str]:
    """The implementation of `Clone`."""
    return tested_clone_impl(declared) if isinstance(declared, TestedDeclaration) else clone_impl(declared)


def after_a_line(lines: list[str]) -> list[str]:
    """These lines after an empty one, if there are any."""
    return ["", *lines] if lines else []
