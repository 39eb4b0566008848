"""The command line.

    der_asn1 --report [--types] [OPTION ..] MODULE.asn1 ..
    der_asn1 --print crates/NAME/specs/Notation.antt .. | FILE.rt ..
    der_asn1 --out crates/NAME [--type TYPE,..] [--group FILE=TYPE,..] [--crate MODULE=CRATE ..] [--distinct TYPE,..] [--own MODULE=NAME,..]
        [--own-terms NAME,..] [--constructors [TYPE,..]] [--raw-any] [--derive TRAIT,..] [--check] [--allow-raw [TYPE,..]]
        [--allow-wider [TYPE,..]] [OPTION ..] MODULE.asn1 ..
    der_asn1 --schemas FILE.rt --crate MODULE=CRATE .. [--type TYPE,..] [--check] [OPTION ..] MODULE.asn1 ..
    der_asn1 derive [--check] FILE.rt ..

`derive` is in derive.py, and writes what the structs and enums of a file of Rust need.

`--report` prints how much is written without a flag, for each module how many of its types are expressed exactly, and which features of the
library are missing for the others. `--types` adds a line for each type.

`--print` prints the terms of a crate as ASN.1 again, or the table of a file that `--schemas` wrote.

`--out` writes a crate of all types of the modules, or of the types after `--type` and what they need, and prints its line of `crates.txt`.
`--check` writes nothing, and fails if a file isn't what would be written. What would be kept as bytes is an error without `--allow-raw`, and
what would have other values than the notation is one without `--allow-wider`: one error for each cause, at the member that lacks something.
Both may be for some types alone, those that the errors name.

`--schemas` writes a file of a crate above those of the modules: the types as data, which der_schema has, with their names.

An open type is any element that has elements in it at every depth. With `--raw-any` it is any element.

The types of a module are in one file, which has the module's name, or is `types.rt` if the crate is of one module alone.
`--group FILE=TYPE,..` puts types with their parts into another file.

`--crate MODULE=CRATE` uses the types of a module from another crate in the same folder, as far as that crate has them.

`--distinct` writes structs of their own for types that would be names of other types, which lets a crate give them methods. Modules of your
own in the crate are left alone, which are files with the folders of their names: `--own MODULE=NAME,..` names a module of `src` with the
names of it that the root exports, and `--own-terms NAME,..` names modules of `specs`.

`--constructors` writes constructors of all types, or of these. Names of bits, numbers and items are constants in `named.rt`.
`--derive TRAIT,..` lets all types derive these traits, too: Clone, PartialOrd, Ord, Hash.

A file after `--import` is read for the names that the modules import. `--strict` refuses what the standard doesn't allow and is otherwise
accepted. The status is 1 if there is an error.
"""
import argparse
import os
import re
import sys
from collections.abc import Sequence
from dataclasses import dataclass
from typing import Optional

from .derive import command as derive
from .emit.crate import NEEDS, RESERVED, Crate, reached, reached_elsewhere
from .emit.derives import MORE
from .emit.folder import difference, own_paths, write
from .emit.printed import printed, read_terms
from .emit.values import values_of
from .meaning.causes import Allowed, refuse
from .meaning.declarations import Declarations, NewtypeDeclaration
from .meaning.meaning import lacks
from .meaning.named import constants_of, names_of
from .meaning.module_checks import ModuleChecks, identified
from .meaning.other_crates import OtherCrates, other_crates, text_of
from .meaning.scopes import Program
from .meaning.recursion import DEPTH
from .meaning.types import ASSOCIATED, Meanings, recursion_in
from .parse import tree
from .parse.modules import read_file
from .parse.source import NotationError, Problems, Severity
from .schema.printed import printed_table
from .schema.read import read_table
from .schema.tags import NoNode
from .schema.written import schema_text
from .report import report_of, types_table, whole

# types inside of each other, each of which takes some calls
_DEPTH = 10000
# the options that may be for some types alone, and the names of types
_OF_TYPES, _TYPES = ("--allow-raw", "--allow-wider", "--constructors"), re.compile(r"[A-Z][A-Za-z0-9-]*(,[A-Z][A-Za-z0-9-]*)*")


@dataclass(frozen=True)
class How:
    """How types are written.

    `distinct` has the names of types that are structs of their own, and `depth` is how often a type may be in itself. `optional_defaults` is
    whether defaults are left out, and `raw_any` whether nothing in a value of an open type is looked at.
    """

    distinct: Sequence[str] = ()
    depth: int = DEPTH
    optional_defaults: bool = False
    raw_any: bool = False


def arguments(words: Optional[list[str]]) -> argparse.Namespace:
    """The options and the files."""
    parser = argparse.ArgumentParser(prog="der_asn1", description="Compiles ASN.1 notation to types of this library.")
    parser.add_argument("files", nargs="+", metavar="MODULE.asn1", help="a file with one or more modules; imports are found among all files")
    what = parser.add_mutually_exclusive_group(required=True)
    what.add_argument("--report", action="store_true", help="print how well each module is expressed")
    what.add_argument("--print", action="store_true", help="print files of terms, specs/Notation.antt of crates, as ASN.1")
    what.add_argument("--schemas", metavar="FILE.rt", help="write the types of other crates as data")
    what.add_argument("--out", metavar="FOLDER", help="write a crate, whose name is that of the folder")
    parser.add_argument("--types", action="store_true", help="print a line for each type in the report, too")
    parser.add_argument("--type", action="append", default=[], metavar="TYPE,..", help="write these types and what they need")
    parser.add_argument("--group", action="append", default=[], metavar="FILE=TYPE,..", help="write these types into a file of their own")
    parser.add_argument("--crate", action="append", default=[], metavar="MODULE=CRATE", help="take the types of a module from another crate")
    parser.add_argument("--distinct", action="append", default=[], metavar="TYPE,..", help="write these types as structs, and not as names of others")
    parser.add_argument("--own", action="append", default=[], metavar="MODULE=NAME,..", help="a module of one's own in src, with its public names")
    parser.add_argument("--own-terms", action="append", default=[], metavar="NAME,..", help="modules of one's own in specs")
    parser.add_argument("--constructors", action="append", default=[], metavar="[TYPE,..]", help="write constructors of these types, or of all")
    parser.add_argument("--derive", action="append", default=[], metavar="TRAIT,..", help="derive these traits, too: Clone, PartialOrd, Ord, Hash")
    parser.add_argument("--check", action="store_true", help="write nothing, and fail where a file is another one")
    parser.add_argument("--allow-raw", action="append", default=[], metavar="[TYPE,..]", help="keep as bytes what the library has no type for")
    parser.add_argument("--allow-wider", action="append", default=[], metavar="[TYPE,..]", help="use a type that has other values than the notation")
    parser.add_argument("--optional-defaults", action="store_true", help="read a DEFAULT of texts, identifiers and structures as OPTIONAL")
    parser.add_argument("--import", action="append", default=[], dest="imported", metavar="OTHER.asn1", help="a file for what the modules import")
    parser.add_argument("--raw-any", action="store_true", help="look at nothing in the values of open types")
    parser.add_argument("--depth", type=int, default=DEPTH, metavar="N", help=f"how often a type may be in itself: {DEPTH} if nothing is said")
    parser.add_argument("--strict", action="store_true", help="refuse what the standard doesn't allow, where it is accepted else")
    return parser.parse_args(with_types(sys.argv[1:] if words is None else words))


def with_types(words: list[str]) -> list[str]:
    """The same words, with the names of types joined to the option before them that may have some, and none where no name follows."""
    found: list[str] = []
    for it in words:
        if found and found[-1] in _OF_TYPES:
            found[-1] += "="
            if _TYPES.fullmatch(it):
                found[-1] += it
                continue
        found.append(it)
    return [f"{it}=" if it in _OF_TYPES else it for it in found]


def read(files: list[str], problems: Problems) -> list[tree.Module]:
    """The modules of the files. A file that can't be read on is an error."""
    modules = []
    for path in files:
        try:
            modules += read_file(path, problems)
        except NotationError as error:
            problems.add(error.problem)
        except OSError as error:
            sys.exit(f"{path}: {error.strerror}")
    return modules


def said(problems: Problems) -> bool:
    """Prints the warnings and the errors. Returns whether there is an error."""
    for severity in (Severity.WARNING, Severity.ERROR):
        for it in problems.of(severity):
            print(it, file=sys.stderr)
    return bool(problems.of(Severity.ERROR))


def main(words: Optional[list[str]] = None) -> int:
    """Runs the command. Returns 1 if there is an error, else 0."""
    sys.setrecursionlimit(_DEPTH)
    given = sys.argv[1:] if words is None else words
    if given[:1] == ["derive"]:
        return derive.main(given[1:])
    options = arguments(given)
    if options.print:
        return shown_terms(options.files)
    problems = Problems(options.strict)
    modules, imported = read(options.files, problems), read(options.imported, problems)
    if options.schemas:
        return schemas(options, modules, imported, problems)
    if options.out:
        return written(options, modules, imported, problems)
    found = report_of(modules, problems, imported, options.depth, options.optional_defaults)
    failed = said(problems)
    if options.types:
        print("\n".join([*types_table(found), ""]))
    print("\n".join(whole(found)))
    return 1 if failed else 0


def shown_terms(paths: list[str]) -> int:
    """Prints files of terms as modules of the notation."""
    for path in paths:
        try:
            with open(path, encoding="utf-8") as it:
                print(shown(path, it.read()), end="")
        except OSError as error:
            sys.exit(f"{path}: {error.strerror}")
        except ValueError as error:
            sys.exit(f"{path}: {error}")
    return 0


def shown(path: str, text: str) -> str:
    """A file of terms or of a table as a module of the notation."""
    return printed_table(read_table(text)) if path.endswith(".rt") else printed(read_terms(text))


def written(options: argparse.Namespace, modules: list[tree.Module], imported: list[tree.Module], problems: Problems) -> int:
    """Writes the crate, or compares it with what is there."""
    folder, name = os.path.split(os.path.abspath(options.out))
    try:
        others = other_crates(options.crate, folder)
    except OSError as error:
        sys.exit(f"{error.filename}: {error.strerror}")
    how = How(listed(options.distinct), options.depth, options.optional_defaults, options.raw_any)
    crate = crate_of(name, modules, imported, listed(options.type), problems, others, how)
    crate.own, crate.own_terms, crate.groups = named_lists(options.own), listed(options.own_terms), named_lists(options.group)
    crate.constructed = Allowed(options.constructors)
    crate.derives = listed(options.derive)
    check_groups(crate, problems)
    check_derives(crate, problems)
    refuse(problems, crate.causes, Allowed(options.allow_raw), Allowed(options.allow_wider))
    if said(problems):
        return 1
    files, own = crate.files(), own_paths(list(crate.own), crate.own_terms)
    if options.check:
        wrong = difference(options.out, files, own)
        for path in wrong:
            print(f"{options.out}/{path} isn't what would be written")
        return 1 if wrong else 0
    write(options.out, files, own)
    elements = ["der_elements"] if any("use der_elements::" in it for it in files.values()) else []
    print(" ".join([f"{name}:", *sorted({*crate.elsewhere.values(), *elements}), *NEEDS]))
    return 0


def schemas(options: argparse.Namespace, modules: list[tree.Module], imported: list[tree.Module], problems: Problems) -> int:
    """Writes the types as data, or compares the file with what is there."""
    how = How(listed(options.distinct), options.depth, options.optional_defaults, options.raw_any)
    sources = os.path.dirname(os.path.abspath(options.schemas))
    try:
        others = other_crates(options.crate, os.path.dirname(os.path.dirname(sources)))
    except OSError as error:
        sys.exit(f"{error.filename}: {error.strerror}")
    meanings, found = declared(Program(modules, problems, imported), listed(options.type), others, how)
    causes = meanings.causes(meanings.declarations.by_name[it] for it in found)
    refuse(problems, causes, Allowed(options.allow_raw), Allowed(options.allow_wider))
    if said(problems):
        return 1
    try:
        text = schema_text(meanings.declarations, found, [*modules, *imported])
    except NoNode as error:
        sys.exit(f"{options.schemas}: {error}")
    if not options.check:
        os.makedirs(sources, exist_ok=True)
        with open(options.schemas, "w", encoding="utf-8") as it:
            it.write(text)
    elif not os.path.exists(options.schemas) or text_of(options.schemas) != text:
        print(f"{options.schemas} isn't what would be written")
        return 1
    return 0


def listed(given: list[str]) -> list[str]:
    """The names after an option that may be given several times."""
    return [name for it in given for name in it.split(",") if name]


def named_lists(given: list[str]) -> dict[str, list[str]]:
    """The names after `=` in these words, by what is before it."""
    found: dict[str, list[str]] = {}
    for it in given:
        key, _, names = it.partition("=")
        found.setdefault(key, []).extend(listed([names]))
    return found


def check_groups(crate: Crate, problems: Problems) -> None:
    """Says which groups can't be: those with a type that the crate hasn't, or a name that isn't free."""
    roots = {it.root for it in crate.types.values()}
    for stem, names in crate.groups.items():
        missing = [it for it in names if it not in roots]
        if missing:
            problems.error(crate.modules[0].place, f"the crate has no type `{missing[0]}` for `{stem}.rt`", "docs/ASN1.md")
        if stem in crate.own or stem in RESERVED:
            problems.error(crate.modules[0].place, f"a group can't be called `{stem}`", "docs/ASN1.md")


def check_derives(crate: Crate, problems: Problems) -> None:
    """Says which traits can't be derived for all types, and which need another one."""
    for it in crate.derives:
        if it not in MORE:
            problems.error(crate.modules[0].place, f"`{it}` can't be derived for all types, only {', '.join(MORE)}", "docs/ASN1.md")
        elif MORE[it] and MORE[it] not in crate.derives:
            problems.error(crate.modules[0].place, f"`{it}` needs `{MORE[it]}`", "docs/ASN1.md")


def crate_of(
    name: str,
    modules: list[tree.Module],
    imported: list[tree.Module],
    names: list[str],
    problems: Problems,
    others: OtherCrates = OtherCrates(),
    how: How = How(),
) -> Crate:
    """The crate of all types of the modules, or of those with these names.

    Types of `others` are named and not declared. Which of these are used is found at first, so that their names are free else.
    """
    if others.crates:
        meanings, found = declared(Program(modules, Problems(problems.strict), imported), names, others, how)
        others = others.using(reached_elsewhere(meanings.declarations, found).values())
    program = Program(modules, problems, imported)
    meanings, found = declared(program, names, others, how)
    declarations = meanings.declarations
    types, elsewhere = reached(declarations, found), reached_elsewhere(declarations, found)
    for it in types.values():
        wanted = declarations.renamed.get(it.name)
        if wanted:
            problems.warn(it.place, f"`{it.source}` is called `{it.name}`, since another type is called `{wanted}`", "docs/ASN1.md")
    values = [] if names else values_of(program, modules)
    homes = {name: path.split("::")[0] for name, path in elsewhere.items()}
    found = Crate(name, types, values, [*modules, *imported, *ASSOCIATED.modules], homes, causes=meanings.causes(types.values()))
    found.constants = [] if names else constants_of(program, modules, (it.name for it in values))
    found.names = names_of(program, types)
    return found


def declared(program: Program, names: list[str], others: OtherCrates, how: How) -> tuple[Meanings, list[str]]:
    """All meanings with their declarations, and the types of Rust of these names, or of all types of the program's own modules."""
    modules, problems = program.modules, program.problems
    identified(program)
    recursion = recursion_in(program, how.depth)
    meanings = Meanings(program, Declarations(others), how.distinct, recursion, how.optional_defaults, how.raw_any)
    checks = ModuleChecks(program)
    for module in [] if names else modules:
        checks.module(module)
    found, missing = [], set(names)
    for module in modules:
        for it in module.assignments:
            if isinstance(it, tree.TypeAssignment) and not it.parameters and (not names or it.name in names):
                missing.discard(it.name)
                meaning = meanings.of_assignment(it, module)
                if meaning.rust is None:
                    problems.error(it.place, f"`{it.name}` has no type: {', '.join(lacks(meaning))}", "docs/ASN1.md")
                else:
                    found.append(meaning.rust.text)
    first = modules[0].place if modules else None
    for it in sorted(missing):
        problems.error(first, f"no module has a type `{it}`", "X.680, 14.1")
    made = {it.source for it in meanings.declarations.by_name.values() if isinstance(it, NewtypeDeclaration)}
    for it in sorted({*how.distinct} - made):
        problems.error(first, f"`{it}` isn't the name of another type", "docs/ASN1.md")
    return meanings, found
