"""Tables of types, and that what is printed of one is what the modules have."""
import contextlib
import io
import os
import re
import tempfile
import unittest
from pathlib import Path

from .. import command
from ..meaning.scopes import Program
from ..parse import tree
from ..parse.modules import read_file, read_text
from ..parse.source import Problems
from ..schema.nodes import Alternative, Item, Kind, Member, Node, Table, Wrapper
from ..schema.printed import printed_table
from ..schema.read import read_table
from ..schema.rules import keeps_rules
from ..schema.tags import NoNode
from ..schema.terms import Writer
from ..schema.written import node_lines
from . import module_text
from .agreement import NamedAgreement

ROOT = Path(__file__).resolve().parents[3]
MODULES = ROOT / "modules"
TABLES = ROOT / "crates/der_schemas/src"

# types, and what is printed of their nodes where it isn't the same
PRINTED = [
    ("BOOLEAN", None),
    ("INTEGER (0..255)", None),
    ("INTEGER (1..255)", None),
    ("INTEGER (-128..127)", None),
    ("INTEGER (-5..5)", None),
    ("INTEGER (0..MAX)", None),
    ("INTEGER (MIN..-1)", None),
    ("INTEGER (MIN..-9 | 1..2 | 5..MAX)", None),
    ("INTEGER { one(1), two(2) } (1 | 2)", None),
    ("ENUMERATED { first(3), second(0) }", None),
    ("ENUMERATED { first(3), ..., later(9) }", "ENUMERATED { first(3), later(9), ... }"),
    ("BIT STRING { read(0), write(7) }", None),
    ("OCTET STRING (SIZE (4))", "OCTET STRING (SIZE (4..4))"),
    ("SEQUENCE (SIZE (1..MAX)) OF NULL", None),
    ("SET OF OBJECT IDENTIFIER", None),
    ("IA5String (FROM (\"a\"..\"b\"))", "IA5String (FROM ({0, 0, 0, 97}..{0, 0, 0, 98}))"),
    ("SEQUENCE { a [0] NULL OPTIONAL, b BOOLEAN DEFAULT TRUE }", "SEQUENCE { a [0] EXPLICIT NULL OPTIONAL, b BOOLEAN DEFAULT TRUE }"),
    ("SET { a [1] NULL, b [0] IMPLICIT UTF8String }", "SET { b [0] IMPLICIT UTF8String, a [1] EXPLICIT NULL }"),
    ("CHOICE { a RELATIVE-OID, b [APPLICATION 3] UTCTime }", "CHOICE { a RELATIVE-OID, b [APPLICATION 3] EXPLICIT UTCTime }"),
    ("SEQUENCE { }", None),
    ("[APPLICATION 4] IMPLICIT INTEGER (0..9)", "[APPLICATION 4] IMPLICIT INTEGER (0..9)"),
    ("[APPLICATION 4] IMPLICIT OCTET STRING", None),
    ("[PRIVATE 1] IMPLICIT SEQUENCE OF ANY", None),
    ("[3] IMPLICIT CHOICE { a NULL }", "[3] EXPLICIT CHOICE { a NULL }"),
    ("OCTET STRING (CONTAINING SEQUENCE OF INTEGER)", None),
    ("SEQUENCE { a ENUMERATED { yes(1), no(2) } DEFAULT no }", None),
]

# types that a table has no node for
WITHOUT = [
    "SEQUENCE { a NULL, ... }",
    "SEQUENCE { a NULL, ..., b NULL }",
    "SEQUENCE OF SEQUENCE { ... }",
    "CHOICE { a NULL, ... }",
    'IA5String ("a" | "b")',
    "SEQUENCE { a NULL OPTIONAL, b BOOLEAN OPTIONAL } (WITH COMPONENTS { ..., a PRESENT } | WITH COMPONENTS { ..., b PRESENT })",
]

# a type, and another one in place of a part of its printed table
ALTERED = [
    ("SEQUENCE { a INTEGER, b NULL }", "a INTEGER", "c INTEGER"),
    ("SEQUENCE { a INTEGER, b INTEGER }", "a INTEGER, b", "b INTEGER, a"),
    ("SEQUENCE { a INTEGER OPTIONAL }", " OPTIONAL", ""),
    ("SEQUENCE { a BOOLEAN DEFAULT TRUE }", "DEFAULT TRUE", "OPTIONAL"),
    ("SEQUENCE { a INTEGER (0..9) DEFAULT 5 }", "DEFAULT 5", "OPTIONAL"),
    ("CHOICE { a NULL, b BOOLEAN }", "b BOOLEAN", "c BOOLEAN"),
    ("ENUMERATED { a(1), b(2) }", "a(1), b(2)", "b(1), a(2)"),
    ("BIT STRING { a(0), b(1) }", "b(1)", "b(2)"),
    ("INTEGER { a(0), b(1) } (0 | 1)", "a(0)", "c(0)"),
    ("SEQUENCE { a [1] NULL }", "[1]", "[2]"),
]

# nodes that keep the rules on tags and defaults, up to the last one, which doesn't or isn't known to
UNRULED = [
    [Kind("Null"), Kind("Reference", (0,)), Kind("Choice", ((Alternative("a", 0), Alternative("b", 1)),))],
    [Kind("Integer"), Kind("Sequence", ((Member("a", "Optional", 0), Member("b", "Required", 0)),))],
    [Kind("Integer"), Kind("AnyElement"), Kind("Sequence", ((Member("a", "Optional", 0), Member("b", "Optional", 1)),))],
    [Kind("Null"), Kind("Sequence", ((Member("a", "Required", 0), Member("b", "Required", 0)),)), Kind("Wrapped", (Wrapper("ImplicitList", 0x31), 1))],
    [Kind("Null"), Kind("Wrapped", (Wrapper("Explicit", 0), 0)), Kind("Wrapped", (Wrapper("Implicit", 1), 1))],
    [Kind("Enumerated", ((Item("no", 0),),)), Kind("Sequence", ((Member("a", "Default", 0, 0),),))],
    [Kind("Integer"), Kind("Sequence", ((Member("a", "DefaultOf", 0, -1),),))],
]


def tables_of(modules, imported, **how):
    """The table of each type of modules that has one, by the type's name in its module, and the names of those that have none."""
    problems = Problems()
    program = Program(modules, problems, imported)
    meanings, names = command.declared(program, [], command.other_crates([], ""), command.How(**how))
    found, without = {}, {}
    for it in names:
        writer = Writer(meanings.declarations.by_name, [*modules, *imported])
        declared = meanings.declarations.by_name[it]
        try:
            writer.type_named(it)
            found[declared.module, declared.source] = writer.table
        except NoNode as error:
            without[declared.module, declared.source] = str(error)
    return program, meanings, found, without


def table_of(notation):
    """The table of one type, and its program."""
    modules = read_text(module_text(f"T ::= {notation}"), "m.asn1", Problems())
    program, _, found, without = tables_of(modules, [])
    return program, found.get(("M", "T")), without


def written(table):
    """The static of a table."""
    return "\n".join([f"static NODES: [Node; {len(table.nodes)}] = [", *node_lines(table), "];"])


class Nodes(unittest.TestCase):
    def test_each_form(self):
        for notation, wanted in PRINTED:
            with self.subTest(notation):
                _, table, _ = table_of(notation)
                self.assertEqual(f"Printed DEFINITIONS EXPLICIT TAGS ::= BEGIN\nT ::= {wanted or notation}\nEND\n", printed_table(table))

    def test_that_each_is_read_again(self):
        for notation, _ in PRINTED:
            with self.subTest(notation):
                _, table, _ = table_of(notation)
                self.assertEqual(table, read_table(written(table)))

    def test_a_default_that_is_neither_a_truth_nor_a_number(self):
        modules = read_text(module_text('T ::= SEQUENCE { a UTF8String DEFAULT "x" }'), "m.asn1", Problems())
        program, _, found, _ = tables_of(modules, [], optional_defaults=True)
        text = printed_table(found["M", "T"])
        self.assertIn("T ::= SEQUENCE { a UTF8String OPTIONAL }", text)
        agreement = NamedAgreement(text, {("M", "T"): "T"}, program)
        self.assertIsNone(agreement.difference(program.indexes[id(modules[0])]["T"], modules[0]))

    def test_what_has_none(self):
        for notation in WITHOUT:
            with self.subTest(notation):
                _, table, without = table_of(notation)
                self.assertIsNone(table)
                self.assertTrue(without)

    def test_the_rules_of_tags_and_defaults(self):
        for kinds in UNRULED:
            with self.subTest(kinds):
                self.assertFalse(keeps_rules(Table([Node(None, it) for it in kinds])))
                self.assertTrue(keeps_rules(Table([Node(None, it) for it in kinds[:-1]])))

    def test_a_name_of_a_named_type(self):
        modules = read_text(module_text("Realm ::= Text\nText ::= IA5String"), "m.asn1", Problems())
        table = tables_of(modules, [])[2]["M", "Realm"]
        self.assertEqual([("Text", Kind("RestrictedString", (0x16,))), ("Realm", Kind("Reference", (0,)))], [(it.name, it.kind) for it in table.nodes])

    def test_an_equal_node_is_there_once(self):
        _, table, _ = table_of("SEQUENCE { a [0] NULL, b [1] NULL, c SEQUENCE OF BOOLEAN, d [2] SEQUENCE OF BOOLEAN }")
        self.assertEqual(len(table.nodes), len(set(table.nodes)))
        self.assertTrue(all(it < place for place, node in enumerate(table.nodes) for it in children(node.kind)))


def children(kind):
    """The indices in a kind."""
    if kind.variant in ("Sequence", "Choice"):
        return [it.node for it in kind.fields[0]]
    return [] if kind.inner is None else [kind.inner]


class Agreeing(unittest.TestCase):
    def difference(self, notation, before="", after=""):
        """How the printed type differs from that of the module, after a change of the text."""
        program, table, _ = table_of(notation)
        text = printed_table(table)
        self.assertIn(before, text)
        agreement = NamedAgreement(text.replace(before, after), {("M", "T"): "T"}, program)
        return agreement.difference(program.indexes[id(program.modules[0])]["T"], program.modules[0])

    def test_a_table_that_isnt_the_modules(self):
        for notation, before, after in ALTERED:
            with self.subTest(notation):
                self.assertIsNone(self.difference(notation))
                self.assertIsNotNone(self.difference(notation, before, after))

    def check(self, table, program, names):
        """How many types of a table agree with those of the modules: all that have names, each with one of the modules that have the name."""
        agreement, found = NamedAgreement(printed_table(table), names, program), {}
        for module in program.all_modules:
            for it in module.assignments:
                if isinstance(it, tree.TypeAssignment) and (module.name, it.name) in names:
                    found.setdefault(names[module.name, it.name], []).append(agreement.difference(it, module))
        for name, differences in found.items():
            with self.subTest(name):
                self.assertIn(None, differences)
        return len(names)

    def test_each_stored_table(self):
        modules = [found for path in sorted(MODULES.glob("*.asn1")) for found in read_file(str(path), Problems())]
        program = Program(modules, Problems())
        lines = re.sub(r"\n +", " ", (MODULES / "generated.txt").read_text(encoding="utf-8"))
        homes = {stem: re.findall(r"--crate ([\w-]+)=", words) for stem, words in re.findall(r"^der_schemas/src/(\w+)\.rt:(.*)", lines, re.MULTILINE)}
        self.assertEqual(sorted(homes), sorted(it.stem for it in TABLES.glob("*.rt") if it.stem != "lib"))
        for stem, owners in homes.items():
            table = read_table((TABLES / f"{stem}.rt").read_text(encoding="utf-8"))
            own = {(module.name, it.name) for module in modules if module.name in owners for it in module.assignments}
            named = {it.name for it in table.nodes if it.name}
            self.assertEqual(named, {name for _, name in own if name in named})
            self.assertGreater(self.check(table, program, {(module, name): name for module, name in own if name in named}), 0)

    def test_each_type_of_the_messages(self):
        count = 0
        paths = sorted(MODULES.glob("*.asn1"))
        for path in paths:
            modules = read_file(str(path), Problems())
            imported = [it for other in paths if other != path for it in read_file(str(other), Problems())]
            program, meanings, found, _ = tables_of(modules, imported)
            exact = {(it.module, it.source) for it in meanings.declarations.by_name.values() if not it.differences()}
            for key, table in found.items():
                if key in exact:
                    count += self.check(table, program, {key: key[1]})
        self.assertGreater(count, 200)


class Command(unittest.TestCase):
    def run_command(self, *words):
        """The status of the command, and what it prints."""
        out = io.StringIO()
        with contextlib.redirect_stdout(out):
            status = command.main([*words])
        return status, out.getvalue()

    def test_a_stored_table(self):
        status, text = self.run_command("--print", str(TABLES / "kerberos.rt"))
        self.assertEqual(0, status)
        self.assertIn("\nRealm ::= KerberosString\n", text)

    def words_for(self, room, notation):
        """The words that write the table of a module with the types `Letter` and `Page` in this folder, and the table."""
        for name in ("src", "specs"):
            os.makedirs(os.path.join(room, "letters", name))
        Path(room, "letters/src/lib.rt").write_text("pub use types::{Letter, Page};\n", encoding="utf-8")
        Path(room, "letters/specs/Notation.antt").write_text("abbrev pub Letter : Notation\nabbrev pub Page : Notation\n", encoding="utf-8")
        module, table = Path(room, "letters.asn1"), Path(room, "tables/src/letters.rt")
        module.write_text(module_text(notation), encoding="utf-8")
        return ["--schemas", str(table), "--crate", "M=letters", str(module)], table

    def test_a_file_that_differs(self):
        with tempfile.TemporaryDirectory() as room:
            words, table = self.words_for(room, "Letter ::= SEQUENCE OF Page\nPage ::= UTF8String")
            self.assertEqual((0, ""), self.run_command(*words))
            self.assertIn("pub fn letter() -> Schema", table.read_text(encoding="utf-8"))
            self.assertEqual((0, ""), self.run_command("--check", *words))
            table.write_text(table.read_text(encoding="utf-8").replace("Page", "Leaf"), encoding="utf-8")
            self.assertEqual((1, f"{table} isn't what would be written\n"), self.run_command("--check", *words))

    def test_a_module_that_isnt_given(self):
        """Its types are refused as in a crate, unless the options of the crate allow them."""
        with tempfile.TemporaryDirectory() as room:
            words, table = self.words_for(room, "IMPORTS Page FROM Other;\nLetter ::= SEQUENCE OF Page")
            with contextlib.redirect_stderr(io.StringIO()) as err:
                self.assertEqual((1, ""), self.run_command(*words))
            self.assertIn("a module that isn't given", err.getvalue())
            self.assertFalse(table.exists())
            self.assertEqual((0, ""), self.run_command("--allow-raw", *words))


class Indices(unittest.TestCase):
    def test_a_name_that_is_used_already(self):
        table = Table()
        first = table.call(table.add(Kind("Null")), "Nothing")
        self.assertEqual((0, 1), (first, table.call(first, "Void")))
        self.assertEqual(Kind("Null"), table.kind(1))


if __name__ == "__main__":
    unittest.main()
