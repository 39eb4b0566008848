"""A table as a file of Rust: the static of its nodes, and a function for each type whose clause says that the node is that type."""
from typing import Iterable

from ..emit.crate import Crate
from ..emit.imports import imports
from ..emit.layout import STEP, comment, natural
from ..meaning.declarations import Declarations
from ..meaning.wording import snake
from ..parse import tree
from .literals import lines_of, node_literal
from .nodes import Table
from .rules import keeps_rules
from .tags import NoNode
from .terms import Writer

# what the nodes may name
_NAMES = ("Alternative", "DefaultValue", "Item", "Kind", "Member", "Node", "Presence", "Wrapper")


def schema_text(declarations: Declarations, names: list[str], modules: list[tree.Module]) -> str:
    """The text of the file of these types, which other crates have. Raises NoNode for one that a table can't have."""
    writer, types, sources, homes = Writer(declarations.by_name, modules), {}, {}, {}
    for it in names:
        if it not in declarations.elsewhere:
            raise NoNode(f"no crate is named for `{declarations.by_name[it].source}`")
        crate, name = declarations.elsewhere[it].split("::")
        types[name], sources[name], homes[name] = writer.type_named(it), declarations.by_name[it].source, crate
    used = {declarations.by_name[it].module for it in writer.indices}
    found = list(dict.fromkeys(declarations.by_name[it].module for it in names))
    return Crate("", {}, [], modules).file("//!", table_file(writer.table, types, sources, homes, found), used)


def table_file(table: Table, types: dict[str, int], sources: dict[str, str], homes: dict[str, str], modules: Iterable[str]) -> list[str]:
    """The lines of the file after its first one. `types` has the index of each type by its name in Rust, `sources` its name in its module, and
    `homes` its crate."""
    nodes = node_lines(table)
    used = {it for it in _NAMES if any(f"{it} {{" in line or f"{it}::" in line for line in nodes)}
    paths = {**dict.fromkeys([*_NAMES, "Schema"], "der_schema"), "Wrapper": "picky_der_core::asn1", **homes}
    names = sorted(types, key=natural)
    kept = keeps_rules(table)
    shared = _shared_nodes({name: types[name] for name in names}, kept) if len(names) > 1 else []
    functions = [line for name in names for line in _function(name, types[name], sources[name], "nodes()" if shared else "&NODES", kept)]
    return [
        *comment("", "//!", f"The schemas of types of {', '.join(modules)}."),
        "ghost use Rattle.std.specs.Prelude.{◌≡◌, true};",
        "ghost use Rattle.der_schema.specs.Names.{has_names};",
        "ghost use Rattle.der_schema.specs.NotationOf.{notation_of};",
        *(["ghost use Rattle.der_schema.specs.Rules.{keeps_rules};"] if kept else []),
        "",
        *imports({*used, "Schema", "Notated", *types}, paths),
        *functions,
        *shared,
        "",
        "// each type comes after those that it names",
        f"static NODES: [Node; {len(table.nodes)}] = [",
        *nodes,
        "];",
    ]


def node_lines(table: Table) -> list[str]:
    """The nodes of a table in Rust."""
    return [line for it in table.nodes for line in lines_of(STEP, "", node_literal(it), ",")]


def _function(name: str, index: int, source: str, nodes: str, kept: bool) -> list[str]:
    """The function of a type, of a table that keeps the rules or doesn't."""
    return [
        "",
        f"/// The schema of `{source}`.",
        f"pub fn {snake(name)}() -> Schema",
        f"    ensures notation {{ notation_of result.nodes.now result.root ≡ ⟦<{name} as Notated>⟧.notation }}",
        "    ensures names { has_names result.nodes.now ≡ true }",
        *(["    ensures rules { keeps_rules result.nodes.now ≡ true }"] if kept else []),
        "{",
        f"{STEP}Schema {{",
        f"{STEP * 2}nodes: {nodes},",
        f"{STEP * 2}root: {index},",
        f"{STEP}}}",
        "}",
    ]


def _shared_nodes(types: dict[str, int], kept: bool) -> list[str]:
    """The function of all nodes, whose clauses say what holds of them: so they are gone through once, and not for each type."""
    return [
        "",
        "// the nodes, which of them is each type, and the rules of X.680 that they keep",
        "fn nodes() -> &'static [Node]",
        *(f"    ensures {snake(name)} {{ notation_of result.now {index} ≡ ⟦<{name} as Notated>⟧.notation }}" for name, index in types.items()),
        "    ensures are_named { has_names result.now ≡ true }",
        *(["    ensures are_kept { keeps_rules result.now ≡ true }"] if kept else []),
        "{",
        f"{STEP}&NODES",
        "}",
    ]
