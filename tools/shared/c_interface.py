"""What crates/der_c offers to callers in other languages, as its sources have it."""
import re
from dataclasses import dataclass, field

from .crates import folder_of

SOURCES = folder_of("der_c") / "src"
RULES = folder_of("der_show") / "src/rule.rt"

DOC = r"((?:^ *///[^\n]*\n)*)"


@dataclass
class Constant:
    """A code, or the number of a type."""

    name: str
    value: int
    doc: str


@dataclass
class Struct:
    """A struct of the caller's, with its fields in order."""

    name: str
    doc: str
    fields: list[Constant | tuple[str, str, str]] = field(default_factory=list)


@dataclass
class Function:
    """An export: its parameters by name and type of Rust, without the allocator, which callers don't see."""

    name: str
    doc: str
    parameters: list[tuple[str, str]]


@dataclass
class Rule:
    """A rule of X.690 that bytes can break."""

    name: str
    code: int
    words: str
    clause: str


def doc_of(comment: str) -> str:
    """The text of a documentation comment, a line for each paragraph."""
    lines = [re.sub(r"^ */// ?", "", line) for line in comment.splitlines()]
    return "\n".join(" ".join(part.split()) for part in "\n".join(lines).split("\n\n") if part.strip())


def text_of(name: str) -> str:
    """A source file of der_c."""
    return (SOURCES / f"{name}.rt").read_text(encoding="utf-8")


def all_sources() -> str:
    """The sources, in the order of the header: codes, types, and then what is checked, gone over and written."""
    return "".join(map(text_of, ("code", "types", "messages", "path", "json", "ber", "element", "front", "elements", "next", "writing", "order")))


def constants() -> list[Constant]:
    """The constants that callers see."""
    found = re.findall(DOC + r"^pub const (PICKY_DER_\w+): u32 = (\d+);", all_sources(), re.M)
    return [Constant(name, int(value), doc_of(doc)) for doc, name, value in found]


def structs() -> list[Struct]:
    """The structs that callers see."""
    found = re.findall(DOC + r"^#\[repr\(C\)\]\n#\[derive\(Clone, Copy\)\]\npub struct (\w+) \{\n(.*?)^\}", all_sources(), re.M | re.S)
    members = r"((?:^ *///[^\n]*\n)*) *pub (\w+): (\w+),"
    return [Struct(name, doc_of(doc), [(it[1], it[2], doc_of(it[0])) for it in re.findall(members, body, re.M)]) for doc, name, body in found]


def functions() -> list[Function]:
    """The exports."""
    found = re.findall(DOC + r'^#\[unsafe\(no_mangle\)\]\npub extern "C" fn (\w+)\((.*?)\) -> u32', all_sources(), re.M | re.S)
    made = []
    for doc, name, listed in found:
        parts = [part.strip().split(": ") for part in listed.split(",") if part.strip()]
        made.append(Function(name, doc_of(doc), [(parameter, kind) for parameter, kind in parts if kind != "Global"]))
    return made


def in_snake_case(name: str) -> str:
    """A name in CamelCase with underscores."""
    return re.sub(r"(?<!^)(?=[A-Z])", "_", name).lower()


def rules() -> list[Rule]:
    """The rules, with what der_show says of them."""
    source = RULES.read_text(encoding="utf-8")
    words, clauses = (source[source.index(f"fn {name}(self)"):].split("\n    }\n")[0] for name in ("words", "clause"))

    def said(part: str, rule: str) -> str:
        found = re.search(rf"Rule::{rule}\b[^=\"]*=>\s*\"([^\"]*)\"", part)
        if found is None:
            raise SystemExit(f"{RULES}: nothing is said of {rule}")
        return found.group(1)

    codes = re.findall(r"Rule::(\w+) => (\d+),", text_of("code"))
    return [Rule(in_snake_case(name), int(code), said(words, name), said(clauses, name)) for name, code in codes]
