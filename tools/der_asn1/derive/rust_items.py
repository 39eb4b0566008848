"""The items of a Rust file, as far as `derive` needs them: imports, structs, enums, and the parameters of functions."""
from dataclasses import dataclass, field
from typing import Optional

from ..meaning.declarations import Generics, Parameter
from ..meaning.rust_types import ARRAY, RustType, of, tuple_of
from .rust_tokens import Reader, Source


@dataclass(frozen=True)
class Part:
    """A field of a struct or a variant of an enum: its name, its type if it has one, its number if one is written, and its notes.

    The name of a field without one is `0`.
    """

    name: str
    type: Optional[RustType]
    line: int
    notes: tuple[str, ...] = ()
    number: Optional[int] = None


@dataclass
class Item:
    """A struct or an enum. `ghosts` are the clauses of its ghost fields by their names."""

    name: str
    is_enum: bool
    line: int
    notes: tuple[str, ...]
    derives: frozenset
    generics: Generics
    parts: list[Part]
    is_tuple: bool = False
    ghosts: dict = field(default_factory=dict)


@dataclass
class RustFile:
    """A file: its structs and enums, the path of each name that it imports, the names of its other items, and the one parameter of functions.

    `modules` are the modules that it declares.
    """

    source: Source
    items: list[Item] = field(default_factory=list)
    imports: dict = field(default_factory=dict)
    names: set = field(default_factory=set)
    functions: dict = field(default_factory=dict)
    modules: set = field(default_factory=set)


def read_items(path: str, text: str) -> RustFile:
    """The items of a file."""
    found = RustFile(Source(path, text))
    reader = Reader(found.source)
    while reader.now():
        _item(reader, found)
    return found


def _item(reader: Reader, found: RustFile) -> None:
    """One item, with its attributes. A type with a lifetime is one of another kind, since no value that is read has one."""
    first, derives = reader.at, set()
    while reader.has("#"):
        reader.has("!")
        words = reader.balanced()
        if words.startswith("derive"):
            derives |= set(words.partition("(")[2].rstrip(") \n").replace(",", " ").split())
    if reader.has("pub") and reader.now() == "(":
        reader.balanced()
    word = reader.now()
    if word in ("struct", "enum") and not reader.now(3).startswith("'"):
        found.items.append(_type(reader, first, frozenset(derives)))
    elif word == "use":
        reader.take()
        _imports(reader, "", found)
        reader.take(";")
    elif word:
        _other(reader, word, found)


def _other(reader: Reader, word: str, found: RustFile) -> None:
    """An item of another kind, whose name is known then."""
    name = reader.now(1)
    if word == "mod":
        found.modules.add(name)
    elif word in ("type", "const", "static", "trait", "fn"):
        found.names.add(name)
    if word == "fn":
        reader.at += 2
        found.functions[name] = _parameter(reader)
    reader.skip_item()


def _parameter(reader: Reader) -> Optional[RustType]:
    """The type of the one parameter of a function, as `&T` if it is a reference, or None if there isn't one alone."""
    if reader.now() != "(":
        return None
    start = reader.at
    reader.take("(")
    if reader.now(1) != ":":
        reader.at = start
        return None
    reader.at += 2
    is_reference = reader.has("&")
    type_ = read_type(reader)
    reader.has(",")
    is_one = reader.now() == ")"
    reader.at = start
    return (of("&", type_) if is_reference else type_) if is_one else None


def _imports(reader: Reader, path: str, found: RustFile) -> None:
    """The names that a `use` brings in, with the modules that they are from."""
    if reader.has("{"):
        while not reader.has("}"):
            _imports(reader, path, found)
            reader.has(",")
        return
    name = reader.take()
    if reader.has("::"):
        _imports(reader, f"{path}::{name}" if path else name, found)
    elif reader.has("as"):
        reader.take()
    else:
        found.imports[name] = path


def _type(reader: Reader, first: int, derives: frozenset) -> Item:
    """A struct or an enum."""
    is_enum, line = reader.take("struct", "enum") == "enum", reader.line
    name = reader.take()
    generics = _generics(reader)
    notes = tuple(reader.source.words_at(first, reader.at))
    it = Item(name, is_enum, line, notes, derives, generics, [])
    if reader.now() == "(":
        it.is_tuple = True
        _tuple_fields(reader, it)
        reader.take(";")
    elif reader.has("{"):
        while not reader.has("}"):
            _part(reader, it)
    else:
        reader.take(";")
    return it


def _generics(reader: Reader) -> Generics:
    """The parameters of a type."""
    found = []
    while reader.has("<", ","):
        if reader.now() == ">":
            break
        name = f"const {reader.take()}" if reader.has("const") else reader.take()
        after = []
        if reader.has(":"):
            while reader.now() not in (",", ">"):
                after.append(str(read_type(reader)))
                reader.has("+")
        found.append(Parameter(name, " + ".join(after)))
    if found:
        reader.take(">")
    return Generics(tuple(found))


def _tuple_fields(reader: Reader, it: Item) -> None:
    """The fields of a struct without names."""
    reader.take("(")
    while not reader.has(")"):
        first, line = reader.at, reader.line
        if reader.has("pub") and reader.now() == "(":
            reader.balanced()
        type_ = read_type(reader)
        reader.has(",")
        it.parts.append(Part(str(len(it.parts)), type_, line, tuple(reader.source.words_at(first, reader.at))))


def _part(reader: Reader, it: Item) -> None:
    """A field with a name, a ghost field, or a variant."""
    first = reader.at
    while reader.has("#"):
        reader.balanced()
    if reader.has("ghost"):
        name = reader.take()
        reader.take(":")
        it.ghosts[name] = reader.balanced()
        reader.has(",")
        return
    if reader.has("pub") and reader.now() == "(":
        reader.balanced()
    line, name, type_, number = reader.line, reader.take(), None, None
    if not it.is_enum:
        reader.take(":")
        type_ = read_type(reader)
    elif reader.has("("):
        type_ = read_type(reader)
        reader.has(",")
        reader.take(")")
    elif reader.has("="):
        number = _number(reader)
    if reader.now() != "}":
        reader.take(",")
    it.parts.append(Part(name, type_, line, tuple(reader.source.words_at(first, reader.at)), number))


def _number(reader: Reader) -> int:
    """The number of a variant."""
    is_negative, text = reader.has("-"), reader.take().replace("_", "")
    try:
        return -int(text, 0) if is_negative else int(text, 0)
    except ValueError:
        raise reader.source.error(reader.line, f"`{text}` isn't a number") from None


def read_type(reader: Reader) -> RustType:
    """A type: a name with arguments, a tuple, or an array."""
    if reader.has("("):
        parts = []
        while not reader.has(")"):
            parts.append(read_type(reader))
            reader.has(",")
        return tuple_of(*parts)
    if reader.has("["):
        inner = read_type(reader)
        if not reader.has(";"):
            reader.take("]")
            return of("[T]", inner)
        length = reader.take()
        reader.take("]")
        return of(ARRAY, inner, length)
    if reader.now() in ("&", "dyn", "fn", "*", "impl"):
        raise reader.source.error(reader.line, f"a type with `{reader.now()}` can't be read: a value owns what it is made of")
    name = reader.take()
    while reader.has("::"):
        name = f"{name}::{reader.take()}"
    return of(name, *_arguments(reader))


def _arguments(reader: Reader) -> list:
    """The arguments of a type: types, and constants as texts."""
    found = []
    if not reader.has("<"):
        return found
    while not reader.has(">"):
        if reader.now() == "{":
            found.append(f"{{ {reader.balanced()} }}")
        elif reader.now()[0].isdigit() or reader.now() in ("-", "true", "false") or reader.now()[0] == "'":
            found.append(reader.take() + (reader.take() if reader.now(-1) == "-" else ""))
        else:
            found.append(read_type(reader))
        reader.has(",")
    return found
