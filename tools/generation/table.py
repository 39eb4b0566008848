"""The rows of crates/der_types/types.toml."""
import tomllib
from dataclasses import dataclass
from typing import Any

from shared.crates import ROOT

TABLE = ROOT / "crates/der_types/types.toml"


def snake(name: str) -> str:
    """The module of a type."""
    return "".join(("_" if it.isupper() and at else "") + it.lower() for at, it in enumerate(name))


@dataclass(frozen=True)
class Named:
    """A name of a file of specs."""

    name: str
    specs: str


@dataclass(frozen=True)
class Equality:
    """Why values are equal exactly if their contents are, and the lemmas in that."""

    proof: str
    respects: str
    cites: list[str]


@dataclass(frozen=True)
class Content:
    """A type whose content passes a test. The table says what each column is."""

    name: str
    asn1: str
    term: str
    clause: str
    tag: int
    constant: str
    test: str
    specs: str
    form: str
    note: str = ""
    code: str = ""
    named: bool = False
    sized: bool = True
    size: Named | None = None
    equality: Equality | None = None
    order: str = "content"

    @property
    def module(self) -> str:
        """The name of its files."""
        return snake(self.name)


@dataclass(frozen=True)
class Profile:
    """Contents of fewer values than a type of ASN.1 has, whose type is written by hand."""

    term: str
    clause: str
    note: str
    tag: int
    test: str
    specs: str


@dataclass(frozen=True)
class Kind:
    """A type of one primitive kind."""

    name: str
    clause: str
    term: str
    tag: int
    core: str
    meaning: str
    exact: str
    cites: list[str]
    home: str = ""
    asn1: str = ""


@dataclass(frozen=True)
class Characters:
    """A set of characters with its string type."""

    name: str
    string: str
    asn1: list[str]
    tag: int
    width: str
    kind: str
    test: str
    code: str
    doc: str


@dataclass(frozen=True)
class Constraint:
    """A type of the values that a constraint allows."""

    name: str
    about: str
    doc: str
    of: str
    value: str
    parameters: list[list[str]]
    test: str
    holds: bool
    compared: str
    refused: str
    code: str
    is_list: bool
    notation: str
    exact_values: str
    first: str = ""
    bounds: str = ""

    @property
    def module(self) -> str:
        """The name of its file."""
        return snake(self.name)


def load(kind: str) -> list[dict[str, Any]]:
    """The rows of one kind as the table has them."""
    with open(TABLE, "rb") as file:
        return tomllib.load(file)[kind]


def contents() -> list[Content]:
    """The types whose content passes a test."""
    records = {"size": Named, "equality": Equality}
    return [Content(**{key: records[key](**it) if key in records else it for key, it in row.items()}) for row in load("content")]


def profiles() -> list[Profile]:
    """The contents of types that are written by hand."""
    return [Profile(**row) for row in load("profile")]


def kinds() -> list[Kind]:
    """The types of one primitive kind each."""
    return [Kind(**row) for row in load("kind")]


def characters() -> list[Characters]:
    """The sets of characters."""
    return [Characters(**row) for row in load("characters")]


def constraints() -> list[Constraint]:
    """The constraints."""
    return [Constraint(**row) for row in load("constraint")]
