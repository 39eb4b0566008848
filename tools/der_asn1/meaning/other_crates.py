"""Modules whose types other crates have."""
import os
import re
from typing import Iterable, Optional

_USE = re.compile(r"^pub use \w+::(?:\{([^}]*)\}|(\w+));", re.MULTILINE)
_TERM = re.compile(r"^abbrev pub (\w+) : Notation$", re.MULTILINE)


def exported(root_text: str, terms_text: str) -> frozenset[str]:
    """The names of types that the root of a crate exports, and that have a term. A name without one is another's type."""
    names = {name for group, single in _USE.findall(root_text) for name in re.findall(r"\w+", group or single)}
    return frozenset(names & set(_TERM.findall(terms_text)))


class OtherCrates:
    """The crate of each module that another crate has, by the module's name in small letters, and the types that each crate exports.

    A type of such a module that its crate exports isn't declared again, and one that it doesn't export is. A type has the path that begins
    with its crate, or its name alone once it is known that the crate which is written uses it (`used`, by paths).
    """

    def __init__(
        self,
        crates: Optional[dict[str, str]] = None,
        names: Optional[dict[str, frozenset[str]]] = None,
        used: frozenset[str] = frozenset(),
    ) -> None:
        self.crates, self.names, self.used = crates or {}, names or {}, used

    def using(self, paths: Iterable[str]) -> "OtherCrates":
        """The same, where these types are used."""
        return OtherCrates(self.crates, self.names, frozenset(paths))

    def crate_of(self, module: str) -> Optional[str]:
        """The crate that has the types of a module, or None."""
        return self.crates.get(module.lower())

    def exports(self, path: str) -> bool:
        """Whether a crate exports this name."""
        crate, name = path.split("::")
        return name in self.names[crate]

    def shown(self, path: str) -> str:
        """A type as this crate names it."""
        return path.split("::")[1] if path in self.used else path


def other_crates(given: list[str], folder: str) -> OtherCrates:
    """What the words `MODULE=CRATE` say, where the crates are in this folder. Raises an OSError for a crate that the compiler didn't write."""
    crates, names = {}, {}
    for it in given:
        module, _, crate = it.partition("=")
        crates[module.lower()] = crate
        names[crate] = exported(*(text_of(os.path.join(folder, crate, path)) for path in ("src/lib.rt", "specs/Notation.antt")))
    return OtherCrates(crates, names)


def text_of(path: str) -> str:
    """The text of a file."""
    with open(path, encoding="utf-8") as it:
        return it.read()
