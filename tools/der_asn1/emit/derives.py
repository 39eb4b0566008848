"""The traits that a type derives."""
import re
from typing import Iterable

from ..meaning.declarations import Declaration
from .copies import is_copied

# in the order in which they are written
ORDER = "Debug Clone Copy Drop PartialEq Eq PartialOrd Ord Hash Default".split()
# those that a crate may have of all its types, and the one that each needs
MORE = {"Clone": "", "PartialOrd": "", "Ord": "PartialOrd", "Hash": ""}
_DERIVE = re.compile(r"#\[derive\((.*)\)\]")


def with_derives(lines: list[str], wanted: Iterable[str]) -> list[str]:
    """The lines of a type, whose definition derives these traits, too."""
    at = next((index for index, it in enumerate(lines) if _DERIVE.fullmatch(it)), None)
    if at is None:
        return lines
    traits = sorted({*_DERIVE.fullmatch(lines[at])[1].split(", "), *wanted}, key=ORDER.index)
    return [*lines[:at], f"#[derive({', '.join(traits)})]", *lines[at + 1 :]]


def derived(declared: Declaration, wanted: Iterable[str]) -> list[str]:
    """Those of these traits that a type derives: all but the `Clone` that is written."""
    return [it for it in wanted if it != "Clone" or not is_copied(declared)]
