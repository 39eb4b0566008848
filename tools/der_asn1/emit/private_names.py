"""Names of what a crate has for itself."""
from typing import Iterable

from ..meaning.declarations import Declaration


class PrivateNames:
    """Names that a file has for parts of a type. None is the name of a type or a field, and no two are the same."""

    def __init__(self, taken: Iterable[str] = ()) -> None:
        self.taken, self.known = set(taken), {}

    def of(self, declared: Declaration, suffix: str) -> str:
        """The name of a type with this suffix, and with a number after it if something else is called so."""
        return self.numbered(f"{declared.name}{suffix}")

    def numbered(self, wanted: str) -> str:
        """The name that is wanted, the same one each time, with a number after it if something else is called so."""
        if wanted not in self.known:
            name, number = wanted, 1
            while name in self.taken:
                number += 1
                name = f"{wanted}{number}"
            self.taken.add(name)
            self.known[wanted] = name
        return self.known[wanted]
