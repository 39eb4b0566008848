"""Types of Rust as trees."""
import re
from dataclasses import dataclass, replace
from typing import Union

# the name of an array, whose arguments are a type and a length
ARRAY = "[]"


@dataclass(frozen=True)
class RustType:
    """A type: its name with its arguments, each a type or the text of a constant. A tuple has no name, and an array the name `[]`."""

    name: str
    arguments: tuple[Union["RustType", str], ...] = ()

    def __str__(self) -> str:
        inner = ", ".join(map(str, self.arguments))
        if self.name == ARRAY:
            return "[{}; {}]".format(*self.arguments)
        if not self.name:
            return f"({inner},)" if len(self.arguments) == 1 else f"({inner})"
        return f"{self.name}<{inner}>" if self.arguments else self.name

    def names(self) -> set[str]:
        """The names of all types in it."""
        parts = (it.names() for it in self.arguments if isinstance(it, RustType))
        return {self.name}.union(*parts) - {"", ARRAY}

    def words(self) -> set[str]:
        """The names of all types and constants in it."""
        return set(re.findall(r"\w+", str(self)))

    def replaced(self, before: "RustType", after: "RustType") -> "RustType":
        """The same with a type in place of each argument that is `before`."""
        return replace(self, arguments=tuple(after if it == before else it for it in self.arguments))


def of(name: str, *arguments: Union[RustType, str]) -> RustType:
    """A type by its name and its arguments."""
    return RustType(name, arguments)


def tuple_of(*parts: RustType) -> RustType:
    """A tuple of types."""
    return RustType("", parts)


UNIT = tuple_of()
