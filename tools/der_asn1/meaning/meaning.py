"""What is known of a type: which type of the library it is, and what is missing for it."""
from dataclasses import dataclass, replace
from typing import Optional

from .causes import Cause, Where
from .features import Feature, Level, Note
from .library import Rust
from .terms import Term, wider


@dataclass(frozen=True)
class Meaning:
    """A type of the notation as a type of the library: how well it is expressed, and what is missing for it.

    `is_other` says that its values aren't those of the notation, not counting those of its parts. `causes` are the features and the types of
    its own, each with the member that lacks it, and `loose` those that have no member yet.
    """

    rust: Optional[Rust]
    level: Level = Level.EXACT
    features: frozenset = frozenset()
    notes: frozenset = frozenset()
    is_other: bool = False
    causes: frozenset[Cause] = frozenset()
    loose: frozenset = frozenset()

    @property
    def missing(self) -> frozenset:
        """What the library lacks for it, and what it needs of its own."""
        return self.features.union(it for it in self.notes if it.is_own)

    def lacking(self, *features: Feature) -> "Meaning":
        """The same with features that the library lacks."""
        level, loose = max([self.level, *(it.level for it in features)]), self.loose | set(features)
        return replace(self, level=level, features=self.features | set(features), is_other=self.is_other or bool(features), loose=loose)

    def noting(self, *notes: Note) -> "Meaning":
        """The same with notes."""
        own = {it for it in notes if it.is_own}
        level = max([self.level, *(it.level for it in notes)])
        return replace(self, level=level, notes=self.notes | set(notes), is_other=self.is_other or bool(own), loose=self.loose | own)

    def placed(self, where: Where) -> "Meaning":
        """The same with this member as that which lacks what no other one does."""
        return replace(self, causes=self.causes | {Cause(where, it) for it in self.loose}, loose=frozenset()) if self.loose else self

    def as_(self, rust: Optional[Rust]) -> "Meaning":
        """The same for a type around it."""
        return replace(self, rust=rust)

    def containing(self, *parts: "Meaning") -> "Meaning":
        """The same with what is missing in its parts. What is raw there is a raw part here."""
        level = max([self.level, *(Level.PARTLY_RAW if it.level is Level.RAW else it.level for it in parts)])
        features = self.features.union(*(it.features for it in parts))
        found = replace(self, level=level, features=features, notes=self.notes.union(*(it.notes for it in parts)))
        return replace(found, causes=self.causes.union(*(it.causes for it in parts)), loose=self.loose.union(*(it.loose for it in parts)))

    def called(self, term: Optional[Term]) -> "Meaning":
        """The same with this term."""
        return replace(self, rust=replace(self.rust, term=term)) if self.rust else self

    def settled(self) -> "Meaning":
        """The same with a term that says so if the type isn't that of the notation."""
        if not self.is_other or self.rust is None:
            return self
        return replace(self.called(wider(self.rust.term)), is_other=False)


def lacks(meaning: Meaning) -> list[str]:
    """What is missing for a type, and what it needs of its own, as text."""
    return sorted(it.text for it in meaning.missing)
