"""The parser's part for constraints (X.680, 49 to 53; X.682)."""
from . import tree
from .cursor import split
from .source import Place
from .tokens import Kind
from .values import ValueParser


class ConstraintParser(ValueParser):
    """Reads constraints. Types are read by the subclass."""

    def type(self) -> tree.Type:
        """A type, which the subclass reads."""
        raise NotImplementedError

    def constraints(self) -> list[tree.Constraint]:
        """All constraints that follow a type."""
        found = []
        while self.at("(", "SIZE"):
            if self.at("SIZE"):
                self.problems.deviation(self.now.place, "a size constraint of this type has parentheses around it", "X.680, 49.1")
                found.append(self.size_alone())
            else:
                found.append(self.constraint())
        return found

    def size_alone(self) -> tree.ElementSet:
        """`SIZE (..)` without parentheses around it, as before OF (X.680, 49.5)."""
        place = self.now.place
        return tree.ElementSet(place, self.element())

    def constraint(self) -> tree.Constraint:
        """A constraint in its parentheses (X.680, 49.6)."""
        place = self.expect("(", "X.680, 49.6").place
        found = self.unparenthesized(place)
        if self.accept("!"):
            self.exception()
        self.close(place)
        return found

    def close(self, opening: Place) -> None:
        """The closing parenthesis. One that is missing at the end of a member is accepted."""
        if self.at("}", ",") and not self.at(")"):
            text = f"expected `)`, found {self.now.shown()}, for the `(` at {opening.line}:{opening.column}"
            self.problems.deviation(self.now.place, text, "X.680, 49.6")
            return
        self.expect(")", "X.680, 49.6")

    def unparenthesized(self, place: Place) -> tree.Constraint:
        """A constraint by its first items: a table, CONSTRAINED BY, the type of contents, or a set of values."""
        if self.at("{") and self.ahead().is_symbol("}") or self.at("{") and self.ahead().kind is Kind.UPPER:
            return self.table(place)
        if self.accept("CONSTRAINED"):
            self.expect("BY", "X.682, 9.3")
            self.braced("X.682, 9.3")
            return tree.UserConstraint(place)
        if self.at("CONTAINING", "ENCODED"):
            return self.contents(place)
        return self.element_set()

    def exception(self) -> None:
        """An exception identifier (X.680, 53.4), which says nothing of values."""
        if not self.at_value() and not self.at(")"):
            self.type()
            self.expect(":", "X.680, 53.4")
        self.value()

    def table(self, place: Place) -> tree.TableConstraint:
        """`{Set}` and `{Set}{@member}` (X.682, 10.3)."""
        tokens = self.braced("X.682, 10.3")
        names = []
        if self.at("{"):
            for part in split(self.braced("X.682, 10.7"), ","):
                names.append("".join(it.text for it in part if it.text != "@"))
        return tree.TableConstraint(place, tokens, names)

    def contents(self, place: Place) -> tree.ContentsConstraint:
        """CONTAINING and ENCODED BY (X.682, 11.4)."""
        inner = self.type() if self.accept("CONTAINING") else None
        encoded_by = None
        if self.accept("ENCODED"):
            self.expect("BY", "X.682, 11.4")
            encoded_by = self.value()
        return tree.ContentsConstraint(place, inner, encoded_by)

    # ---- sets of values (X.680, 50)

    def element_set(self) -> tree.ElementSet:
        """A set of values, which may be extensible (X.680, 50.1)."""
        place = self.now.place
        root, extensible, additions = self.unions(), False, None
        if self.accept(","):
            self.expect("...", "X.680, 50.1")
            extensible = True
            if self.accept(","):
                additions = self.unions()
        return tree.ElementSet(place, root, extensible, additions)

    def unions(self) -> tree.Element:
        """A union, whose parts are intersections (X.680, 50.1)."""
        place = self.now.place
        if self.accept("ALL"):
            self.expect("EXCEPT", "X.680, 50.1")
            return tree.Except(place, None, self.element())
        parts = [self.intersections()]
        while self.accept("|", "UNION"):
            parts.append(self.intersections())
        return parts[0] if len(parts) == 1 else tree.Union_(place, parts)

    def intersections(self) -> tree.Element:
        """An intersection, whose parts may leave values out (X.680, 50.1)."""
        place = self.now.place
        parts = [self.exclusion()]
        while self.accept("^", "INTERSECTION"):
            parts.append(self.exclusion())
        return parts[0] if len(parts) == 1 else tree.Intersection(place, parts)

    def exclusion(self) -> tree.Element:
        """An element, perhaps without another one (X.680, 50.1)."""
        part = self.element()
        return tree.Except(part.place, part, self.element()) if self.accept("EXCEPT") else part

    def element(self) -> tree.Element:
        """One element (X.680, 50.5 and 51.1)."""
        place = self.now.place
        if self.accept("("):
            inner = self.unions()
            self.close(place)
            return inner
        if self.accept("SIZE"):
            return tree.SizeConstraint(place, self.inner_set("X.680, 51.5"))
        if self.accept("FROM"):
            return tree.Alphabet(place, self.inner_set("X.680, 51.7"))
        if self.accept("WITH"):
            return self.inner_subtyping(place)
        if self.accept("PATTERN"):
            return tree.Pattern(place, [self.take()])
        if self.accept("INCLUDES"):
            return tree.ContainedSubtype(place, self.type())
        if self.at("MIN") or self.at_value() and not (self.at("NULL") and not self.ahead().is_symbol(")")):
            return self.value_or_range()
        return tree.ContainedSubtype(place, self.contained())

    def contained(self) -> tree.Type:
        """The type of a contained subtype (X.680, 51.3)."""
        if self.now.kind is not Kind.UPPER and not self.at("["):
            self.refuse("a value, a range, a type or a constraint", "X.680, 51.1")
        return self.type()

    def inner_set(self, clause: str) -> tree.ElementSet:
        """The constraint after SIZE or FROM."""
        if self.at("("):
            self.take()
            place = self.now.place
            found = self.element_set()
            self.close(place)
            return found
        self.problems.deviation(self.now.place, f"expected `(`, found {self.now.shown()}", clause)
        return tree.ElementSet(self.now.place, self.value_or_range())

    def inner_subtyping(self, place: Place) -> tree.InnerSubtyping:
        """WITH COMPONENT and WITH COMPONENTS (X.680, 51.8)."""
        if self.accept("COMPONENT"):
            start = self.index
            self.constraint()
            return tree.InnerSubtyping(place, self.tokens[start : self.index])
        self.expect("COMPONENTS", "X.680, 51.8")
        if not self.at("{"):
            self.refuse("`{`", "X.680, 51.8.5")
        return tree.InnerSubtyping(place, self.braced("X.680, 51.8.5"))

    def value_or_range(self) -> tree.Element:
        """A single value (X.680, 51.2) or a range (51.4)."""
        place = self.now.place
        low = None if self.accept("MIN") else self.value()
        low_open = bool(self.accept("<"))
        if not self.accept(".."):
            if low is None or low_open:
                self.refuse("`..`", "X.680, 51.4")
            return tree.SingleValue(place, low)
        high_open = bool(self.accept("<"))
        high = None if self.accept("MAX") else self.value()
        return tree.ValueRange(place, low, high, low_open, high_open)
