"""Information object classes, objects and object sets (X.681, 9 to 12)."""
from dataclasses import dataclass, field, replace
from typing import Optional

from ..parse import tree
from ..parse.cursor import split
from ..parse.source import NotationError, Place
from ..parse.tokens import Kind, Token
from ..parse.types import TypeParser
from .scopes import Binding, Program, Scope

_NOWHERE = Place("", 0, 0)
_DEPTH = 30

# TYPE-IDENTIFIER (X.681, annex A) and ABSTRACT-SYNTAX (annex B), as far as their fields go
_TYPE_IDENTIFIER = tree.ClassDefinition(
    _NOWHERE,
    [
        tree.ClassField(_NOWHERE, "&id", tree.SimpleType(_NOWHERE, "OBJECT IDENTIFIER"), unique=True),
        tree.ClassField(_NOWHERE, "&Type"),
    ],
    [
        tree.SyntaxItem(field_name="&Type"),
        tree.SyntaxItem(literal="IDENTIFIED"),
        tree.SyntaxItem(literal="BY"),
        tree.SyntaxItem(field_name="&id"),
    ],
)
BUILT_IN_CLASSES = frozenset(("TYPE-IDENTIFIER", "ABSTRACT-SYNTAX"))


@dataclass(frozen=True)
class ClassInScope:
    """A class, and the scope of the names in it."""

    definition: tree.ClassDefinition
    scope: Scope


@dataclass
class Setting:
    """What an object has for a field of its class: a type, a value, or a set or object in braces."""

    field_name: str
    type: Optional[tree.Type] = None
    value: Optional[tree.Value] = None
    tokens: Optional[list[Token]] = None


@dataclass
class InformationObject:
    """An object, and the scope of the names in it. It may have a name."""

    scope: Scope
    settings: list[Setting] = field(default_factory=list)
    name: str = ""

    def setting(self, field_name: str) -> Optional[Setting]:
        """What the object has for a field, or None."""
        return next((it for it in self.settings if it.field_name == field_name), None)


@dataclass
class ObjectSet:
    """The objects of a set. `complete` says that all of them were found, `extensible` that others may be added."""

    objects: list[InformationObject] = field(default_factory=list)
    extensible: bool = False
    complete: bool = True

    def add(self, other: "ObjectSet") -> None:
        """Takes over what another set has."""
        self.objects += other.objects
        self.extensible |= other.extensible
        self.complete &= other.complete


def class_named(program: Program, name: str, scope: Scope, depth: int = 0) -> Optional[ClassInScope]:
    """The class with this name, or None."""
    if name in BUILT_IN_CLASSES:
        return ClassInScope(_TYPE_IDENTIFIER, scope)
    found = program.find(name, scope)
    if isinstance(found, Binding):
        inner = found.argument.type
        return class_named(program, inner.name, found.scope, depth + 1) if isinstance(inner, tree.ReferenceType) and depth < _DEPTH else None
    if found is None or depth > _DEPTH:
        return None
    if isinstance(found.assignment, tree.ClassAssignment):
        definition = found.assignment.definition
        return class_named(program, definition, found.scope, depth + 1) if isinstance(definition, str) else ClassInScope(definition, found.scope)
    alias = getattr(found.assignment, "type", None)
    if isinstance(found.assignment, tree.TypeAssignment) and isinstance(alias, tree.ReferenceType):
        return class_named(program, alias.name, found.scope, depth + 1)
    return None


class _ObjectParser(TypeParser):
    """Reads an object by the syntax of its class (X.681, 10.12 and 11.5)."""

    def settings(self, definition: tree.ClassDefinition) -> list[Setting]:
        """What the object has for the fields of its class."""
        if definition.syntax is None:
            return self.default_syntax(definition)
        found = []
        self.items(definition.syntax, definition, found)
        if self.now.kind is not Kind.END:
            self.refuse("the end of the object", "X.681, 11.5")
        return found

    def default_syntax(self, definition: tree.ClassDefinition) -> list[Setting]:
        """`{ &field setting, .. }` (X.681, 11.5)."""
        found = []
        while self.now.kind is Kind.FIELD:
            found.append(self.setting(definition, self.take().text))
            self.accept(",")
        return found

    def items(self, items: list[tree.SyntaxItem], definition: tree.ClassDefinition, found: list[Setting]) -> None:
        """Reads items of the syntax, and keeps the settings in `found`."""
        for it in items:
            if it.group is not None:
                if self.begins_group(it.group, definition):
                    self.items(it.group, definition, found)
            elif it.literal is not None:
                self.expect(it.literal, "X.681, 11.5")
            else:
                found.append(self.setting(definition, it.field_name))

    def begins_group(self, group: list[tree.SyntaxItem], definition: tree.ClassDefinition) -> bool:
        """Whether the next item begins this optional group (X.681, 10.12)."""
        first = group[0]
        if first.group is not None:
            return self.begins_group(first.group, definition) or len(group) > 1 and self.begins_group(group[1:], definition)
        if first.literal is not None:
            return self.at(first.literal)
        return self.now.kind is not Kind.END and not self.at(",")

    def setting(self, definition: tree.ClassDefinition, field_name: str) -> Setting:
        """What stands for one field: a type, a value, or what is in braces."""
        known = definition.field_named(field_name)
        if known is None:
            self.refuse("the name of a field", "X.681, 11.5")
        is_type = field_name[1].isupper() and known.type is None
        if is_type:
            return Setting(field_name, type=self.type())
        if self.at("{"):
            place = self.now.place
            tokens = self.braced("X.681, 11.5")
            return Setting(field_name, value=tree.BraceValue(place, tokens), tokens=tokens)
        if field_name[1].isupper() or self.now.kind is Kind.UPPER and not self.at("TRUE", "FALSE", "NULL"):
            start = self.index
            self.type()
            return Setting(field_name, tokens=self.tokens[start : self.index])
        return Setting(field_name, value=self.value())


def object_of(
    program: Program,
    tokens: list[Token],
    class_: Optional[ClassInScope],
    scope: Scope,
    place: Place = _NOWHERE,
) -> Optional[InformationObject]:
    """The object that is written in braces, or None if it isn't one of the class."""
    parser = _ObjectParser([*tokens, Token(Kind.END, "the closing bracket", place)], program.problems)
    try:
        return InformationObject(scope, parser.settings(class_.definition))
    except NotationError as error:
        program.problems.warn(error.problem.place, f"this isn't an object of its class: {error.problem.text}", error.problem.clause)
        return None


def object_named(program: Program, name: str, scope: Scope, class_: Optional[ClassInScope] = None, depth: int = 0) -> InformationObject:
    """The object with this name, or None."""
    found = program.find(name, scope)
    if isinstance(found, Binding):
        value = found.argument.value
        return object_named(program, value.name, found.scope, class_, depth + 1) if isinstance(value, tree.NamedValue) and depth < _DEPTH else None
    if found is None or not isinstance(found.assignment, tree.ValueAssignment) or depth > _DEPTH:
        return None
    governor, value = found.assignment.type, found.assignment.value
    own = class_named(program, governor.name, found.scope) if isinstance(governor, tree.ReferenceType) else None
    if isinstance(value, tree.NamedValue):
        return object_named(program, value.name, found.scope, own or class_, depth + 1)
    if not isinstance(value, tree.BraceValue) or not (own or class_):
        return None
    return object_of(program, value.tokens, own or class_, found.scope, value.place)


def set_of(program: Program, tokens: list[Token], class_: Optional[ClassInScope], scope: Scope, depth: int = 0) -> ObjectSet:
    """The objects of the set that is written so (X.681, 12.3)."""
    found = ObjectSet()
    for part in split(tokens, "|", "UNION", ","):
        if not part:
            continue
        if part[0].is_symbol("..."):
            found.extensible = True
        elif part[0].is_symbol("{"):
            one = object_of(program, part[1:-1], class_, scope, part[0].place) if class_ else None
            _add(found, one and replace(one, name=_name_within(one, class_.definition)))
        elif part[0].is_symbol("("):
            found.add(set_of(program, part[1:-1], class_, scope, depth + 1))
        elif len(part) == 1 and part[0].kind is Kind.LOWER:
            one = object_named(program, part[0].text, scope, class_)
            _add(found, one and replace(one, name=part[0].text))
        elif part[0].kind is Kind.UPPER and "EXCEPT" not in [it.text for it in part]:
            found.add(set_named(program, part, class_, scope, depth + 1))
        else:
            found.complete = False
    return found


def _name_within(one: InformationObject, class_: tree.ClassDefinition) -> str:
    """The name of an object's identifier, or else of a type that it has, or nothing."""
    unique = {it.name for it in class_.fields if it.unique}
    names = [it.value.name for it in one.settings if it.field_name in unique and isinstance(it.value, tree.NamedValue)]
    types = [it.type.name for it in one.settings if isinstance(it.type, tree.ReferenceType)]
    return next(iter([*names, *types]), "")


def _add(found: ObjectSet, one: Optional[InformationObject]) -> None:
    if one is None:
        found.complete = False
    else:
        found.objects.append(one)


def set_named(program: Program, tokens: list[Token], class_: Optional[ClassInScope], scope: Scope, depth: int = 0) -> ObjectSet:
    """The objects of the set that a name stands for, which may have arguments in braces."""
    unknown = ObjectSet(complete=False)
    found = program.find(tokens[0].text, scope)
    if found is None or depth > _DEPTH:
        return unknown
    if isinstance(found, Binding):
        if found.argument.set_tokens is not None:
            return set_of(program, found.argument.set_tokens, class_, found.scope, depth + 1)
        reference = found.argument.type
        if isinstance(reference, tree.ReferenceType):
            return set_named(program, [Token(Kind.UPPER, reference.name, reference.place)], class_, found.scope, depth + 1)
        return unknown
    if not isinstance(found.assignment, tree.SetAssignment):
        return unknown
    inside = found.scope
    if found.assignment.parameters:
        parser = TypeParser([*tokens[1:], Token(Kind.END, "", tokens[0].place)], program.problems)
        inside = program.apply(found, parser.arguments() if parser.at("{") else [], scope)
    governor = found.assignment.type
    own = class_named(program, governor.name, found.scope) if isinstance(governor, tree.ReferenceType) else None
    return set_of(program, found.assignment.tokens, own or class_, inside, depth + 1) if inside else unknown
