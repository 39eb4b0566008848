"""The notation as data: what the parser makes of a module."""
from dataclasses import dataclass, field
from enum import Enum
from typing import Optional, Union

from .source import Place, Problem
from .tokens import Token


class TagClass(Enum):
    """The class of a tag (X.680, 31.2.1), as the bits of the identifier byte (X.690, 8.1.2.2)."""

    UNIVERSAL = 0x00
    APPLICATION = 0x40
    CONTEXT = 0x80
    PRIVATE = 0xC0


class TagMode(Enum):
    """How a tag is put on (X.680, 31.2.7). AUTOMATIC is a default of a module alone."""

    EXPLICIT = "EXPLICIT"
    IMPLICIT = "IMPLICIT"
    AUTOMATIC = "AUTOMATIC"


class Presence(Enum):
    """Whether a member may be absent (X.680, 25.1)."""

    REQUIRED = ""
    OPTIONAL = "OPTIONAL"
    DEFAULT = "DEFAULT"


class Form(Enum):
    """Which of the two forms of a constructed type it is."""

    SEQUENCE = "SEQUENCE"
    SET = "SET"


# ---- values (X.680, 17.7)


@dataclass
class Value:
    """A value as it is written. What a name or braces mean depends on the type."""

    place: Place


@dataclass
class IntegerValue(Value):
    """A number with its sign (X.680, 19.9)."""

    number: int


@dataclass
class RealValue(Value):
    """A real number, as it is written (X.680, 21.6)."""

    text: str


@dataclass
class BooleanValue(Value):
    """TRUE or FALSE (X.680, 18.3)."""

    truth: bool


@dataclass
class NullValue(Value):
    """NULL (X.680, 24.3)."""


@dataclass
class TextValue(Value):
    """A cstring (X.680, 12.14), without its quotes."""

    text: str


@dataclass
class BitsValue(Value):
    """A bstring or an hstring (X.680, 12.10 and 12.12): its digits, and how many bits each has."""

    digits: str
    width: int


@dataclass
class NamedValue(Value):
    """A name: a value reference, a named number or an item of an enumeration."""

    name: str
    module: Optional[str] = None


@dataclass
class FieldValue(Value):
    """`object.&field`, a value from an object (X.681, 15)."""

    object_name: str
    fields: list[str]


@dataclass
class ChosenValue(Value):
    """`identifier : value` (X.680, 29.10)."""

    name: str
    value: Value


@dataclass
class BraceValue(Value):
    """Anything in braces: an object identifier, the members of a value, named bits or an information object."""

    tokens: list[Token]


# ---- constraints (X.680, 49 to 52; X.682)


@dataclass
class Element:
    """A part of a set of values."""

    place: Place


@dataclass
class Union_(Element):
    """The values of any part (X.680, 50.1)."""

    parts: list[Element]


@dataclass
class Intersection(Element):
    """The values of every part (X.680, 50.1)."""

    parts: list[Element]


@dataclass
class Except(Element):
    """All of `part` without `excluded`. `part` is None for ALL EXCEPT (X.680, 50.1)."""

    part: Optional[Element]
    excluded: Element


@dataclass
class SingleValue(Element):
    """One value (X.680, 51.2)."""

    value: Value


@dataclass
class ValueRange(Element):
    """A range (X.680, 51.4). A bound that is None is MIN or MAX. An open bound isn't in the range."""

    low: Optional[Value]
    high: Optional[Value]
    low_open: bool = False
    high_open: bool = False


@dataclass
class ContainedSubtype(Element):
    """The values of another type (X.680, 51.3)."""

    type: "Type"


@dataclass
class SizeConstraint(Element):
    """SIZE (X.680, 51.5)."""

    inner: "ElementSet"


@dataclass
class Alphabet(Element):
    """FROM (X.680, 51.7)."""

    inner: "ElementSet"


@dataclass
class InnerSubtyping(Element):
    """WITH COMPONENT and WITH COMPONENTS (X.680, 51.8), as they are written."""

    tokens: list[Token]


@dataclass
class Pattern(Element):
    """PATTERN (X.680, 51.9)."""

    tokens: list[Token]


@dataclass
class ElementSet:
    """A constraint as a set of values (X.680, 50), which may be extensible (52)."""

    place: Place
    root: Element
    extensible: bool = False
    additions: Optional[Element] = None


@dataclass
class ContentsConstraint:
    """CONTAINING and ENCODED BY (X.682, 11)."""

    place: Place
    type: Optional["Type"]
    encoded_by: Optional[Value] = None


@dataclass
class TableConstraint:
    """`({Set})` and `({Set}{@member})` (X.682, 10). `at` are the names after the at signs."""

    place: Place
    tokens: list[Token]
    at: list[str]


@dataclass
class UserConstraint:
    """CONSTRAINED BY (X.682, 9), which says something in words alone."""

    place: Place


Constraint = Union[ElementSet, ContentsConstraint, TableConstraint, UserConstraint]

# ---- types (X.680, 17)


@dataclass
class Tag:
    """A tag as it is written, or one that is automatic (X.680, 25.7). `number` may be a name (31.2.1)."""

    place: Place
    tag_class: TagClass
    number: Value
    mode: Optional[TagMode] = None
    is_automatic: bool = False


@dataclass
class Type:
    """A type as it is written, with the tags around it, the outermost first, and its constraints in order."""

    place: Place
    tags: list[Tag] = field(default_factory=list, kw_only=True)
    constraints: list[Constraint] = field(default_factory=list, kw_only=True)
    text: str = field(default="", kw_only=True, compare=False)


@dataclass
class SimpleType(Type):
    """A built-in type whose notation is its name alone, as BOOLEAN or UTF8String."""

    name: str


@dataclass
class NamedNumber:
    """A name with a number (X.680, 19.1, 20.1 and 22.1). In an enumeration the number may be left out."""

    place: Place
    name: str
    number: Optional[Value]
    comment: str = ""


@dataclass
class IntegerType(Type):
    """INTEGER (X.680, 19), with its named numbers."""

    named: list[NamedNumber] = field(default_factory=list)


@dataclass
class BitStringType(Type):
    """BIT STRING (X.680, 22), with its named bits."""

    named: list[NamedNumber] = field(default_factory=list)


@dataclass
class EnumeratedType(Type):
    """ENUMERATED (X.680, 20), with the items before and after an extension marker."""

    items: list[NamedNumber]
    additions: list[NamedNumber] = field(default_factory=list)
    extensible: bool = False


@dataclass
class Member:
    """A member of a SEQUENCE or SET, or an alternative of a CHOICE.

    `group` is the number of the extension addition that it belongs to, counted from 1, and None for one of the root. `text` is all
    that is written after the name, and `called` what its type is called after, if that isn't the member.
    """

    place: Place
    name: str
    type: Type
    presence: Presence = Presence.REQUIRED
    default: Optional[Value] = None
    group: Optional[int] = None
    version: Optional[int] = None
    comment: str = ""
    text: str = field(default="", compare=False)
    called: str = field(default="", compare=False)


@dataclass
class ComponentsOf:
    """COMPONENTS OF (X.680, 25.5)."""

    place: Place
    type: Type
    group: Optional[int] = None


@dataclass
class StructureType(Type):
    """A SEQUENCE or a SET of members (X.680, 25 and 27). `continues` says that members of the root come after the additions."""

    form: Form
    members: list[Union[Member, ComponentsOf]]
    extensible: bool = False
    continues: bool = False


@dataclass
class ChoiceType(Type):
    """A CHOICE (X.680, 29)."""

    alternatives: list[Member]
    extensible: bool = False


@dataclass
class ListType(Type):
    """A SEQUENCE OF or a SET OF (X.680, 26 and 28)."""

    form: Form
    element: Type
    element_name: str = ""


@dataclass
class ReferenceType(Type):
    """A name of a type, with the module and the arguments if they are given (X.680, 14.1; X.683, 9)."""

    name: str
    module: Optional[str] = None
    arguments: Optional[list["Argument"]] = None


@dataclass
class FieldType(Type):
    """`CLASS.&field` (X.681, 14)."""

    class_name: str
    fields: list[str]


@dataclass
class ObjectFieldType(Type):
    """`object.&field` and `{Set}.&field`, a type from an object (X.681, 15)."""

    tokens: list[Token]


@dataclass
class AnyType(Type):
    """ANY and ANY DEFINED BY (X.208, 27)."""

    defined_by: Optional[str] = None


@dataclass
class SelectionType(Type):
    """`alternative < Choice` (X.680, 30)."""

    name: str
    choice: Type


@dataclass
class InstanceOfType(Type):
    """INSTANCE OF (X.681, annex C)."""

    class_name: str


@dataclass
class Argument:
    """What is given for a parameter (X.683, 9.5): a type, a value, or a set in braces. A class is a ReferenceType."""

    place: Place
    type: Optional[Type] = None
    value: Optional[Value] = None
    set_tokens: Optional[list[Token]] = None
    text: str = ""


# ---- information objects (X.681)


@dataclass
class ClassField:
    """A field of a class (X.681, 9.4). `type` is that of a field of values, and a class's name that of a field of objects."""

    place: Place
    name: str
    type: Optional[Type] = None
    unique: bool = False
    optional: bool = False
    has_default: bool = False


@dataclass
class SyntaxItem:
    """An item of WITH SYNTAX (X.681, 10.5): a literal, a field, or an optional group."""

    literal: Optional[str] = None
    field_name: Optional[str] = None
    group: Optional[list["SyntaxItem"]] = None


@dataclass
class ClassDefinition:
    """A class (X.681, 9.3), with its fields and its syntax."""

    place: Place
    fields: list[ClassField]
    syntax: Optional[list[SyntaxItem]] = None

    def field_named(self, name: str) -> Optional[ClassField]:
        """The field with this name, or None."""
        return next((it for it in self.fields if it.name == name), None)


# ---- modules (X.680, 13 and 16)


@dataclass
class Parameter:
    """A parameter of an assignment (X.683, 8.3). The governor is that of a value or a set."""

    name: str
    governor: Optional[str] = None


@dataclass
class Assignment:
    """A name and what it stands for. `comment` are the lines above it."""

    place: Place
    name: str
    parameters: list[Parameter] = field(default_factory=list, kw_only=True)
    comment: list[str] = field(default_factory=list, kw_only=True)


@dataclass
class TypeAssignment(Assignment):
    """A type (X.680, 16.1)."""

    type: Type


@dataclass
class ValueAssignment(Assignment):
    """A value, or an information object, whose type is then the name of a class."""

    type: Type
    value: Value


@dataclass
class SetAssignment(Assignment):
    """A set of values, or of information objects (X.680, 16.6; X.681, 12)."""

    type: Type
    tokens: list[Token]


@dataclass
class ClassAssignment(Assignment):
    """A class, or another name of one."""

    definition: Union[ClassDefinition, str]


@dataclass
class MacroAssignment(Assignment):
    """A MACRO of 1988 (X.208, annex A), which isn't read."""


@dataclass
class UnreadAssignment(Assignment):
    """What couldn't be read, and why."""

    problem: Problem


@dataclass
class Import:
    """A name that is imported, and the module that has it, by its name and its object identifier if that is there (X.680, 13.16).

    `has_parameters` is whether `{}` after the name says that it has some (X.683, 9.1).
    """

    place: Place
    name: str
    module: str
    identifier: list[Token] = field(default_factory=list, compare=False)
    has_parameters: bool = False


@dataclass
class Module:
    """A module, with its assignments in their order. `identifier` is what is in the braces after its name (X.680, 13.1)."""

    place: Place
    name: str
    identifier: list[Token] = field(default_factory=list, compare=False, kw_only=True)
    tag_default: TagMode = TagMode.EXPLICIT
    extensibility_implied: bool = False
    exports: Optional[list[str]] = None
    imports: list[Import] = field(default_factory=list)
    assignments: list[Assignment] = field(default_factory=list)

    @property
    def path(self) -> str:
        """The file that it is in."""
        return self.place.path
