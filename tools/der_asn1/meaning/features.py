"""How well a type is expressed, and what the library lacks for it."""
from enum import Enum, IntEnum


class Level(IntEnum):
    """How well a type of the library expresses a type of the notation, the best level first. The first three are written without a flag."""

    EXACT = 0  # it is written, and its encodings are exactly those of the notation's values
    OPEN = 1  # it is written, and an open type in it is any element, also one that its table doesn't allow
    TO_DEPTH = 2  # it is written, and has the values in which a type isn't in itself more often than a flag says
    BY_HAND = 3  # it would be exact with types that are written by hand, and wider ones are written in their place
    WIDER = 4  # all of it has a type, and some values differ: a default, an extension
    PARTLY_RAW = 5  # something in it is kept as bytes
    RAW = 6  # all of it is kept as bytes
    REFUSED = 7  # there is no type

    @property
    def shown(self) -> str:
        """The level as a table says it."""
        return self.name.lower().replace("_", " ")

    @property
    def is_plain(self) -> bool:
        """Whether a type of this level is written without `--allow-raw` and `--allow-wider`."""
        return self <= Level.TO_DEPTH


class Feature(Enum):
    """What the library lacks for a type, with the level that the type has for it."""

    OPEN_TABLE = ("open types with a table of objects, as a choice by the identifier", Level.OPEN)
    EXTENSION = ("extension markers: members and alternatives of later versions", Level.WIDER)
    DEFAULT_INTEGER = ("DEFAULT of an INTEGER without bounds", Level.WIDER)
    DEFAULT_CONSTRAINED = ("DEFAULT of a constrained type", Level.WIDER)
    DEFAULT_OTHER = ("DEFAULT of bits, strings, identifiers and structures", Level.WIDER)
    ENCODING = ("contents in another encoding than DER", Level.WIDER)
    NAMED_BITS_SIZE = ("the size of named bits", Level.WIDER)
    UNKNOWN_BOUND = ("a constraint with a name that isn't defined", Level.WIDER)
    RECURSION = ("recursive types", Level.PARTLY_RAW)
    IMPORT = ("a module that isn't given", Level.PARTLY_RAW)
    UNDEFINED = ("a name that isn't defined, or isn't a type", Level.PARTLY_RAW)
    UNREAD = ("a type whose notation isn't read", Level.PARTLY_RAW)
    MACRO = ("a macro of 1988", Level.PARTLY_RAW)
    TIME = ("TIME, DATE, TIME-OF-DAY, DATE-TIME, DURATION, OID-IRI and RELATIVE-OID-IRI", Level.RAW)
    MANY_MEMBERS = ("a struct of more than 32 members", Level.RAW)
    FOREIGN_TAG = ("an IMPLICIT tag that isn't a context tag over UTF8String, REAL or a container", Level.RAW)
    CONTAINER_TAG = ("an IMPLICIT tag over BIT STRING (CONTAINING ..)", Level.RAW)
    AMBIGUOUS = ("members or alternatives that no first byte distinguishes", Level.RAW)
    SET_ORDER = ("a SET whose members have no fixed order", Level.RAW)
    RARE = ("REAL, EMBEDDED PDV and CHARACTER STRING", Level.RAW)
    NO_VALUES = ("a type without values", Level.RAW)
    LONG_TAG = ("tags with a number above 30", Level.REFUSED)
    NOT_READ = ("not read", Level.REFUSED)

    def __init__(self, text: str, level: Level) -> None:
        self.text, self.level = text, level


# what no type of a library could change
OUTSIDE = frozenset(
    (Feature.IMPORT, Feature.UNDEFINED, Feature.UNREAD, Feature.UNKNOWN_BOUND, Feature.NOT_READ, Feature.AMBIGUOUS, Feature.NO_VALUES)
)


class Note(Enum):
    """What a type needs or leaves open. The first five are types that a crate has to have of its own."""

    ENUMERATION = "an enum of its own with `Contents`, which is written"
    WIDE_ENUMERATION = "an enum of its own with numbers of more than a byte"
    CONSTRAINT = "a type of its own with `Constrained`"
    ALPHABET = "a `CharacterSet` of its own"
    DEFAULT = "a `DefaultOf` of its own"
    OPEN = "an open type without a table, which is any element: that is all that the notation says"
    DEPTH = "a type that contains itself, to a depth"
    CHARACTERS = "a string of any bytes, as TeletexString or GeneralString, whose characters aren't checked"
    USER_CONSTRAINT = "CONSTRAINED BY, which says something in words alone"

    @property
    def is_own(self) -> bool:
        """Whether a crate needs a type of its own for it, which this compiler doesn't write."""
        return self in (Note.WIDE_ENUMERATION, Note.CONSTRAINT, Note.ALPHABET, Note.DEFAULT)

    @property
    def text(self) -> str:
        """What it is, in words."""
        return self.value

    @property
    def level(self) -> Level:
        """The level that a type has for it."""
        if self is Note.DEPTH:
            return Level.TO_DEPTH
        return Level.BY_HAND if self.is_own else Level.EXACT
