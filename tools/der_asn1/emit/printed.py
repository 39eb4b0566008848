"""Terms as ASN.1 again: what a file of terms says, `specs/Notation.antt` of a crate, as a module of the notation.

It reads the text of the file, and nothing of what the compiler made it from. Members, alternatives and items have no names in terms, and are
called after their places. A word of terms that has no notation becomes this:

| Term | Notation |
|---|---|
| `wider t`, `listed cs t`, `unlisted cs t` | `t (CONSTRAINED BY {})` |
| `one-of ts`, `encoded t` | `ANY (CONSTRAINED BY {})` |
| `CHOICE-extensible ts` | a CHOICE with `...` after its alternatives |
| `default-as-optional t` | `t DEFAULT {}` |
| `added (t ⨾ ..)` | members between `[[` and `]]` after `...`, up to the next `added` |
| `added-as-optional t` | a member after `...` |
| `any-content b` | OCTET STRING under the tag of this byte |
"""
import re
from dataclasses import dataclass, field
from typing import Optional

_HEADING = re.compile(r"-- (\S+) of (\S+?)(:.*)?$")
_ITEM = re.compile(r"\[\]|[()⨾∣∷]|[^\s()⨾∣∷\[\]]+")
_OPERATORS = frozenset("⨾∣∷")
_CLASSES = {"UNIVERSAL": "UNIVERSAL ", "APPLICATION": "APPLICATION ", "CONTEXT": "", "PRIVATE": "PRIVATE "}
_CLASS_BITS = {0x00: "UNIVERSAL ", 0x40: "APPLICATION ", 0x80: "", 0xC0: "PRIVATE "}
# how a member is there: what comes after its type
_PRESENCES = {"required": "", "added-as-optional": "", "optional": " OPTIONAL", "default-as-optional": " DEFAULT {}"}
_LISTS = {"SEQUENCE-OF": "SEQUENCE", "SET-OF": "SET"}
# words that aren't names of types, and what each is in the notation
_WORDS = {
    "OCTET-STRING": "OCTET STRING",
    "BIT-STRING": "BIT STRING",
    "BIT-STRING-named": "BIT STRING { bit(0) }",
    "OBJECT-IDENTIFIER": "OBJECT IDENTIFIER",
    "ENUMERATED-extensible": "ENUMERATED { item, ... }",
}
_CONTAINERS = {"OCTET-STRING-CONTAINING": "OCTET STRING", "BIT-STRING-CONTAINING": "BIT STRING"}


@dataclass
class Applied:
    """A word of a term with its arguments, or an operator with what is between its places."""

    word: str
    arguments: list["Applied"] = field(default_factory=list)


@dataclass
class Definition:
    """A type that a file of terms defines. `source` and `module` are what its comment calls it, and none for a part of another one."""

    name: str
    term: Applied
    source: str = ""
    module: str = ""


@dataclass
class Terms:
    """What a file of terms defines: types, and the modes of tags that say none, by their names."""

    types: list[Definition] = field(default_factory=list)
    modes: dict[str, str] = field(default_factory=dict)


def term_of(text: str) -> Applied:
    """A term as it is written."""
    return _Reader(text).whole()


def read_terms(text: str) -> Terms:
    """The definitions of a file of terms."""
    found, heading = Terms(), ("", "")
    for block in text.split("\n\n"):
        lines = [it for it in block.splitlines() if it and not it.startswith("use ")]
        comments = [_HEADING.match(it) for it in lines if it.startswith("--")]
        heading = next(((it[1], it[2]) for it in comments if it), ("", ""))
        body = " ".join(it for it in lines if not it.lstrip().startswith("--"))
        name, _, term = body.partition(" = ")
        words = name.split()
        if words[:2] == ["abbrev", "pub"]:
            found.types.append(Definition(words[2], term_of(term), *heading))
        elif words[:1] == ["abbrev"]:
            found.modes[words[1]] = term.strip()
    return found


class _Reader:
    """Reads a term."""

    def __init__(self, text: str) -> None:
        self.items, self.index = _ITEM.findall(text), 0

    def whole(self) -> Applied:
        """The whole text."""
        found = self.between()
        if self.index != len(self.items):
            raise ValueError(f"a term goes on after it ends: {self.items[self.index:]}")
        return found

    def now(self) -> Optional[str]:
        """The next item."""
        return self.items[self.index] if self.index < len(self.items) else None

    def between(self) -> Applied:
        """A term, or several with an operator between them."""
        parts, operator = [self.application()], None
        while self.now() in _OPERATORS:
            operator = self.now()
            self.index += 1
            parts.append(self.application())
        return Applied(operator, parts) if operator else parts[0]

    def application(self) -> Applied:
        """A word and its arguments."""
        found = self.atom()
        while self.now() not in (None, ")", *_OPERATORS):
            found = Applied(found.word, [*found.arguments, self.atom()])
        return found

    def atom(self) -> Applied:
        """A word, or what is in parentheses."""
        item = self.items[self.index]
        self.index += 1
        if item != "(":
            return Applied(item)
        found = self.between()
        self.index += 1
        return found


def printed(terms: Terms) -> str:
    """A module of the notation with these types."""
    default = terms.modes.get("TAGS", "EXPLICIT")
    lines = [f"{it.name} ::= {_Printer(terms, default).type(it.term)}" for it in terms.types]
    return "\n".join([f"Printed DEFINITIONS {default} TAGS ::= BEGIN", *lines, "END", ""])


class _Printer:
    """Prints terms as types of the notation."""

    def __init__(self, terms: Terms, default: str) -> None:
        self.modes, self.default = terms.modes, default

    def type(self, term: Applied) -> str:
        """A term as a type."""
        word, given = term.word, term.arguments
        if word in ("one-of", "encoded"):
            return "ANY (CONSTRAINED BY {})"
        if word == "any-element":
            return "ANY"
        if word in ("wider", "listed", "unlisted"):
            return f"{self.type(given[-1])} (CONSTRAINED BY {{}})"
        if word in _CLASSES:
            mode = self.mode(given[1].word)
            return f"[{_CLASSES[word]}{given[0].word}] {mode}{self.type(given[2])}"
        if word in ("any-content", "content-under"):
            tag = int(given[0].word, 16)
            return f"[{_CLASS_BITS[tag & 0xC0]}{tag & 0x1F}] IMPLICIT {self.type(given[1]) if len(given) > 1 else 'OCTET STRING'}"
        if word == "beyond-depth":
            return "OCTET STRING (SIZE (1..0))"
        if word == "SIZE":
            return self.sized(given)
        if word == "FROM":
            return f"{self.type(given[1])} (FROM ({' | '.join(map(characters, parts_of(given[0])[:-1]))}))"
        if word in _LISTS:
            return f"{_LISTS[word]} OF {self.type(given[0])}"
        if word in _CONTAINERS:
            return f"{_CONTAINERS[word]} (CONTAINING {self.type(given[0])})"
        if word in ("SEQUENCE", "SET"):
            return f"{word} {{ {self.members(parts_of(given[0]))} }}"
        if word in ("CHOICE", "CHOICE-extensible"):
            more = ", ..." if word == "CHOICE-extensible" else ""
            return f"CHOICE {{ {self.alternatives(parts_of(given[0]))}{more} }}"
        return self.simple(word, given)

    def mode(self, word: str) -> str:
        """How a tag is put on, where it isn't as the heading of the module says."""
        known = {"AUTOMATIC": "IMPLICIT", "TAGS": self.default, **{it: mode for it, mode in self.modes.items() if it != "TAGS"}}
        mode = known.get(word, word)
        return "" if word == "TAGS" else f"{mode} "

    def simple(self, word: str, given: list[Applied]) -> str:
        """A type without parts, or a name."""
        numbers = [it.word for it in given]
        if word == "INTEGER-from-to":
            return f"INTEGER ({numbers[0]}..{numbers[1]})"
        if word == "INTEGER-from-minus-to":
            return f"INTEGER (-{numbers[0]}..{numbers[1]})"
        if word == "INTEGER-in":
            return f"INTEGER ({' | '.join(map(interval, parts_of(given[0])[:-1]))})"
        if word == "INTEGER-named":
            return f"INTEGER ({' | '.join(it.word for it in parts_of(given[0])[:-1])})"
        if word == "ENUMERATED":
            items = ", ".join(f"item{place}({it.word})" for place, it in enumerate(parts_of(given[0])[:-1], 1))
            return f"ENUMERATED {{ {items} }}"
        if given:
            raise ValueError(f"no notation is known for the term `{word}`")
        return _WORDS.get(word, word)

    def sized(self, given: list[Applied]) -> str:
        """A type with a size, which comes before OF in a list."""
        size = f"(SIZE ({given[0].word}..{given[1].word}))"
        inner = given[2]
        if inner.word in _LISTS:
            return f"{_LISTS[inner.word]} {size} OF {self.type(inner.arguments[0])}"
        return f"{self.type(inner)} {size}"

    def members(self, parts: list[Applied]) -> str:
        """Members, with the extension marker before the first one that earlier versions hadn't."""
        found, place = [], 0
        while True:
            level = []
            for it in parts[:-1]:
                place += 1
                if it.word == "added-as-optional" and "..." not in level:
                    level.append("...")
                level.append(f"member{place} {self.member(it)}")
            found += level if not found else [*([] if "..." in found else ["..."]), f"[[ {', '.join(level)} ]]"]
            if parts[-1].word != "added":
                return ", ".join(found if parts[-1].word == "end" or "..." in found else [*found, "..."])
            parts = parts_of(parts[-1].arguments[0])

    def member(self, term: Applied) -> str:
        """The type of a member, and how it is there."""
        if term.word == "default":
            return f"{self.type(term.arguments[1])} DEFAULT {value(term.arguments[0])}"
        if term.word == "default-of":
            return f"{self.type(term.arguments[1])} DEFAULT {value(term.arguments[0])}"
        return f"{self.type(term.arguments[0])}{_PRESENCES[term.word]}"

    def alternatives(self, parts: list[Applied]) -> str:
        """Alternatives, and the extension marker after them."""
        found = [f"alternative{place} {self.type(it)}" for place, it in enumerate(parts[:-1], 1)]
        return ", ".join(found if parts[-1].word == "none" else [*found, "..."])


def value(term: Applied) -> str:
    """A default as a value of the notation."""
    if term.word == "number":
        return term.arguments[0].word
    return f"-{term.arguments[0].word}" if term.word == "minus" else term.word


def interval(term: Applied) -> str:
    """Numbers from one to another, from one on, or up to one."""
    ends = [value(it) for it in term.arguments]
    return {"from-to": "{0}..{1}", "from-on": "{0}..MAX", "up-to": "MIN..{0}"}[term.word].format(*(ends * 2))


def characters(term: Applied) -> str:
    """A range of characters."""
    return characters_between(int(term.word.rstrip(",")), int(term.arguments[0].word))


def characters_between(*ends: int) -> str:
    """A range of characters, each end as the group, plane, row and cell of its number (X.680, 41.7)."""
    return "..".join(f"{{{it >> 24}, {it >> 16 & 0xFF}, {it >> 8 & 0xFF}, {it & 0xFF}}}" for it in ends)


def parts_of(term: Applied) -> list[Applied]:
    """What is between operators, or the term alone."""
    return term.arguments if term.word in _OPERATORS else [term]
