"""The rules by which the programs differ, and which of them tests each."""
from dataclasses import dataclass

THIS, PYCA, OPENSSL = "this", "pyca", "openssl"


@dataclass(frozen=True)
class Rule:
    """A rule that bytes can break."""

    clause: str
    refused_by: frozenset[str]
    changed_by: frozenset[str] = frozenset()
    # whether this repository's program refuses only certificates that break it, since der_tool's types don't check contents
    is_of_certificates: bool = False

    def is_refused_by(self, program: str, word: str) -> bool:
        """Whether the program refuses a line of this word that breaks the rule."""
        return program in self.refused_by or program == THIS and self.is_of_certificates and word == "certificate"


def rule(clause: str, *refused_by: str, changed_by: tuple[str, ...] = ()) -> Rule:
    """A rule of this clause, the programs that refuse what breaks it, and the programs that read it and write another encoding."""
    return Rule(clause, frozenset(refused_by), frozenset(changed_by))


def content_rule(clause: str, *refused_by: str, changed_by: tuple[str, ...] = ()) -> Rule:
    """The same for a rule that this repository's types for certificates check, and der_tool's types don't."""
    return Rule(clause, frozenset(refused_by), frozenset(changed_by), is_of_certificates=True)


STRICT = (THIS, PYCA)

RULES = {
    "length not the shortest": rule("X.690, 10.1", *STRICT, changed_by=(OPENSSL,)),
    "indefinite length": rule("X.690, 10.1", *STRICT, changed_by=(OPENSSL,)),
    "string in constructed form": rule("X.690, 10.2", *STRICT, changed_by=(OPENSSL,)),
    "bool other than 00 and FF": rule("X.690, 11.1", *STRICT),
    "default written out": rule("X.690, 11.5", *STRICT),
    "members of a set out of order": rule("X.690, 11.6", *STRICT),
    "text that is no UTF-8": rule("X.690, 8.23", *STRICT),
    "small tag number in the long form": rule("X.690, 8.1.2.2", *STRICT, changed_by=(OPENSSL,)),
    "needless digit of a tag number": rule("X.690, 8.1.2.4.2", *STRICT, changed_by=(OPENSSL,)),
    "tag number in the long form": rule("DEFINITIONS: tags up to the number 30", THIS),
    "version other than 0 to 2": rule("RFC 5280, 4.1", THIS),
    "content of an object identifier": content_rule("X.690, 8.19.2", PYCA, OPENSSL),
    "serial number not in its shortest form": content_rule("X.690, 8.3", PYCA, OPENSSL),
    "bit string without the count of unused bits": content_rule("X.690, 8.6.2.2", PYCA, OPENSSL),
    "more than seven unused bits": content_rule("X.690, 8.6.2.2", PYCA, OPENSSL),
    "unused bits where there are none": content_rule("X.690, 8.6.2.3", PYCA, changed_by=(OPENSSL,)),
    "unused bits that aren't zero": content_rule("X.690, 11.2.1", PYCA, changed_by=(OPENSSL,)),
    "content of a time": content_rule("X.690, 11.7 and 11.8", PYCA),
    "object identifier of more than 63 bytes": rule("a limit of pyca's", PYCA),
    "any BOOLEAN that isn't one byte": rule("X.690, 8.2.1", OPENSSL),
    "any INTEGER or ENUMERATED not in its shortest form": rule("X.690, 8.3 and 8.4", OPENSSL),
    "any BIT STRING with no count of unused bits up to seven": rule("X.690, 8.6.2.2", OPENSSL),
    "any NULL with a content": rule("X.690, 8.8.2", OPENSSL),
    "any OBJECT IDENTIFIER with a number that is cut or begins with a zero": rule("X.690, 8.19.2", OPENSSL),
    "any UniversalString or BMPString that ends inside a character": rule("X.690, 8.23", OPENSSL),
    "any SEQUENCE or SET in the primitive form": rule("X.690, 8.9.1 and 8.11.1", OPENSSL),
    "any type in the constructed form that has none": rule("X.690, 8.2.1, 8.3.1, 8.8.1 and 8.19.1", OPENSSL),
    "any string whose pieces are no elements": rule("X.690, 8.7.3", OPENSSL),
    "end of contents as an element": rule("X.690, 8.1.5", OPENSSL),
    "value of an attribute that is no string": rule("RFC 5280, 4.1.2.4", OPENSSL),
    "string of a name that is no text": rule("X.690, 8.23", OPENSSL),
    "step of a name without attributes": rule("RFC 5280, 4.1.2.4", changed_by=(PYCA, OPENSSL)),
    "any string in constructed form": rule("X.690, 10.2", changed_by=(OPENSSL,)),
    "any BIT STRING with unused bits that aren't zero": rule("X.690, 11.2.1", changed_by=(OPENSSL,)),
    "any BIT STRING with unused bits where there are none": rule("X.690, 8.6.2.3", changed_by=(OPENSSL,)),
}
