"""Names of ASN.1 as names of Rust."""
import re

from .library_table import LIBRARY_NAMES

# an abbreviation in the plural or with a version is one word, as in `PDUs` and `SNMPv3Message`
_WORD = re.compile(r"[A-Z]{2,}s(?![a-z])|[A-Z]{2,}v[0-9]+|[A-Z]+(?![a-z])[0-9]*|[A-Z]?[a-z][a-z0-9]*|[A-Z][0-9]*|[0-9]+")

# words that no member can be called, of Rust and of the language of proofs
KEYWORDS = frozenset(
    """as break const continue crate else enum extern false fn for if impl in let loop match mod move mut pub ref return self static
    struct super trait true type unsafe use where while async await dyn abstract become box do final macro override priv typeof
    unsized virtual yield try ghost requires ensures result data record deriving module package open unfoldable abbrev axiom unfold
    unfolding ruleset mutual infix infixl infixr elim coe fcoe tcoe hcom com lib prim syntax main std core""".split()
)

# names that a type can't have, since every file has another one with that name, or may import one
TAKEN = LIBRARY_NAMES | frozenset(
    """Option Vec String Result Some None Ok Err Box Drop Clone Copy Default
    PartialEq Eq Debug Self First Second
    Third Fourth Later This Other Type Notation""".split()
)


def words(name: str) -> list[str]:
    """The words of a name, which hyphens and capital letters divide. An abbreviation may begin with a small letter, as in `dNSName`."""
    found = [it for part in re.split(r"[-_]", name) for it in _WORD.findall(part)]
    if len(found) > 1 and len(found[0]) == 1 and found[0].islower() and found[1].isupper() and name[1:2] not in "-_":
        found[:2] = ["".join(found[:2])]
    return found


def joined(name: str) -> str:
    """The words of a name, each with a capital letter."""
    return "".join(it[0].upper() + it[1:].lower() for it in words(name))


def camel(name: str) -> str:
    """The name of a type. One of capital letters alone, as `LDAPDN`, stays as it is."""
    found = name if name.isalpha() and name.isupper() else joined(name)
    return f"Asn{found}" if found in TAKEN or not found[:1].isalpha() else found


def variant(name: str) -> str:
    """The name of a variant."""
    found = joined(name)
    return f"The{found}" if found in ("Self", "Type") or not found[:1].isalpha() else found


def snake(name: str) -> str:
    """The name of a member or a file."""
    found = "_".join(words(name)).lower()
    if not found[:1].isalpha():
        found = f"n{found}"
    return f"{found}_" if found in KEYWORDS else found
