"""What the specs of der_types say of each type whose content passes a test, and of each string type."""
from generation.files import Files, Lines, proof
from generation.table import Characters, Content, Named, Profile, characters, contents, profiles
from shared.crates import ROOT

SPECS = "crates/der_types/specs"


def uses(rows: list[Content | Profile], sizes: list[Named]) -> Lines:
    """The imports of the tests and sizes, a line a file."""
    names: dict[str, list[str]] = {}
    for home, name in [(row.specs, row.test) for row in rows] + [(it.specs, it.name) for it in sizes]:
        names.setdefault(home, []).append(name)
    return [f"use Rattle.{home}.{{{', '.join(dict.fromkeys(found))}}}" for home, found in sorted(names.items())]


def by_tag(cases: list[tuple[int, str]], other: str) -> str:
    """What a tag has in these cases, and what another one has."""
    first, *others = [f"if tag == 0x{tag:02X} then {value}" for tag, value in cases]
    return "\n    ".join([first, *(f"else ({it}" for it in others), f"else {other}{')' * len(others)}"])


def strings(rows: list[Characters]) -> Lines:
    """The strings by their tags: which tags they are, the width and the set of their characters."""
    tags = " ∷ ".join([f"0x{tag:02X}" for tag in sorted(row.tag for row in rows)] + ["[]"])
    return [
        "-- ---- the restricted strings by their tags (41, table 8), and ObjectDescriptor (48.3)",
        "",
        "-- UTF8String isn't one of these",
        "abbrev pub string_tags : List ℕ",
        f"string_tags = {tags}",
        "",
        "-- what follows says something of these tags alone",
        "abbrev pub string_width : ℕ → Width",
        "string_width tag =",
        f"    {by_tag([(row.tag, row.width) for row in rows if row.width != 'One'], 'One')}",
        "",
        "-- any bytes if the characters aren't checked",
        "abbrev pub string_character : ℕ → ℕ → Bool",
        "string_character tag =",
        f"    {by_tag([(row.tag, row.test) for row in rows if row.kind != 'bytes'], 'is_any_byte')}",
    ]


def content_types() -> Lines:
    """The types as data, with the tag, the test and the size of each."""
    rows, sized = [*contents(), *profiles()], [row for row in contents() if row.size]
    tests = dict.fromkeys(["is_any_byte", *(row.test for row in characters())])
    return [
        *proof(),
        "-- The types of ASN.1 whose content passes a test, and the string types by their tags. The clauses are those of X.680.",
        "use Rattle.std.specs.Prelude.{ℕ, Bool, List, [], ◌∷◌, length, ◌==◌, if◌then◌else◌}",
        "use Rattle.der_types.specs.declared.width.Width.{Width}",
        "use Rattle.der_types.specs.declared.width.Width.TheVariants.{One, Two, Four}",
        f"use Rattle.der_types.specs.CharacterStrings.{{{', '.join(tests)}}}",
        *uses(rows, [row.size for row in sized]),
        "",
        "pub data ContentType : Type 0 where",
        *[line for row in rows for line in (f"  -- {row.clause}{': ' if row.note else ''}{row.note}", f"  {row.term} : ContentType")],
        "",
        "-- the identifier byte",
        "abbrev pub tag_of : ContentType → ℕ",
        *(f"tag_of ContentType.{row.term} = 0x{row.tag:02X}" for row in rows),
        "",
        "-- which contents there are",
        "abbrev pub test_of : ContentType → List ℕ → Bool",
        *(f"test_of ContentType.{row.term} = {row.test}" for row in rows),
        "",
        "-- how many bits or bytes a content has (51.5.3)",
        "abbrev pub size_of : ContentType → List ℕ → ℕ",
        *(f"size_of ContentType.{row.term} s = length ({row.size.name} s)" for row in sized),
        "size_of _ s = length s",
        "",
        *strings(characters()),
    ]


def content_forms() -> Lines:
    """The types as terms."""
    terms = {row.term: f"Notation.checked-content ContentType.{row.term}" for row in [*contents(), *profiles()]}
    for row in characters():
        for at, name in enumerate(row.asn1):
            terms[name] = row.asn1[0] if at else f"Notation.restricted-string 0x{row.tag:02X}"
    return [
        *proof(),
        "-- The types of ASN.1 whose content passes a test, and the string types (X.680, 41, table 8), as terms.",
        "use Rattle.der_types.specs.ContentTypes.{ContentType}",
        "use Rattle.der_types.specs.Notation.{Notation}",
        *[line for name, value in terms.items() for line in ("", f"abbrev pub {name} : Notation", f"{name} = {value}")],
    ]


def library() -> Lines:
    """The list of the files of specs."""
    others = {path.stem for path in (ROOT / SPECS).glob("*.antt")} - {"Lib"}
    return [*proof(), *(f"pub mod {name}" for name in sorted(others | {"ContentForms", "ContentTypes"}))]


def files() -> Files:
    """The files of specs."""
    return {f"{SPECS}/ContentTypes.antt": content_types(), f"{SPECS}/ContentForms.antt": content_forms(), f"{SPECS}/Lib.antt": library()}
