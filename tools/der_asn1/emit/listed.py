"""A type of listed values (X.680, 51.2): a struct round those values of another type whose content is a listed one, or none of these."""
import re

from ..derive.derived_types import determined
from ..meaning.declarations import ListedDeclaration
from ..meaning.listed import GHOST, PART, access_of, is_true, listed_contents, truth_content
from ..meaning.terms import byte_list, content_list
from ..meaning.wording import snake
from .comments import difference_note, sentence
from .imports import PRELUDE, Uses
from .layout import GHOST_WIDTH, STEP, WIDTH, comment, head, signature
from .newtype import quoted
from .tested import constructor, tested_impls, tested_uses
from .union import TRIED, element_impls, element_uses, equal_impl, parts, serialize_impl
from .values import value_lines

# the file of the terms of all listed values
LISTED_FILE = "Listed"
_TWO = STEP * 2
_TRUTH, _RAW = "tree_truth", "raw_bytes"
_EXACT = "Rattle.der_types.specs.ExactListed"
# why a BOOLEAN is the listed one, by whether that is TRUE
_TRUTHS = {True: "true_listed", False: "false_listed"}
_PRELUDE_ORDER = ["ℕ", "Bool", "false", "not", "nat_le", "List", "[]", "◌∷◌", "length"]
_TERMS_WIDTH = 120
# where the terms of tests are from
_HOMES = [
    ("Rattle.der_types.specs.BitString", "bits_of"),
    ("Rattle.der_types.specs.Denotes", "is_listed"),
    ("Rattle.picky_der_core.specs.Shape", "begins_outside"),
]


def is_boolean(declared: ListedDeclaration) -> bool:
    """Whether the type inside is BOOLEAN, which has no bytes as its content."""
    return declared.type.name == "bool"


def is_element(declared: ListedDeclaration) -> bool:
    """Whether the type inside is any element, which has the first bytes that aren't listed."""
    return declared.type.name == "Asn1RawDer"


def is_encoded(declared: ListedDeclaration) -> bool:
    """Whether the type inside is a value with its encoding, which isn't the listed one."""
    return declared.type.name == "Encoded"


def known(declared: ListedDeclaration, crate: str) -> tuple[str, str, dict[str, set[str]]]:
    """The proof that the encoding alone decides the test, as `determined` has it."""
    if not is_boolean(declared) and not is_element(declared):
        return determined(declared)
    of_tree = _TRUTH if is_boolean(declared) else _RAW
    return f"(λ t. {declared.function} ({of_tree} t))", "e", {home(crate): {of_tree}}


def home(crate: str) -> str:
    """The module of the terms of listed values."""
    return f"Rattle.{crate}.specs.{LISTED_FILE}"


def listed_uses(declared: ListedDeclaration, crate: str) -> Uses:
    """What the items of a type of listed values name."""
    if is_encoded(declared):
        found = element_uses(declared.type.names())
        found.add(Uses(terms={home(crate): {declared.function}, PRELUDE: {"◌≡◌", "true", "false", "IfSome", "IfNone"}}))
        found.add(exact_uses(declared, crate))
        return found
    found = tested_uses(declared, known(declared, crate))
    words = {"string_bytes"} if "string_bytes" in declared.test else set()
    found.add(Uses(terms={home(crate): {declared.function}, PRELUDE: {"◌≡◌", "true", *words}}))
    found.add(exact_uses(declared, crate))
    return found


def exact_uses(declared: ListedDeclaration, crate: str) -> Uses:
    """What the implementations of `Notated` and `Exact` name."""
    found = Uses({"Notated", "Exact"}, terms={PRELUDE: {"refl"}, _EXACT: {values_of(declared)}})
    found.add(Uses(terms={"Rattle.der_types.specs.Notation": {"Notation"}}))
    found.add(Uses(terms={} if declared.most is not None else {home(crate): {list_name(declared)}}))
    if is_boolean(declared):
        found.add(Uses(terms={_EXACT: {_TRUTHS[is_true(declared)]}}))
    if is_element(declared):
        found.add(Uses(terms={"Rattle.der_types.specs.MadeValues": {"vec_of"}}))
    return found


def listed_lines(declared: ListedDeclaration, crate: str) -> list[str]:
    """The items of a type of listed values."""
    own = [*definition(declared), "", *function(declared)]
    if not is_encoded(declared):
        items = [tested_impls(declared, known(declared, crate)), notated_impl(declared), exact_impl(declared)]
        return [*own, *(line for it in items for line in ["", *it])]
    code = f"{PART}.encoding()"
    items = [
        constructor(declared),
        equal_impl(declared.name, parts(declared.name), code),
        serialize_impl(declared.name, code),
        try_via_impl(declared),
        *element_impls(declared.name),
        notated_impl(declared),
        exact_impl(declared),
    ]
    return [*own, *(line for it in items for line in ["", *it])]


def try_via_impl(declared: ListedDeclaration) -> list[str]:
    """The implementation of `TryVia` for a value with its encoding, whose twin is any element."""
    return [
        f"impl TryVia for {declared.name} {{",
        f"{STEP}type As = Asn1RawDer;",
        "",
        f"{STEP}ghost parts = {{ λ it. it.{PART}.encoding }};",
        "",
        *signature(STEP, "try_from_parts", ["element: Asn1RawDer"], f"Result<{declared.name}>"),
        f"{_TWO}let Some({PART}) = {TRIED}(&element)? else {{",
        f"{_TWO}{STEP}return Err(Asn1DerError::InvalidData);",
        f"{_TWO}}};",
        f"{_TWO}if {declared.function}(&{PART}) {{",
        f"{_TWO}{STEP}return Ok({declared.name} {{ {PART} }});",
        f"{_TWO}}}",
        f"{_TWO}Err(Asn1DerError::InvalidData)",
        f"{STEP}}}",
        "}",
    ]


def given(declared: ListedDeclaration) -> str:
    """What the notation lists, as a term, or the greatest size."""
    return list_name(declared) if declared.most is None else str(declared.most)


def is_unlisted(declared: ListedDeclaration) -> bool:
    """Whether the values are those with other contents. A BOOLEAN that isn't one value is the other one."""
    return declared.contents.is_other and not is_boolean(declared)


def notation_of(declared: ListedDeclaration) -> list[str]:
    """What it is in ASN.1, as the words of a term."""
    if is_element(declared):
        return ["Notation.begun-otherwise", given(declared)]
    word = "sized 0" if declared.most is not None else "unlisted" if is_unlisted(declared) else "listed"
    return [f"Notation.{word}", given(declared), f"{quoted(declared, 'Notated')}.notation"]


def values_of(declared: ListedDeclaration) -> str:
    """The word of der_types for what it says of its values."""
    if is_element(declared):
        return "begun_otherwise_values"
    return "most_values" if declared.most is not None else "unlisted_values" if is_unlisted(declared) else "listed_values"


def notated_impl(declared: ListedDeclaration) -> list[str]:
    """The implementation of `Notated`: which values the type inside has, by their contents."""
    return [
        f"impl Notated for {declared.name} {{",
        *broken_ghost("notation", notation_of(declared)),
        "",
        f"{STEP}ghost denoted = {{ refl }};",
        "}",
    ]


def exact_impl(declared: ListedDeclaration) -> list[str]:
    """The implementation of `Exact`: the type inside is, and its contents decide the test."""
    record = f"(record {{ {PART} = x; {GHOST} = p }}, refl)"
    if is_element(declared):
        made = f"(record {{ {PART} = record {{ 0 = vec_of s h }}; {GHOST} = p }}, refl)"
        words = [values_of(declared), given(declared), f"(λ it. it.{PART}.0.items)", f"(λ it. it.{GHOST})", f"(λ s p h. {made})"]
    else:
        facts = [f"{quoted(declared, trait)}.{name}" for trait, name in (("Exact", "values"), ("Notated", "notation"), ("Serialize", "meaning"))]
        same = _TRUTHS[is_true(declared)] if is_boolean(declared) else "(λ x. refl)"
        words = [values_of(declared), *facts, f"(λ {PART}. {declared.test})", f"(λ it. it.{PART})", f"(λ it. it.{GHOST})", f"(λ x p. {record})"]
        words += [given(declared), same]
    return [
        f"impl Exact for {declared.name} {{",
        *broken_ghost("values", words),
        "",
        f"{STEP}ghost exact = {{ Prim.assumption }};",
        "}",
    ]


def broken_ghost(name: str, words: list[str]) -> list[str]:
    """A ghost item of these words, on lines that are short enough."""
    lines, now = [], f"{STEP}ghost {name} = {{"
    for number, it in enumerate(words):
        more = f"{now} {it}" if now.strip() else f"{now}{it}"
        end = len(" };") if number == len(words) - 1 else 0
        if len(more) + end > GHOST_WIDTH and now.strip():
            lines.append(now)
            more = f"{_TWO}{it}"
        now = more
    return [*lines, f"{now} }};"]


def definition(declared: ListedDeclaration) -> list[str]:
    """The struct with its comments, after the contents that its test names."""
    lines = []
    for name, content in zip(constants(declared), contents(declared)):
        lines += [*value_lines(f"const {name}: &[u8] =", [f"0x{it:02X}" for it in content]), ""]
    notation = "a later alternative, with another tag" if is_element(declared) else f"`{declared.notation}`"
    what = "Each other value is `InvalidData`."
    lines += comment("", "///", f"{sentence(declared.comment)} `{declared.source}` of {declared.module}: {notation}. {what}")
    lines += difference_note(declared)
    return [
        *lines,
        "#[derive(Debug, Drop)]" if is_encoded(declared) else "#[derive(Debug, Drop, PartialEq, Eq)]",
        f"pub struct {declared.name} {{",
        f"{STEP}{PART}: {declared.type},",
        f"{STEP}ghost {declared.ghost}: {{ {declared.test} ≡ true }},",
        "}",
    ]


def contents(declared: ListedDeclaration) -> list[bytes]:
    """The contents that are listed, in their order. A BOOLEAN needs none, and the first bytes of elements are in one list."""
    found = listed_contents(declared)
    return [] if is_boolean(declared) else [b"".join(found)] if is_element(declared) else found


def constants(declared: ListedDeclaration) -> list[str]:
    """The names of the constants of the contents."""
    count, first = len(contents(declared)), f"{snake(declared.name).upper()}_CONTENT"
    return [first] if count == 1 else [f"{first}_{number}" for number in range(1, count + 1)]


def function(declared: ListedDeclaration) -> list[str]:
    """The function that tests a value."""
    given = declared.type if is_boolean(declared) else f"&{declared.type}"
    now = PART if is_boolean(declared) else f"{PART}.now"
    clause = f"{declared.function} {access_of(declared).clause.replace(PART, now, 1)}"
    what = "another value" if declared.contents.is_other else "a listed value"
    return [
        f"// Whether it is {what if declared.most is None else 'one of so few bits'}.",
        *head("", f"fn {declared.function}", [f"{PART}: {given}"], "bool"),
        f"{STEP}ensures {{ result ≡ {clause} }}",
        "{",
        *test(declared),
        "}",
    ]


def test(declared: ListedDeclaration) -> list[str]:
    """The test in code."""
    if is_boolean(declared):
        return [f"{STEP}{PART}" if is_true(declared) else f"{STEP}!{PART}"]
    if declared.most is not None:
        return [f"{STEP}{PART}.len() <= {declared.most}"]
    if is_element(declared):
        (known_bytes,) = constants(declared)
        return [
            f"{STEP}match {access_of(declared).code} {{",
            f"{_TWO}Some(first) => !{known_bytes}.contains(first),",
            f"{_TWO}None => true,",
            f"{STEP}}}",
        ]
    code = access_of(declared).code
    parts = [f"{PART}.is({it})" if declared.type.name == "ObjectIdentifier" else f"{code} == {it}" for it in constants(declared)]
    if declared.contents.is_other and len(parts) == 1:
        return [f"{STEP}{parts[0].replace(' == ', ' != ')}" if " == " in parts[0] else f"{STEP}!{parts[0]}"]
    before, after = (f"{STEP}!(", ")") if declared.contents.is_other else (STEP, "")
    line = f"{before}{' || '.join(parts)}{after}"
    if len(line) <= WIDTH:
        return [line]
    ends = ["" for _ in parts[1:]] + [after]
    begins = [before, *(f"{_TWO}|| " for _ in parts[1:])]
    return [line for begin, part, end in zip(begins, parts, ends) for line in part_lines(begin, part, end)]


def part_lines(before: str, part: str, after: str) -> list[str]:
    """A part of a test: on one line, or with the argument of its call on a line of its own."""
    name, bracket, argument = part.partition("(")
    if len(f"{before}{part}{after}") <= WIDTH or not bracket:
        return [f"{before}{part}{after}"]
    return [f"{before}{name}(", f"{_TWO}{STEP}{argument.removesuffix(')')},", f"{_TWO}){after}"]


# ---- terms


def listed_terms(types: list[ListedDeclaration]) -> list[str]:
    """The lines of the file of terms, after its first one."""
    body = [line for it in types for line in ["", *terms_of(it)]]
    truth, raw = any(map(is_boolean, types)), any(map(is_element, types))
    used = set(re.findall(r"[^\s()]+", " ".join(it for it in body if not it.startswith("--"))))
    names = [it for it in _PRELUDE_ORDER if it.replace("◌", "") in used or it == "false" and truth or it in ("List", "ℕ", "[]") and raw]
    lines = ["-- The contents of listed values, which their contracts cite.", f"use {PRELUDE}.{{{', '.join(names)}}}"]
    lines += [f"use {home}.{{{it}}}" for home, it in _HOMES if it in used]
    lines += ["use Rattle.picky_der_core.specs.Primitive.{Primitive}"] if truth else []
    lines += ["use Rattle.picky_der_core.specs.Tree.{Tree}"] if truth or raw else []
    if raw:
        lines += ["", "-- the bytes of any element by its tree", f"abbrev pub {_RAW} : Tree → List ℕ", f"{_RAW} (Tree.raw s) = s", f"{_RAW} _ = []"]
    if truth:
        lines += ["", "-- what a BOOLEAN is by its tree", f"abbrev pub {_TRUTH} : Tree → Bool"]
        lines += [f"{_TRUTH} (Tree.primitive (Primitive.boolean b)) = b", f"{_TRUTH} _ = false"]
    return [*lines, *body]


def terms_of(declared: ListedDeclaration) -> list[str]:
    """What is listed, and the test of the content of one type."""
    name, kind = declared.function, "Bool" if is_boolean(declared) else "List ℕ"
    about, own = comment("", "--", f"{declared.source} of {declared.module}: {declared.notation}"), []
    if declared.most is None:
        own = [*about, f"abbrev pub {list_name(declared)} : {'List ℕ' if is_element(declared) else 'List (List ℕ)'}", *list_lines(declared), ""]
    return [*(own or about), f"abbrev pub {name} : {kind} → Bool", f"{name} {'b' if is_boolean(declared) else 's'} = {tested(declared)}"]


def tested(declared: ListedDeclaration) -> str:
    """The test of a content as a term."""
    if is_boolean(declared):
        return "b" if is_true(declared) else "not b"
    if declared.most is not None:
        return f"nat_le (length (bits_of s)) {declared.most}"
    if is_element(declared):
        return f"begins_outside {list_name(declared)} s"
    return f"not (is_listed {list_name(declared)} s)" if declared.contents.is_other else f"is_listed {list_name(declared)} s"


def list_name(declared: ListedDeclaration) -> str:
    """The name of the term of what is listed."""
    return f"{snake(declared.name)}_{'known' if is_element(declared) else 'contents'}"


def list_lines(declared: ListedDeclaration) -> list[str]:
    """The equation of what is listed: contents, or the first bytes of elements that are known."""
    if is_element(declared):
        text = byte_list(b"".join(listed_contents(declared)))
    else:
        text = content_list([truth_content(declared)] if is_boolean(declared) else listed_contents(declared))[1:-1]
    whole = f"{list_name(declared)} = {text}"
    return [whole] if len(whole) <= _TERMS_WIDTH else [f"{list_name(declared)} =", *broken(text)]


def broken(text: str) -> list[str]:
    """A list on lines that are short enough."""
    lines, now = [], STEP.rstrip("\n")
    for word in text.split(" "):
        if now.strip() and len(f"{now} {word}") > _TERMS_WIDTH:
            lines.append(now)
            now = STEP
        now = f"{now} {word}" if now.strip() else f"{now}{word}"
    return [*lines, now]
