"""The layout of `rt fmt`: when a list is on one line, and how it is broken else.

`rt fmt` itself would need the checker, and a crate that crates.txt names. This compiler and its tests run without both.
"""
import re
from typing import Optional

WIDTH = 100
IMPORT_WIDTH = 98  # an import on one line
FILLED_WIDTH = 99  # a line of many names that isn't the last one
GHOST_WIDTH = 120
COMMENT_WIDTH = 100
STRUCT_LITERAL_WIDTH = 18
TUPLE_WIDTH = 60
STEP = "    "


def natural(name: str) -> list[tuple[int, int, str]]:
    """The order of names in an import: `_` before digits, digits by the number that they are, and letters after them."""
    return [(1, int(it), "") if it.isdigit() else (0 if it == "_" else 2, 0, it) for it in re.findall(r"\d+|\D", name)]


def tuple_lines(indent: str, before: str, items: list[str], after: str) -> list[str]:
    """A tuple, of types or of values: on one line if that fits, or else with each item on its own. One item alone is no tuple."""
    inner = ", ".join(items)
    if len(items) == 1:
        return [f"{indent}{before}{inner}{after}"]
    line = f"{indent}{before}({inner}){after}"
    if len(line) <= WIDTH and len(inner) <= TUPLE_WIDTH:
        return [line]
    return [f"{indent}{before}(", *(line for it in items for line in item_lines(indent + STEP, it)), f"{indent}){after}"]


def item_lines(indent: str, item: str) -> list[str]:
    """An item on its own: a type or a call, which is broken at its arguments if it doesn't fit."""
    call = re.fullmatch(r"(.*::new)\((.*)\)", item)
    if len(f"{indent}{item},") > WIDTH and call:
        return [f"{indent}{call[1]}(", f"{indent}{STEP}{call[2]},", f"{indent}),"]
    return type_lines(indent, "", item, ",")


def filled(indent: str, before: str, items: list[str], after: str) -> list[str]:
    """Items in braces: on one line if that fits, or else as many on each line as fit."""
    line = f"{indent}{before}{{{', '.join(items)}}}{after}"
    if len(line) <= IMPORT_WIDTH:
        return [line]
    lines, now = [], ""
    for index, it in enumerate(items, 1):
        longer = f"{now} {it}," if now else f"{indent}{STEP}{it},"
        if now and len(longer) > (FILLED_WIDTH if index < len(items) else WIDTH):
            lines.append(now)
            now = f"{indent}{STEP}{it},"
        else:
            now = longer
    return [f"{indent}{before}{{", *lines, now, f"{indent}}}{after}"]


def comment(indent: str, mark: str, text: str) -> list[str]:
    """A comment over as many lines as it needs."""
    lines, now = [], ""
    for word in text.split():
        longer = f"{now} {word}" if now else word
        if now and len(indent) + len(mark) + 1 + len(longer) > COMMENT_WIDTH:
            lines.append(now)
            now = word
        else:
            now = longer
    return [f"{indent}{mark} {it}" for it in [*lines, now] if it]


def signature(indent: str, name: str, parameters: list[str], result: str, generics: str = "") -> list[str]:
    """The first line of a function, or its lines with a parameter on each."""
    return head(indent, f"fn {name}{generics}", parameters, f"{result} {{")


def head(indent: str, before: str, parameters: list[str], result: str) -> list[str]:
    """The parameters and the result of a function, on one line if that fits, or with a parameter on each."""
    line = f"{indent}{before}({', '.join(parameters)}) -> {result}"
    if len(line) <= WIDTH:
        return [line]
    return [f"{indent}{before}(", *(f"{indent}{STEP}{it}," for it in parameters), f"{indent}) -> {result}"]


def assigned(indent: str, before: str, type_text: str, after: str) -> list[str]:
    """`before` and a type: on one line, or else broken at the type's arguments. A type without arguments is on the next line then."""
    line = f"{indent}{before} {type_text}{after}"
    if len(line) <= WIDTH:
        return [line]
    if arguments(type_text)[1] is None:
        return [f"{indent}{before}", f"{indent}{STEP}{type_text}{after}"]
    return type_lines(indent, f"{before} ", type_text, after)


def arguments(text: str) -> tuple[str, Optional[list[str]]]:
    """A type with arguments as its name and the arguments, or None in place of them."""
    if not text.endswith(">") or text.startswith("("):
        return text, None
    name, inner = text.split("<", 1)
    parts, depth, now = [], 0, ""
    for it in inner[:-1]:
        depth += it in "<({[" and 1 or it in ">)}]" and -1 or 0
        if it == "," and depth == 0:
            parts.append(now.strip())
            now = ""
        else:
            now += it
    return name, [*parts, now.strip()]


def type_lines(indent: str, before: str, text: str, after: str) -> list[str]:
    """A type: on one line if that fits, or else each of its arguments on lines of its own."""
    line = f"{indent}{before}{text}{after}"
    name, parts = arguments(text)
    if len(line) <= WIDTH or parts is None:
        return [line]
    lines = [f"{indent}{before}{name}<"]
    for it in parts:
        lines += type_lines(indent + STEP, "", it, ",")
    return [*lines, f"{indent}>{after}"]
