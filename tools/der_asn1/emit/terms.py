"""The definitions of terms as lines of a file: each member below its text."""
from dataclasses import replace

from ..meaning.terms import Item, Term, item_inline
from .layout import comment

_STEP = "    "
_WIDTH = 100


def definition(name: str, term: Term, comments: list[str], known: set[str]) -> list[str]:
    """The definition of a term, after those of parts that are too long for a line. A member or an alternative has its own line, below its text.

    A part whose name is `known` is defined already.
    """
    lines, before = [], []
    group = term.group()
    for it in group.items if group else ():
        lines += comment(_STEP, "--", it.text)
        if it.term.group() and len(item_line(it, group)) > _WIDTH:
            part, words = it.term.group(), [f"Of {name}: {it.text.split(' ')[0]}"]
            if part.name not in known:
                known.add(part.name)
                before += [*definition(part.name, part, words, known), ""]
            it = replace(it, term=it.term.shortened())
        lines.append(item_line(it, group))
    return [*before, *(line for it in comments for line in comment("", "--", it)), f"abbrev pub {name} : Notation", *whole(name, term, lines)]


def item_line(item: Item, group: Term) -> str:
    """The line of a member or an alternative."""
    return f"{_STEP}{item_inline(item)} {group.between()}"


def whole(name: str, term: Term, lines: list[str]) -> list[str]:
    """The equation of a term, with the lines of its members or alternatives."""
    if not term.group():
        return [f"{name} = {term.inline()}"]
    words, after = [], ")"
    while term.items is None:
        words, after, term = [*words, f"{term.head} ("], f"{after})", term.inner
    return [f"{name} = {''.join(words)}{term.head} (", *lines, f"{_STEP}{term.end}{after}"]
