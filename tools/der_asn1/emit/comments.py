"""The words of comments that a crate's files share."""
from ..meaning.declarations import Declaration, Field
from ..parse.tree import Presence
from .layout import comment


def sentence(text: str) -> str:
    """The comment of a module as a sentence before another one."""
    return "" if not text else text if text[-1] in ".:;!?" else f"{text}."


def difference_note(declared: Declaration) -> list[str]:
    """A paragraph that says so if the values differ from the notation's."""
    found = declared.differences()
    if declared.levels and not found:
        return ["///", *comment("", "///", f"Its values have {levels_text(declared.levels)}.")]
    return ["///", *comment("", "///", f"Its values differ from the notation's. The crate lacks: {'; '.join(found)}.")] if found else []


def levels_text(levels: int) -> str:
    """How many levels values have that may be in each other."""
    return "one level" if levels == 1 else f"at most {levels} levels"


def default_note(it: Field) -> str:
    """What a field doesn't say of a default that is no value of it."""
    if it.is_other:
        return ". `None` is the default"
    return ". A default that is written out is read, too" if it.presence is Presence.OPTIONAL and " DEFAULT " in it.notation else ""
