"""An extensible CHOICE (X.680, 29.1), which also has the alternatives of later versions: each element with another tag."""
from typing import TYPE_CHECKING, Optional

from ..parse import tree
from .contents import Contents
from .declarations import Hint
from .library import ANY_FIRST, any_element
from .listed import declared_list
from .meaning import Meaning
from .members import is_extensible
from .scopes import Scope
from .structures import Part, alternatives, declared_choice, item_text
from .unions import Choice, union

if TYPE_CHECKING:
    from .types import Meanings

# the bit of an identifier byte that says that the encoding is constructed (X.690, 8.1.2.5)
_CONSTRUCTED = 0x20


def choice(meanings: "Meanings", type_: tree.ChoiceType, scope: Scope, hint: Hint) -> Meaning:
    """A CHOICE."""
    parts = alternatives(meanings, type_, scope, hint)
    if isinstance(parts, Meaning):
        return parts
    if not is_extensible(type_, scope):
        return declared_choice(meanings, type_, scope, hint, parts)
    return _with_later(meanings, type_, scope, hint, parts) or declared_choice(meanings, type_, scope, hint, parts)


def _with_later(meanings: "Meanings", type_: tree.ChoiceType, scope: Scope, hint: Hint, parts: list[Part]) -> Optional[Meaning]:
    """One of the alternatives, or an element of a later version. None if one may begin with any byte."""
    firsts = frozenset().union(*(it.firsts for it in parts))
    if firsts >= ANY_FIRST:
        return None
    part = Hint(f"{hint.text}-later", root=hint.root, where=hint.where)
    known = Contents(frozenset(bytes((it ^ form,)) for it in firsts for form in (0, _CONSTRUCTED)))
    later = declared_list(meanings, Meaning(any_element()), tree.AnyType(type_.place, text="..."), scope, part, known)
    choices = [Choice(it.name, it.meaning, item_text(it)) for it in parts]
    fallback = declared_choice(meanings, type_, scope, Hint(f"{hint.text}-known", root=hint.root, where=hint.where), parts)
    return union(meanings, type_, scope, hint, [*choices, Choice("later", later, "...")], fallback, is_open=True)
