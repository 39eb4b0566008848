"""What `rt check` says of a crate, and what follows from it for the wrong bodies in it."""
import os
import re
from dataclasses import dataclass

from . import rattle_source as source
from .edits import Edit, Function, file_of

# an error, what it says where a proof file names what isn't there, and what it says of a text that can't be read
ERROR = re.compile(r"(?:\./)?(\S+?):(\d+):\d+: error(?:\[[\w-]+\])?: (?:`([^`]*)`: )?(.*)")
NAMES = re.compile(r"has no field|has no constructor|is not in scope|has no `|was not admitted|was not checked")
UNREAD = re.compile(r"has no field|has no constructor|is not in scope|is no name|operand is missing|expected the end|cannot continue")


@dataclass(frozen=True)
class Fault:
    """An error that the checker prints: its file and line, the goal that it is about if it names one, and what it says."""

    path: str
    line: int
    goal: str
    text: str


class Said:
    """What the checker said of the functions of a crate."""

    def __init__(self, crate: str, text: str) -> None:
        self.crate, self.lines = crate, text.split("\n")
        self.is_judged = any(line.startswith(("logic=", "only=")) for line in self.lines)
        self.is_proved = any(re.match(r"logic=proved|only=(\d+) proved=\1$", line) for line in self.lines)
        self.status: dict[str, str] = {}
        self.notes: dict[str, list[str]] = {}
        self.faults: list[Fault] = []
        notes: list[str] = []
        for line, after in zip(self.lines, [*self.lines[1:], ""]):
            at, error = re.match(r"(?:fn|impl) (\S+): (.*)", line), ERROR.match(line)
            if error:
                # (a long text goes on in the next line)
                more = " " + after.strip() * after.startswith("  ")
                self.faults.append(Fault(error[1], int(error[2]), error[3] or "", error[4] + more))
            elif at:
                self.status[at[1]], self.notes[at[1]], notes = at[2], notes, []
            elif line.startswith("note: src/"):
                notes.append(line)

    def label(self, function: Function) -> str | None:
        """The checker's name for a function, and none where it says nothing of it. A type's own methods may be in any file, and have
        the name of the type's module."""
        path, block, name = function
        front = "::".join([self.crate, *source.module_of(path)])
        parts = [(it, *it.rsplit("::", 2)) for it in self.status if it.endswith(f"::{name}")]
        if not block:
            return next((it for it, *_ in parts if it == f"{front}::{name}"), None)
        fits = [it for it, module, own, _ in parts if module == front and own.startswith(block)]
        fits = sorted(fits, key=len) or [it for it, _, own, _ in parts if own == block]
        return fits[0] if fits else None

    def impls(self, edit: Edit) -> list[str]:
        """What the name of an edit is the name of: a function, or an implementation or the constant of one, and its functions."""
        file, called = edit.name.split(".")[:2]
        label = "::".join([self.crate, *source.module_of(file_of(file)), *called.split("-")])
        return [it for it in self.status if it == label or it.startswith(f"{label}::")]

    def refused_at(self, label: str) -> tuple[list[str], list[str]]:
        """The goals at which a function is refused, and what is said where its proof files name what isn't there any more."""
        folder, said = "proofs/" + "/".join(label.split("::")[1:]), self.status[label]
        faults = [it for it in self.faults if os.path.dirname(it.path) == folder or is_in_cycle(it, folder)]
        unproved = re.search(r"did not prove (.*)", said)
        goals = [it.goal for it in faults if it.goal]
        goals += re.findall(r"`([^`]+)`", unproved[1].split("; it ")[0]) if unproved else []
        goals += re.findall(r"antt refuses `([^`]+)`", said)
        goals += [goal for note in self.notes[label] for goal in re.findall(r"\(`([^`]+)`\)", note)]
        named = {it.goal: it.text for it in faults if NAMES.search(it.text)}
        return [it for it in dict.fromkeys(goals) if it not in named], list(named.values())

    def waits_for(self, label: str) -> set[str]:
        """The functions and impls that aren't proved and that this one calls or has, or those do."""
        found: set[str] = set()
        left = [label]
        while left:
            name = left.pop()
            parts = [it for it in re.split(r"[;:] it ", self.status.get(name, "")) if re.match("calls|passes", it)]
            waits = re.search(r"waits for the proof of (.*)", self.status.get(name, ""))
            more = {it for part in parts for it in re.findall(r"`([^`]+)`", part)}
            more |= {f"{name}::{it}" for it in re.findall(r"`([^`]+)`", waits[1] if waits else "")}
            left += more - found
            found |= more
        return found

    def unread(self) -> list[Fault]:
        """Where the checker couldn't read a text of src/ or specs/, as one with a name that isn't there. That isn't where it found a
        statement false."""
        found = [it for it in self.faults if it.path.startswith(("src/", "specs/"))]
        return [it for it in found if not it.goal or UNREAD.search(it.text)]

    def complaint(self) -> str:
        """Why nothing follows from what it said, as a line."""
        unread = self.unread()
        return (unread[0].text if unread else next((it for it in self.lines if "error" in it), "no verdict"))[:200]


def is_in_cycle(fault: Fault, folder: str) -> bool:
    """Whether an error is at a goal of the function with this folder, whose proof is in that of its cycle of calls."""
    outer, name = os.path.split(folder)
    at, cycle = os.path.split(os.path.dirname(fault.path))
    return at == outer and (cycle == f"+{name}" or cycle.startswith("+") and fault.goal.startswith(f"{name}-"))


def path_of(function: Function, with_methods: set[str]) -> str:
    """What the checker's option `--only` calls a function of a crate with methods of these types: without the module for such a method."""
    path, block, name = function
    front = [] if block in with_methods else source.module_of(path)
    return "::".join([*front, *filter(None, [block]), name])


def by_laws(said: Said, edit: Edit, batch: list[Edit]) -> tuple[list[str], list[Edit]]:
    """The goals at which laws refuse an edit, and the edits that may be the reason as well: those about which a law says something at
    the same goal."""
    goals: list[str] = []
    others: list[Edit] = []
    for law, about in edit.laws.items():
        label = said.label(law)
        at = [it for it in said.refused_at(label)[0] if it in about] if label else []
        goals += [f"{it} of {'::'.join(label.split('::')[1:])}" for it in at if label]
        others += [it for it in batch if it is not edit and set(at) & it.laws.get(law, set())]
    return goals, others


def judge(said: Said, edit: Edit, batch: list[Edit]) -> tuple[str, str, list[Edit]]:
    """What the checker's words say of an edit: the verdict, the reason, and the edits without which to try it again. Where its own
    functions don't refuse it, a law may."""
    labels = list(dict.fromkeys([*filter(None, map(said.label, edit.own)), *said.impls(edit)]))
    labels += [it for it in said.status if it in {label.rpartition("::")[0] for label in labels}]
    goals: list[str] = []
    names: list[str] = []
    others: list[Edit] = []
    left: list[str] = []
    for label in labels:
        at, named = said.refused_at(label)
        goals, names = goals + at, names + named
        waits = said.waits_for(label)
        others += [it for it in batch if it is not edit and waits & set(map(said.label, it.own))]
        left += [said.status[label]] if said.status[label] != "proved" and not waits else []
    if not labels:
        return "bad", "the checker says nothing of its function", []
    if goals:
        return "refused", ", ".join(dict.fromkeys(goals)), []
    if names:
        return "names-only", f"a proof file names what it took away: {names[0]}", []
    lawful, rivals = by_laws(said, edit, batch)
    if others or lawful and rivals:
        return "waits", "", others + rivals
    if lawful or left:
        return "refused", ", ".join(lawful) or "; ".join(left), []
    return "survives", edit.why, []
