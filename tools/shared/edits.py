"""Wrong bodies: edits of a crate's files, and the functions that they change.

An edit has a name, MODULE.FUNCTION.what_is_wrong, and lines `file: PATH`, `old: TEXT` and `new: TEXT`. Each TEXT is one line, or a part of
one, and the old one is exactly once in its file, or in the function that the edit's name has. A line `survives: WHY` says that the contracts let the edit through, and one
`survives by hand: WHY` that only a proof by hand would show this. A line that begins with `//` is a comment.

must-fail/NAME.edit has one edit. wrong-bodies/FOLDER.bodies has the edits of the modules in a folder of src/, or in src/ itself. If these are
too many for one file, there is also FOLDER-SUBJECT.bodies. After a line `# MODULE` come the edits of that module. Each begins with a line
`## FUNCTION.what_is_wrong`, and changes the module's own file unless a `file:` line names another. MODULE is the file in src/ with `-` for
each `/`. A module `X-derived`, which is written for the module X, counts as one in the folder of X.
"""
import functools
import re
from collections.abc import Iterator
from pathlib import Path

from . import rattle_source as source

# a function: its file, its block (or an empty text), and its name
Function = tuple[str, str, str]
# the text of each file that an edit may change, by its path in the crate
Texts = dict[str, str]

# how the name of a module ends that `tools/der_asn1/der_asn1 derive` writes
DERIVED = "-derived"

# the words that begin an edit's lines, in their order
WORDS = re.compile(r"(survives( by hand)?:)?((file:)?old:new:)+")


class BadEdit(Exception):
    """An edit that can't be applied, and why."""


class Edit:
    """An edit: its name, its pairs of texts, and, where it is known to survive, how and why."""

    def __init__(self, name: str, path: str, lines: list[str]) -> None:
        self.name, self.known, self.why = name, "", ""
        self.pairs: list[tuple[str, str, str]] = []
        split = [it.partition(":") for it in lines if it.strip() and not it.startswith("//")]
        form = "".join(f"{word}:" for word, _, _ in split)
        self.problem = "" if WORDS.fullmatch(form) else "it isn't made of lines `file: PATH`, `old: TEXT` and `new: TEXT`"
        for word, _, text in split if not self.problem else []:
            text = text.removeprefix(" ")
            if word == "file":
                path = text
            elif word == "old":
                old = text
            elif word == "new":
                self.pairs.append((path, old, text))
            else:
                self.known, self.why = word, text

    def applied(self, texts: Texts) -> Texts:
        """The texts of a crate's files with this edit."""
        texts = dict(texts)
        if self.problem:
            raise BadEdit(self.problem)
        for path, old, new in self.pairs:
            texts[path] = self.replaced(path, texts.get(path, ""), old, new)
        return texts

    def replaced(self, path: str, text: str, old: str, new: str) -> str:
        """The text of a file with this pair: the old text is once in the file, or once in the function in the edit's name."""
        count = text.count(old) if old else 0
        if count == 1:
            return text.replace(old, new)
        named = [(begin, end) for block, name, begin, end in source.functions(text) if self.names((path, block, name))]
        if not old or len(named) != 1 or text.count(old, *named[0]) != 1:
            raise BadEdit(f"an old text is in {path} {count} times, and not once, nor once in the function of the edit's name")
        (begin, end), = named
        return text[:begin] + text[begin:end].replace(old, new) + text[end:]

    def look_at(self, texts: Texts) -> None:
        """Finds `changed`, what the edit makes of each function of these texts that it changes or adds; `own`, the functions that it is
        about; `is_of_function`, whether its name is that of a function; `laws`, the goals of laws that quote an implementation of which it changes or adds a function; and `touched`, what no two
        edits that are tried at once may share. A function that it adds counts by its name alone there, since the methods of a type may be
        in several files. So does a cycle of calls, since its functions are proved together.

        It is about the function in its name, as about a law for what it adds; where there is none, about those that it changes or adds.
        """
        texts_after = self.applied(texts)
        before, after = all_functions(texts), all_functions(texts_after)
        self.changed = {it: after.get(it) for it in {*before, *after} if before.get(it) != after.get(it)}
        named, old = [it for it in before if self.names(it)], [it for it in self.changed if it in before]
        blocks_before = blocks_of(texts.get(file_of(self.name.split(".")[0]), ""))
        if not any(map(self.names, self.changed)) and not self.is_about(named, before, texts_after, blocks_before):
            raise BadEdit("the function in its name is none of those that it changes")
        self.is_of_function = bool(named) or any(map(self.names, self.changed))
        self.own = sorted([it for it in named if it in old] or named or old or self.changed)
        self.laws = {it: said for it, text in before.items() if it not in self.changed and (said := goals_about(text, {block for _, block, _ in self.changed}))}
        self.touched: set[tuple[str, ...]] = {*self.own, *self.changed, *(it[1:] for it in self.changed if it not in before)}
        self.touched |= {cycle for it in self.changed for cycle in cycles_of(it, before.get(it, ""))}

    def names(self, function: Function) -> bool:
        """Whether this is the function in the edit's name."""
        path, block, name = function
        file, called = self.name.split(".")[:2]
        return path == file_of(file) and called in (name, f"{block}-{name}")

    def is_about(self, named: list[Function], before: dict[Function, str], after: Texts, blocks_before: set[str]) -> bool:
        """Whether an edit that doesn't change the function in its name is about that one, or about the implementation in its name.

        It may be about a law, whatever it changes. It may be about another function, or an implementation, if it changes no function
        but what they use. It is about an implementation if it adds it, or changes or adds one of its functions, or adds functions alone.
        """
        file, called = self.name.split(".")[:2]
        block, path = called.split("-")[0], file_of(file)
        if named:
            return not self.changed or all(before[it].endswith("{}") for it in named)
        if any(it[:2] == (path, block) for it in self.changed):
            return block == called
        blocks = blocks_of(after.get(path, ""))
        is_added = block not in blocks_before or not any(it in before for it in self.changed)
        return block in blocks and (not self.changed or block == called and is_added)


def cycles_of(function: Function, text: str) -> list[tuple[str, ...]]:
    """The cycle of calls that a function is in, by its text."""
    path, block, _ = function
    return [(path, block, f"+{it}") for it in re.findall(r"#\[cycle\((\w+)\)\]", text)]


def goals_about(law: str, blocks: set[str]) -> set[str]:
    """The goals of a law, by its text, whose clauses quote one of these implementations. A function with a body has none."""
    if not law.endswith("{}"):
        return set()
    clauses = source.clauses(law)
    names = [name for name, text in clauses if blocks & source.named_blocks(text)]
    return {f"returns-clause-{it}" for it in names} | ({"returns"} if names else set())


def file_of(module: str) -> str:
    """The file of a module, by its name in the names of edits."""
    return f"src/{module.replace('-', '/')}.rt"


@functools.cache
def functions_of(path: str, text: str) -> dict[Function, str]:
    """The text of each function of a file by its path, block and name, without comments and with each space as one."""
    found = {}
    for block, name, start, end in source.functions(text):
        bare = re.sub(r"/\*.*?\*/|//[^\n]*", " ", text[start:end], flags=re.S)
        found[path, block, name] = " ".join(bare.split())
    return found


def blocks_of(text: str) -> set[str]:
    """The names of the blocks of a file."""
    return {source.block_of(header) for header, _, _ in source.parts(text)[1]}


def types_with_methods(texts: Texts) -> set[str]:
    """The types of a crate with methods of their own, which may be in any file."""
    headers = [header for path, text in texts.items() if path.startswith("src/") for header, _, _ in source.parts(text)[1]]
    return {source.block_of(it) for it in headers if it.startswith("impl") and " for " not in it}


def all_functions(texts: Texts) -> dict[Function, str]:
    """The text of each function of a crate, by its path, block and name."""
    return {name: body for path, text in texts.items() if path.startswith("src/") for name, body in functions_of(path, text).items()}


def texts_of(folder: Path) -> Texts:
    """The texts of a crate's files that an edit may change, by their paths in it."""
    files = [it for part in ("src", "specs", "proofs") for it in sorted((folder / part).rglob("*")) if it.is_file()]
    return {it.relative_to(folder).as_posix(): it.read_text(encoding="utf-8") for it in files}


def edits_of(folder: Path, kind: str) -> list[Edit]:
    """The edits of a crate in must-fail/ or wrong-bodies/, in the order of the files' names."""
    readers = {("must-fail", ".edit"): edit_in, ("wrong-bodies", ".bodies"): bodies_in}
    found: list[Edit] = []
    for file in sorted((folder / kind).iterdir()) if (folder / kind).is_dir() else []:
        reader = readers.get((kind, file.suffix))
        found += reader(file) if reader else [bad_edit(file.name, f"no file in {kind}/ has such a name")]
    return found


def bad_edit(name: str, problem: str) -> Edit:
    """What is no edit, and why."""
    edit = Edit(name, "", [])
    edit.problem = problem
    return edit


def edit_in(file: Path) -> list[Edit]:
    """The edit of a file in must-fail/."""
    return [Edit(file.stem, "", file.read_text(encoding="utf-8").split("\n"))]


def bodies_in(file: Path) -> list[Edit]:
    """The edits of a file in wrong-bodies/."""
    head, *sections = re.split(r"^# ", file.read_text(encoding="utf-8"), flags=re.M)
    found = [] if has_only_comments(head) else [bad_edit(file.name, "the file has lines before the first `# MODULE`")]
    for section in sections:
        module, _, text = section.partition("\n")
        found += bodies_of(file.stem, module.strip(), text)
    return found


def bodies_of(stem: str, module: str, text: str) -> Iterator[Edit]:
    """The edits of a module, from the text after its line `# MODULE` in the file with this name."""
    folder = module.removesuffix(DERIVED).rpartition("-")[0] or "src"
    head, *bodies = re.split(r"^## ", text, flags=re.M)
    if stem != folder and not stem.startswith(f"{folder}-"):
        yield bad_edit(f"{module}.", f"the bodies of this module belong in {folder}.bodies, and not in {stem}.bodies")
    if not has_only_comments(head) or not bodies:
        yield bad_edit(f"{module}.", "a line `## FUNCTION.what_is_wrong` has to follow `# MODULE`")
    for body in bodies:
        name, *lines = body.split("\n")
        yield Edit(f"{module}.{name.strip()}", file_of(module), lines)


def has_only_comments(text: str) -> bool:
    """Whether each line is empty or a comment."""
    return all(not it.strip() or it.startswith("//") for it in text.split("\n"))
