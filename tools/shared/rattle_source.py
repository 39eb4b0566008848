"""The functions of a file of Rattle, and the names that the checker has for them."""
import re

# a function: the header of its block (or an empty text), its name, and the indices of its beginning, its body and its end
Part = tuple[str, str, int, int, int]
# a block, `impl` or `trait`: its header, and the indices of its beginning and its end
Block = tuple[str, int, int]


def blanked(text: str) -> str:
    """The text with its comments, strings and characters as spaces, so that each brace left is one of the code."""
    kinds = r'/\*.*?\*/|//[^\n]*|b?"(?:\\.|[^"\\])*"|b?\'(?:\\[^\']+|[^\\\'\n])\''
    return re.sub(kinds, lambda it: re.sub(r"[^\n]", " ", it[0]), text, flags=re.S)


def after_bracket(text: str, at: int, opening: str = "{", closing: str = "}") -> int:
    """The place after the bracket that closes the one at this place."""
    depth = 0
    for place in range(at, len(text)):
        depth += (text[place] == opening) - (text[place] == closing)
        if depth == 0:
            return place + 1
    return len(text)


def body_of(text: str, at: int) -> int:
    """The place of a function's body whose name ends here, or of the `;` of one without a body."""
    begin = at
    while at < len(text):
        if text[at] in "([":
            at = after_bracket(text, at, text[at], ")" if text[at] == "(" else "]")
        elif text[at] == ";":
            return at
        elif text[at] == "{":
            if not re.search(r"(requires|ensures)\*?(\s+\w+)?\s*$|\bghost\s+\w+\s*:\s*$", text[begin:at]):
                return at
            at = begin = after_bracket(text, at)
        else:
            at += 1
    return at


def words_of(type_name: str, parameters: list[str]) -> str:
    """How the checker writes a type in the names of an `impl`, without what is in `<>`, and without a parameter that is referred to."""
    name = re.sub(r"'\w+\s*", "", type_name).strip()
    for sign, word in (("&mut ", "RefMut"), ("&", "Ref")):
        if name.startswith(sign):
            rest = name[len(sign) :].strip()
            return word + ("" if rest in parameters else words_of(rest, parameters))
    if name == "()":
        return "Unit"
    if name.startswith("("):
        return f"Tuple{len([it for it in split(name[1:-1]) if it])}"
    if name.startswith("["):
        inner = name[1:-1].strip()
        return "Array" if ";" in name else "Slice" + ("" if inner in parameters else words_of(inner, parameters))
    name = name.split("<")[0].split("::")[-1].strip()
    return name[:1].upper() + name[1:]


def arguments_of(trait: str, parameters: list[str]) -> str:
    """How the checker writes the type arguments of a trait, without the ones that are parameters."""
    inner = re.match(r"[\w:]+<(.*)>$", re.sub(r"'\w+\s*", "", trait).strip())
    words = ""
    for it in split(inner[1]) if inner else []:
        it = re.sub(r"\b\w+::(?=\w+::)", "", it)
        if it not in parameters:
            words += "".join(part[:1].upper() + part[1:] for part in it.split("<")[0].split("::")) if it[0].isalpha() else words_of(it, parameters)
            words += arguments_of(it, parameters)
    return words


def split(text: str) -> list[str]:
    """The parts of a text between the commas outside of brackets."""
    parts, depth = [""], 0
    for sign in text:
        depth += (sign in "(<[") - (sign in ")>]")
        if sign == "," and depth == 0:
            parts.append("")
        else:
            parts[-1] += sign
    return [it.strip() for it in parts]


def block_of(header: str) -> str:
    """The name of an `impl`, a `trait` or a module in the checker's names: for an `impl` that of the type, and of the trait that it has there."""
    header = re.sub(r"\bwhere\b.*", "", header, flags=re.S).strip()
    if header.startswith("impl"):
        header, parameters = header[len("impl") :].strip(), []
        if header.startswith("<"):
            end = after_bracket(header.replace("->", "  "), 0, "<", ">")
            parameters = [it.split(":")[0].strip() for it in split(header[1 : end - 1])]
            header = header[end:].strip()
        trait, found, implementer = header.partition(" for ")
        if implementer.strip() in parameters:
            return "Any" + words_of(trait, parameters)
        own = words_of(implementer if found else header, parameters)
        return own + words_of(trait, parameters) + arguments_of(trait, parameters) if found else own
    return re.findall(r"\w+", header)[1]


def parts(text: str) -> tuple[list[Part], list[Block]]:
    """The functions of a file, each as the header of its block (or an empty text), its name, and the indices of its beginning, its
    body and its end; and the blocks, each as its header and the indices of its beginning and end."""
    found: list[Part] = []
    blocks: list[Block] = []
    code, at = blanked(text), 0
    pattern = re.compile(r"\bfn\s+(\w+)|\b((?:impl|trait|mod)\b(?:[^;{\[]|\[[^\]]*\])*)\{")
    for it in iter(lambda: pattern.search(code, at), None):
        if it[1]:
            begin = max(code.rfind(sign, 0, it.start()) for sign in "{};") + 1
            body = body_of(code, it.end())
            at = body + 1 if code[body : body + 1] == ";" else after_bracket(code, body)
            own = [header for header, start, end in blocks if start < begin < end]
            found.append((own[-1] if own else "", it[1], begin, body, at))
        else:
            blocks.append((it[2].strip(), it.start(), after_bracket(code, it.end() - 1)))
            at = it.end()
    return found, blocks


def functions(text: str) -> list[tuple[str, str, int, int]]:
    """The functions of a file: the block of each (or an empty text), its name, and the indices of its beginning and end."""
    return [(block_of(header) if header else "", name, begin, end) for header, name, begin, _, end in parts(text)[0]]


def clauses(text: str) -> list[tuple[str, str]]:
    """The clauses `ensures` of a function's text, each as its name (or an empty text) and what it says."""
    code = blanked(text)
    return [(it[1] or "", text[it.end() : after_bracket(code, it.end() - 1) - 1]) for it in re.finditer(r"\bensures\*?\s+(?:(\w+)\s+)?\{", code)]


def named_blocks(text: str) -> set[str]:
    """The names of the implementations that a clause quotes, as `⟦<T as Clone>⟧`."""
    return {block_of(f"impl {trait} for {implementer}") for implementer, trait in re.findall(r"⟦<(.+?) as (.+?)>⟧", text)}


def module_of(path: str) -> list[str]:
    """The names of the modules to a file below src/."""
    parts = path.removeprefix("src/").removesuffix(".rt").split("/")
    return [] if parts in (["lib"], ["main"]) else parts
