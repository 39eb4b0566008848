"""The stored crates of small modules: `NAME.crate` in `golden` is the text of all files of the crate that is written for `NAME.asn1`.

A line `==> PATH <==` comes before each file, as `head` prints it.
"""
import os
import re
from pathlib import Path

GOLDEN = Path(__file__).resolve().parent / "golden"
_HEADING = re.compile(r"^==> (.*) <==\n", re.MULTILINE)

# more options of a module
_OPTIONS = {
    "filter": ["--depth", "3"],
    "fleet": ["--allow-raw", "Consumption"],
    "ldap": ["--depth", "3"],
    "options": ["--constructors"],
    "parcel": ["--derive", "Clone"],
}
# the modules that are over the crate of another one, which comes before them in the order of names
_OVER = {"stamp": ("Request", "request")}


def golden_names() -> list[str]:
    """The names of the modules."""
    return sorted(it.stem for it in GOLDEN.glob("*.asn1"))


def options_of(name: str) -> list[str]:
    """More options of a module."""
    return _OPTIONS.get(name, [])


def golden_options(name: str, folder: str) -> list[str]:
    """The words of the command that writes the crate of a module to this folder."""
    words = ["--strict", "--out", os.path.join(folder, name)]
    if name in _OVER:
        module, crate = _OVER[name]
        words += ["--crate", f"{module}={crate}", "--import", str(GOLDEN / f"{crate}.asn1")]
    return [*words, *options_of(name), str(GOLDEN / f"{name}.asn1")]


def files_below(folder: str) -> dict[str, str]:
    """The texts of the files below a folder, by their paths in it, in the order of the paths."""
    return {str(it.relative_to(folder)): it.read_text(encoding="utf-8") for it in sorted(Path(folder).rglob("*")) if it.is_file()}


def stored_text(files: dict[str, str]) -> str:
    """These files as one text."""
    return "".join(f"==> {path} <==\n{text}" for path, text in files.items())


def stored_files(text: str) -> dict[str, str]:
    """The files that a stored text has."""
    _, *parts = _HEADING.split(text)
    return dict(zip(parts[::2], parts[1::2]))
