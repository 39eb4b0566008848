"""The command that writes the implementations of structs and enums of Rust files.

    der_asn1 derive [--check] FILE.rt ..

For each file `src/point.rt` of a crate it writes `src/point/derived.rt`, with all that the structs and enums of the file need to be written
and read. The file has the line `mod derived;`. For an enumeration it also writes `specs/Point.antt`, and adds its line to `specs/Lib.antt`;
for a choice a file of `proofs`. A folder stands for all files below it that have the line `mod derived;`.

Comments that begin with `// asn1:`, above a type or a field or at the end of its line, say what its type alone doesn't; docs/YOUR_TYPES.md
has a table of them. `--check` writes nothing, and fails where a file isn't what would be written. The last line counts the files.
"""
import argparse
import re
import sys
from pathlib import Path
from typing import Iterator, Optional

from ..emit.derived import MODULE, Place, derived_files
from ..emit.folder import is_generated
from ..parse.source import NotationError

_LIB = "specs/Lib.antt"
_DECLARED = re.compile(rf"^mod {MODULE};$", re.M)


def main(words: Optional[list[str]] = None) -> int:
    """Runs the command. Returns 1 if there is an error, or a file differs, else 0."""
    parser = argparse.ArgumentParser(prog="der_asn1 derive", description="Writes how the structs and enums of Rust files are written and read.")
    parser.add_argument("files", nargs="+", metavar="FILE.rt", help="a file with the line `mod derived;`, or a folder of such files")
    parser.add_argument("--check", action="store_true", help="write nothing, and fail where a file is another one")
    options = parser.parse_args(words)
    passed = failed = 0
    for path in (it for given in options.files for it in files_of(Path(given))):
        is_right = derive(path, options.check)
        passed, failed = passed + is_right, failed + (not is_right)
    print(f"{passed} passed, {failed} failed")
    return 1 if failed or not passed else 0


def files_of(given: Path) -> Iterator[Path]:
    """The file itself, or the files of a folder that have a derived module."""
    if not given.is_dir():
        yield given
        return
    for it in sorted(given.rglob("*.rt")):
        if "out" not in it.relative_to(given).parts and _DECLARED.search(it.read_text(encoding="utf-8")):
            yield it


def derive(path: Path, is_check: bool) -> bool:
    """Writes the files for a file, or compares them. Returns whether all is well."""
    try:
        place = place_of(path)
        files = derived_files(place, str(path), path.read_text(encoding="utf-8"))
    except NotationError as error:
        print(error.problem, file=sys.stderr)
        return False
    except OSError as error:
        print(f"{path}: {error.strerror}", file=sys.stderr)
        return False
    except ValueError as error:
        print(f"{path}: {error}", file=sys.stderr)
        return False
    if is_check:
        wrong = difference(place, files)
        for it in wrong:
            print(f"{place.folder / it} isn't what would be written")
        return not wrong
    write(place, files)
    return True


def place_of(path: Path) -> Place:
    """Where a file is in its crate."""
    whole = path.resolve()
    source = next((it for it in whole.parents if it.name == "src"), None)
    if source is None or path.suffix != ".rt":
        raise ValueError("no file `NAME.rt` in the folder `src` of a crate")
    module = whole.relative_to(source).with_suffix("").parts
    if module in (("lib",), ("main",)):
        raise ValueError("types in the root of a crate can't be derived: give them a module")
    return Place(source.parent.name, source.parent, module)


def stale(place: Place, files: dict[str, str]) -> list[str]:
    """The files that the command wrote for this file before, and wouldn't write now."""
    proofs = place.folder.joinpath("proofs", *place.module, MODULE).rglob("*.antt")
    found = [*proofs, place.folder / "specs" / f"{place.terms}.antt"]
    paths = [it.relative_to(place.folder).as_posix() for it in found if it.exists() and is_generated(it)]
    return [it for it in paths if it not in files]


def with_line(text: str, name: str) -> str:
    """The text of `specs/Lib.antt` with the line of this module, in the order of names if the others are."""
    lines, line = text.splitlines(), f"pub mod {name}"
    if line not in lines:
        lines.insert(next((index for index, it in enumerate(lines) if it.startswith("pub mod ") and it > line), len(lines)), line)
    return "\n".join(lines) + "\n"


def with_terms(place: Place, files: dict[str, str]) -> dict[str, str]:
    """The files with `specs/Lib.antt`, if one of them is a file of terms."""
    if f"specs/{place.terms}.antt" not in files:
        return files
    lib = place.folder / _LIB
    return {**files, _LIB: with_line(lib.read_text(encoding="utf-8") if lib.exists() else "", place.terms)}


def difference(place: Place, files: dict[str, str]) -> list[str]:
    """The paths of the files that aren't what would be written, or wouldn't be there."""
    found = stale(place, files)
    for path, text in with_terms(place, files).items():
        it = place.folder / path
        if not it.exists() or it.read_text(encoding="utf-8") != text:
            found.append(path)
    return found


def write(place: Place, files: dict[str, str]) -> None:
    """Writes the files, and removes those that were written before and aren't now."""
    for path in stale(place, files):
        (place.folder / path).unlink()
    for path, text in with_terms(place, files).items():
        it = place.folder / path
        it.parent.mkdir(parents=True, exist_ok=True)
        it.write_text(text, encoding="utf-8")
