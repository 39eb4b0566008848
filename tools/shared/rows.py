"""Files that a script writes or compares, the rows of programs, and the line that counts tests."""
import argparse
import re
import sys
from collections.abc import Iterable, Mapping
from pathlib import Path

from .crates import ROOT, folder_of

# what a file should have: text, or bytes
Content = str | bytes
# a row for a program, and the answer that it must get
Row = tuple[str, str]


def parser_of(about: str | None) -> argparse.ArgumentParser:
    """A parser of arguments, whose help is what a script says of itself. It refuses the beginning of an option."""
    return argparse.ArgumentParser(description=about, formatter_class=argparse.RawDescriptionHelpFormatter, allow_abbrev=False)


def add_check(parser: argparse.ArgumentParser) -> None:
    """The option `--check`."""
    parser.add_argument("--check", action="store_true", help="write nothing, and compare")


def as_bytes(content: Content) -> bytes:
    """A content as it is in a file."""
    return content.encode() if isinstance(content, str) else content


def differing(files: Mapping[Path, Content]) -> list[Path]:
    """The files that don't have these contents."""
    return [path for path, content in files.items() if not path.exists() or path.read_bytes() != as_bytes(content)]


def write(files: Mapping[Path, Content]) -> None:
    """Writes the files that don't have these contents."""
    for path in differing(files):
        path.parent.mkdir(parents=True, exist_ok=True)
        path.write_bytes(as_bytes(files[path]))


def write_or_check(files: Mapping[Path, Content], check: bool, script: str) -> int:
    """Writes these files. With `check` it writes nothing, prints which ones aren't what the script writes, and counts them as tests. The
    result is the status."""
    if not check:
        write(files)
        return 0
    wrong = [f"{path.relative_to(ROOT)} isn't what {script} writes" for path in differing(files)]
    return report(len(files) - len(wrong), wrong)


def built(crate: str) -> Path:
    """The program of a crate that is built. If it isn't, that is a test that fails, and the script ends."""
    program = folder_of(crate) / "out" / crate
    if not program.exists():
        sys.exit(report(0, [f"crates/{crate} isn't built: call rt run there"]))
    return program


def heading(text: str) -> Row:
    """A comment among rows, which is printed as it is."""
    return f"# {text}", f"# {text}"


def in_lines(lines: Iterable[str]) -> str:
    """Lines as the text of a file."""
    return "".join(f"{it}\n" for it in lines)


def files_of(crate: str, rows: Iterable[Row]) -> dict[Path, Content]:
    """The files of a crate with the rows and their answers."""
    both = list(rows)
    folder = folder_of(crate)
    return {folder / "stdin": in_lines(row for row, _ in both), folder / "stdout": in_lines(answer for _, answer in both)}


def with_section(text: str, name: str, lines: str) -> str:
    """The text of a file in which these lines are the section of this name. A line `## NAME` begins a section, which the next one ends."""
    parts = re.split(r"^(?=## )", text, flags=re.M)
    new = f"## {name}\n{lines}"
    kept = [new if it.startswith(f"## {name}\n") else it for it in parts]
    return "".join(kept if new in kept else [*kept, new])


def section_of(crate: str, name: str, rows: Iterable[Row]) -> dict[Path, Content]:
    """The files of a crate, in which the section of this name has these rows and their answers."""
    found = files_of(crate, rows).items()
    return {path: with_section(path.read_text(encoding="utf-8") if path.exists() else "", name, str(new)) for path, new in found}


def report(passed: int, wrong: Iterable[str]) -> int:
    """Prints what is wrong, and the last line of a step of `run-tests`. The result is the status."""
    found = list(wrong)
    for it in found:
        print(it)
    return count(passed, len(found))


def count(passed: int, failed: int) -> int:
    """Prints the last line of a step of `run-tests`. The result is the status."""
    print(f"{passed} passed, {failed} failed")
    return 1 if failed else 0
