"""A program of the types of some modules that reads values and writes them back. It is built without a proof (`rt try`), with checks."""
import contextlib
import io
import re
import shutil
import subprocess
import tempfile
from collections.abc import Sequence
from dataclasses import dataclass
from pathlib import Path

from .. import command, report
from ..parse.modules import read_file
from ..parse.source import Problems

ROOT = Path(__file__).resolve().parent.parent.parent.parent
# the crates of the library, the lowest first
_LIBRARY = ("picky_der_core", "picky_der_ser", "picky_der_de", "picky_asn1_der", "der_types", "der_elements")
# what `rt try` gives the program, beside room for a mebibyte of output
_STEPS, _SECONDS = "20000000000", "400"

_PROGRAM = """//! For each row of a type and bytes, writes what is read.
#![tactic(auto)]

use picky_asn1_der::{{Deserialize, from_der, to_vec}};
use std::alloc::{{AllocError, Global}};
use std::io;

fn main(rt: HostRuntime) -> io::Result<()> {{
    let rows = io::read_to_string(rt.alloc(), rt.reader())?;
    for row in rows.lines() {{
        let result = of_row(rt.alloc(), row)?;
        println!(rt; "{{result}}")?;
    }}
    Ok(())
}}

fn of_row(alloc: Global, row: &str) -> Result<String, AllocError> {{
    let Some((name, text)) = row.split_once(" ") else {{
        return String::from_str(alloc, "no type");
    }};
    let Ok(bytes) = hex::decode(alloc, text.as_bytes()) else {{
        return String::from_str(alloc, "no bytes");
    }};
    match name {{
{arms}
        _ => String::from_str(alloc, "no type"),
    }}
}}

fn outcome<T: Deserialize>(alloc: Global, bytes: &[u8]) -> Result<String, AllocError> {{
    let value = match from_der::<T>(alloc, bytes) {{
        Ok(value) => value,
        Err(refusal) => return format!(in alloc; "{{}} at {{}}", refusal.error, refusal.position),
    }};
    match to_vec(alloc, &value) {{
        Ok(written) if written.as_slice() == bytes => String::from_str(alloc, "same"),
        _ => String::from_str(alloc, "other bytes"),
    }}
}}
"""


@dataclass(frozen=True)
class Given:
    """A module: its name, which its crate has too, its file, and options of the compiler."""

    name: str
    path: Path
    options: Sequence[str] = ()


def library_in(folder: Path) -> list[str]:
    """Copies the crates of the library to a folder, and returns their lines of `crates.txt`."""
    for it in _LIBRARY:
        shutil.copytree(ROOT / "crates" / it, folder / "crates" / it, ignore=shutil.ignore_patterns("out", "must-fail", "wrong-bodies"))
    lines = (ROOT / "crates.txt").read_text(encoding="utf-8").splitlines()
    return [it for it in lines if it.split(":")[0] in _LIBRARY]


class Trial:
    """The program in a folder of its own, which `with` removes at the end."""

    def __init__(self, modules: Sequence[Given]) -> None:
        self.folder = Path(tempfile.mkdtemp())
        self.types: dict[str, dict[str, str]] = {}
        lines = [*library_in(self.folder), *(self.crate(it) for it in modules)]
        names = " ".join(it.name for it in modules)
        lines.append(f"reader: {names} der_types picky_asn1_der picky_der_core picky_der_ser picky_der_de hex")
        (self.folder / "crates.txt").write_text("\n".join(lines) + "\n", encoding="utf-8")
        source = self.folder / "crates/reader/src"
        source.mkdir(parents=True)
        source.joinpath("main.rt").write_text(_PROGRAM.format(arms="\n".join(self.arms())), encoding="utf-8")

    def __enter__(self) -> "Trial":
        return self

    def __exit__(self, *_: object) -> None:
        shutil.rmtree(self.folder)

    def crate(self, given: Given) -> str:
        """Writes the crate of a module, and returns its line of `crates.txt`."""
        printed = io.StringIO()
        with contextlib.redirect_stdout(printed):
            status = command.main(["--out", str(self.folder / "crates" / given.name), *given.options, str(given.path)])
        if status:
            raise SystemExit(f"{given.path}: the compiler refuses it")
        problems = Problems()
        rows = report.report_of(read_file(str(given.path), problems), problems).rows
        exported = set(re.findall(r"\w+", (self.folder / "crates" / given.name / "src/lib.rt").read_text(encoding="utf-8")))
        self.types[given.name] = {it.name: it.meaning.rust.text for it in rows if it.meaning.rust and it.meaning.rust.text in exported}
        return printed.getvalue().strip()

    def arms(self) -> list[str]:
        """An arm for each type."""
        pairs = [(crate, name, rust) for crate, types in self.types.items() for name, rust in types.items()]
        return [f'        "{crate}.{name}" => outcome::<{crate}::{rust}>(alloc, &bytes),' for crate, name, rust in pairs]

    def outcomes(self, rows: Sequence[tuple[str, str, bytes]]) -> list[str]:
        """What is read of each row, which is a module, a type of it and bytes: `same`, or the error and how many bytes were consumed."""
        text = "".join(f"{module}.{kind} {data.hex()}\n" for module, kind, data in rows)
        words = ["rt", "try", "--steps", _STEPS, "--seconds", _SECONDS]
        done = subprocess.run(words, cwd=self.folder / "crates/reader", input=text, capture_output=True, encoding="utf-8", check=False)
        found = done.stdout.splitlines()[: len(rows)]
        if done.returncode or len(found) < len(rows):
            raise SystemExit(done.stdout[-4000:] + done.stderr[-4000:])
        return found
