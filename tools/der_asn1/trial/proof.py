"""Crates of golden modules, proved in a folder of their own."""
import contextlib
import io
import shutil
import subprocess
import tempfile
import time
from collections.abc import Sequence
from pathlib import Path

from .. import command
from ..tests.stored import golden_options
from .program import ROOT, library_in

# the last lines of a check that refuses a crate
_SHOWN = 40


def prove(names: Sequence[str], jobs: int) -> int:
    """Proves the crates of these modules with so many processes, and prints the seconds of each. Returns how many aren't proved.

    The library is proved before the first one, where no earlier check in this checkout or on this machine did.
    """
    with tempfile.TemporaryDirectory() as folder:
        library = library_in(Path(folder))
        lines = [*library, *(_written(it, folder) for it in names)]
        Path(folder, "crates.txt").write_text("\n".join(lines) + "\n", encoding="utf-8")
        _take_proved([it.split(":")[0] for it in library], folder)
        return sum(not _is_proved(it, Path(folder, "crates", it), jobs) for it in names)


def _take_proved(names: Sequence[str], folder: str) -> None:
    """Copies what checks of these crates in this checkout proved, which `rt` uses where it is of the same text."""
    for it in names:
        proved = ROOT / "crates" / it / "out/rlib"
        if proved.is_dir():
            shutil.copytree(proved, Path(folder, "crates", it, "out/rlib"))


def _written(name: str, folder: str) -> str:
    """Writes the crate of a module, and returns its line of `crates.txt`."""
    printed = io.StringIO()
    with contextlib.redirect_stdout(printed):
        if command.main(golden_options(name, f"{folder}/crates")):
            raise SystemExit(f"{name}: the compiler refuses it")
    return printed.getvalue().strip()


def _is_proved(name: str, crate: Path, jobs: int) -> bool:
    """Whether the checker proves a crate, which it prints."""
    start = time.monotonic()
    done = subprocess.run(
        ["rt", "check", "--jobs", str(jobs)], cwd=crate, stdout=subprocess.PIPE, stderr=subprocess.STDOUT, encoding="utf-8", check=False
    )
    seconds = time.monotonic() - start
    print(f"{name}: {'not ' if done.returncode else ''}proved, {seconds:.0f} s", flush=True)
    if done.returncode:
        print("\n".join(done.stdout.splitlines()[-_SHOWN:]), flush=True)
    return not done.returncode
