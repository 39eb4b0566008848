"""The crates of the repository, as crates.txt and the folders have them."""
from collections.abc import Iterable, Mapping
from pathlib import Path

ROOT = Path(__file__).resolve().parents[2]

# the library that every test uses, and nothing else
FIXTURES = "der_fixtures"
# the crates that the pages show as a user's own
EXAMPLES = ("der_examples", "der_first")


def lines() -> list[str]:
    """The lines of crates.txt that are about a crate."""
    text = (ROOT / "crates.txt").read_text(encoding="utf-8")
    return [line for line in text.splitlines() if line.strip() and not line.startswith("#")]


def name_in(line: str) -> str:
    """The crate that a line of crates.txt is about."""
    return line.partition(":")[0].split()[0]


def uses() -> dict[str, list[str]]:
    """The crates of the repository that each crate names in crates.txt, in the order of the lines."""
    named = {name_in(line): line.partition(":")[2].split() for line in lines()}
    return {name: [it for it in words if it in named] for name, words in named.items()}


def needed() -> dict[str, set[str]]:
    """The crates of the repository that each crate needs, also through others."""
    direct = uses()

    def below(name: str) -> set[str]:
        return {it for used in direct[name] for it in (used, *below(used))}

    return {name: below(name) for name in direct}


def lines_of(names: Iterable[str]) -> list[str]:
    """The lines of crates.txt about these crates."""
    wanted = set(names)
    return [line for line in lines() if name_in(line) in wanted]


def folder_of(name: str) -> Path:
    """The folder of a crate."""
    return ROOT / "crates" / name


def programs() -> list[str]:
    """The crates with a program."""
    return [name for name in uses() if (folder_of(name) / "src" / "main.rt").exists()]


def tests() -> list[str]:
    """The crates of tests, with their libraries."""
    return [name for name, below in needed().items() if name == FIXTURES or FIXTURES in below]


def generated() -> list[str]:
    """The crates that tools/der_asn1 writes."""
    text = (ROOT / "modules" / "generated.txt").read_text(encoding="utf-8")
    return [name_in(line) for line in text.splitlines() if line.strip() and not line.startswith(("#", " "))]


def chosen(without: Mapping[str, Iterable[str]]) -> list[str]:
    """All crates but those that are left out for one of these reasons, in the order of crates.txt. It prints which ones these are."""
    left, found = list(uses()), []
    for reason, names in without.items():
        names = [it for it in left if it in set(names)]
        left = [it for it in left if it not in names]
        found += [f"{', '.join(names)} ({reason})"] if names else []
    print(f"left out: {'; '.join(found) or 'nothing'}")
    return left
