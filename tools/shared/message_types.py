"""The types of messages, as crates/der_read/types.toml has them."""
import re
import tomllib
from typing import Any

from .crates import folder_of

TABLE = folder_of("der_read") / "types.toml"
KEYS = {"word", "number", "rust", "title", "labels", "part_of", "table"}


class MessageType:
    """A row of the table."""

    def __init__(self, row: dict[str, Any]) -> None:
        if not {"word", "number", "rust", "title"} <= row.keys() <= KEYS:
            raise SystemExit(f"{TABLE}: these keys aren't those of a row: {', '.join(row)}")
        self.word: str = row["word"]
        self.number: int = row["number"]
        self.title: str = row["title"]
        self.crate, self.rust = row["rust"].split("::")
        self.labels: list[str] = row.get("labels", [])
        self.whole: str | None = row.get("part_of")
        self.table: str | None = row.get("table")
        self.variant = "".join(part.capitalize() for part in self.word.split("-"))


def types_of_table() -> list[MessageType]:
    """The rows, once it is known that no word and no label is there twice."""
    with open(TABLE, "rb") as table:
        types = [MessageType(row) for row in tomllib.load(table)["types"]]
    words = [it.word for it in types]
    labels = [label for it in types for label in it.labels]
    for names in (words, labels, [it.variant for it in types], [it.number for it in types]):
        if len(set(names)) < len(names):
            raise SystemExit(f"{TABLE}: a name is there twice")
    for it in types:
        if it.whole is not None and it.whole not in words:
            raise SystemExit(f"{TABLE}: {it.word} is a part of {it.whole}, which is no type")
        if not re.fullmatch(r"[a-z][a-z0-9]*(-[a-z0-9]+)*", it.word) or not re.fullmatch(r"[A-Z0-9 ]*", "".join(it.labels)):
            raise SystemExit(f"{TABLE}: {it.word} or a label of it has a character that names don't have")
    return types
