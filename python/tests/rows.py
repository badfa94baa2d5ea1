"""The worked rows of the command that ask something of one page, as calls of the package."""

from __future__ import annotations

import json
from pathlib import Path
from typing import Any, NamedTuple

TOP = Path(__file__).resolve().parents[2]
DATA = TOP / "crates" / "rx_vectors" / "data"
OPTIONS = {
    "extract": {"--syntax", "--format", "--graph", "--context", "--base"},
    "items": {"--syntax", "--base"},
    "check": {"--syntax", "--context"},
}
# Rows whose files fail, or whose reads are told one by one, ask something of files and not of pages.
OF_FILES = {"reads", "fronts"}


class Row(NamedTuple):
    """What is asked of a page, and what is to come of it."""

    name: str
    task: str
    page: bytes
    words: dict[str, Any]
    status: int
    written: str
    said: str


def content(value: Any) -> bytes:
    """The bytes that a row tells of a file."""
    if isinstance(value, str):
        return value.encode()
    return b"".join(bytes([part]) if isinstance(part, int) else part.encode() if isinstance(part, str) else part[0].encode() * part[1] for part in value)


def _row(row: dict[str, Any]) -> Row | None:
    task, *rest = row["words"] or [""]
    given, files = dict(zip(rest[:-1:2], rest[1:-1:2], strict=False)), row["files"]
    if task not in OPTIONS or len(rest) != 2 * len(given) + 1 or not set(given) <= OPTIONS[task] or OF_FILES & set(row):
        return None
    if (task != "check") != ("--base" in given) or rest[-1] not in files or given.get("--context", rest[-1]) not in files:
        return None
    if not isinstance(row["written"], str) or not isinstance(row["said"], str):
        return None
    words = {name.removeprefix("--"): value for name, value in given.items()}
    if "context" in words:
        words["context"] = content(files[words["context"]])
    return Row(row["name"], task, content(files[rest[-1]]), words, row["status"], row["written"], row["said"])


def rows(*tasks: str) -> list[Row]:
    """The rows of these tasks."""
    told = [row for path in sorted(DATA.glob("*.json")) for row in json.loads(path.read_text(encoding="utf-8"))]
    return [row for row in map(_row, told) if row is not None and row.task in tasks and row.status in (0, 1, 2, 6)]
