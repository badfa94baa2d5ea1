"""The examples that the page offers: those of the repository, which a wheel has beside this module."""

from __future__ import annotations

from pathlib import Path
from typing import NamedTuple

__all__ = ["EXAMPLES", "Example"]

_HERE = Path(__file__).resolve()
_FOLDERS = [_HERE.parent / "examples", _HERE.parents[3] / "examples"]
_TITLES = {
    "product.html": ("A product (RDFa)", "http://shop.example/anvil"),
    "items.html": ("Items (Microdata)", "http://shop.example/anvil"),
    "anvil.html": ("One triple", "http://h.example/d"),
    "cut.html": ("A page that is refused", "http://h.example/c"),
}


class Example(NamedTuple):
    """An example: its file's name, what it is, its address, and its source."""

    name: str
    title: str
    base: str
    source: str


def _read() -> list[Example]:
    folder = next((folder for folder in _FOLDERS if folder.is_dir()), None)
    if folder is None:
        return []
    return [Example(name, title, base, (folder / name).read_text(encoding="utf-8")) for name, (title, base) in _TITLES.items() if (folder / name).is_file()]


EXAMPLES = _read()
