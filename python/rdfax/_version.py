"""The version, which stands in the file VERSION: a copy beside this module once it is installed, else the repository's."""

from __future__ import annotations

from pathlib import Path

__all__ = ["__version__"]


def _read() -> str:
    here = Path(__file__).resolve().parent
    for folder in (here, here.parent, here.parent.parent):
        if (folder / "VERSION").is_file():
            return (folder / "VERSION").read_text(encoding="ascii").strip()
    raise ImportError("rdfax: the file VERSION is missing")


__version__ = _read()
