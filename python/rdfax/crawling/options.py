"""What a crawl is asked for. What it was begun with stays with what it writes."""

from __future__ import annotations

import json
import os
import typing
from dataclasses import asdict, dataclass
from pathlib import Path

from rdfax._version import __version__
from rdfax.archives import Reader
from rdfax.errors import Usage

__all__ = ["COMPRESSIONS", "Compression", "Limits", "Options", "begin"]

Compression = typing.Literal["gzip", "zstd", "none"]
COMPRESSIONS: tuple[Compression, ...] = typing.get_args(Compression)


@dataclass(frozen=True)
class Limits:
    """What a page may take: bytes, seconds of processor time, and mebibytes of memory."""

    bytes: int = 16 << 20
    seconds: int = 10
    mebibytes: int = 1024


@dataclass(frozen=True)
class Options:
    """What is written of each page, and how."""

    rdfa: bool = True
    items: bool = True
    mend: bool = False
    places: bool = False
    compression: Compression = "gzip"
    reader: Reader = "installed"
    records: int = 1000
    limits: Limits = Limits()


def begin(out: Path, options: Options) -> None:
    """Makes the folder of a crawl. One that was begun with other options, or by another version, is `Usage`."""
    told = json.dumps({"version": __version__, **asdict(options)}, indent=1) + "\n"
    begun = out / "begun.json"
    out.mkdir(parents=True, exist_ok=True)
    if begun.exists():
        if begun.read_text(encoding="utf-8") != told:
            raise Usage(f"{out} was begun with other options: {begun} tells them")
        return
    if any(out.iterdir()):
        raise Usage(f"{out} isn't empty, and no crawl was begun there")
    for folder in ("archives", "shards", "tmp"):
        (out / folder).mkdir()
    part = out / "tmp" / "begun.json"
    part.write_text(told, encoding="utf-8")
    os.replace(part, begun)
