"""What a shard gives: quads, items, a table of pages and sums, in a folder that comes to its place whole or not at all."""

from __future__ import annotations

import gzip
import json
import os
import shutil
import tempfile
import typing
from pathlib import Path
from typing import IO, Any, Self

from rdfax.archives import Record
from rdfax.crawling.options import Compression
from rdfax.crawling.pages import Found, Given
from rdfax.crawling.shards import Shard
from rdfax.crawling.sums import Sums

__all__ = ["COLUMNS", "ENDINGS", "Outputs", "place_of"]

COLUMNS = ("address", "status", "kind", "token", "at", "mended", "bytes", "triples", "items", "milliseconds", "offset", "record")
# Level 6 makes texts of quads 6 % shorter than this one, and takes half as long again.
_GZIP_LEVEL = 4
ENDINGS: dict[Compression, str] = {"gzip": ".gz", "zstd": ".zst", "none": ""}


def place_of(out: Path, shard: Shard) -> Path:
    """The folder of what the shard gives; it is there where the shard is done."""
    return out / "shards" / shard.name


def _compressed(raw: IO[bytes], compression: Compression) -> IO[bytes]:
    if compression == "zstd":
        import zstandard

        return typing.cast("IO[bytes]", zstandard.ZstdCompressor(level=3).stream_writer(raw, closefd=False))
    # No name and no time: the same pages give the same bytes.
    return typing.cast("IO[bytes]", gzip.GzipFile("", "wb", _GZIP_LEVEL, raw, 0))


class _Whole:
    """A file that is compressed, and that stands on the disk when it is closed."""

    def __init__(self, path: Path, compression: Compression) -> None:
        self._raw = path.open("wb")
        self._packed = None if compression == "none" else _compressed(self._raw, compression)
        self.write = (self._packed or self._raw).write

    def close(self) -> None:
        if self._packed is not None:
            self._packed.close()
        self._raw.flush()
        os.fsync(self._raw.fileno())
        self._raw.close()


class Outputs:
    """The files of a shard while they are written. Where `keep` isn't reached nothing of them stays."""

    def __init__(self, out: Path, shard: Shard, compression: Compression) -> None:
        self._out, self._shard = out, shard
        self._room = Path(tempfile.mkdtemp(prefix=f"{shard.name}.", dir=out / "tmp"))
        ending = ENDINGS[compression]
        self._quads, self._items, self._pages = (_Whole(self._room / f"{name}{ending}", compression) for name in ("quads.nq", "items.jsonl", "pages.tsv"))
        self.sums = Sums()
        self._pages.write(_line(COLUMNS))

    def __enter__(self) -> Self:
        return self

    def __exit__(self, *_: object) -> None:
        shutil.rmtree(self._room, ignore_errors=True)

    def add(self, record: Record, given: Given, found: Found) -> None:
        """Adds what a page gave."""
        items = json.loads(found.items)["items"] if found.items else []
        if found.kind and found.token is not None:
            told = f"{found.status}: {found.kind} at byte {found.at} in token {found.token}"
            self._quads.write(f"# {told} of {_plain(given.address)}\n".encode())
        elif found.mended:
            self._quads.write(f"# {found.mended} of {_plain(given.address)}\n{found.places}".encode())
        self._quads.write(found.quads)
        for number, item in enumerate(items):
            self._items.write(self._item(record, given, found, number, item))
        milliseconds = f"{(found.mending + found.reading) * 1000:.3f}"
        triples = found.quads.count(b"\n")
        row = (given.address, found.status, found.kind, found.token, found.at, found.mended, len(given.body), triples, len(items), milliseconds)
        self._pages.write(_line((*row, record.offset, record.name)))
        self.sums.page(given, found, items)

    def _item(self, record: Record, given: Given, found: Found, number: int, item: Any) -> bytes:
        told = {"address": given.address, "record": record.name, "archive": Path(self._shard.archive).name, "offset": record.offset, "number": number}
        if found.mended:
            told["mended"] = found.mended
        return (json.dumps({**told, "item": item}, ensure_ascii=False, separators=(",", ":")) + "\n").encode()

    def keep(self) -> None:
        """Moves the whole folder to its place, unless another worker was before."""
        for file in (self._quads, self._items, self._pages):
            file.close()
        told = {"shard": self._shard._asdict(), **self.sums.told()}
        with (self._room / "sums.json").open("w", encoding="utf-8") as sums:
            json.dump(told, sums, ensure_ascii=False, indent=1)
            sums.flush()
            os.fsync(sums.fileno())
        place = place_of(self._out, self._shard)
        try:
            self._room.rename(place)
        except OSError:
            if not place.is_dir():
                raise
        parent = os.open(place.parent, os.O_RDONLY | os.O_DIRECTORY)
        os.fsync(parent)
        os.close(parent)


def _plain(text: str) -> str:
    """The text in one field of a line."""
    return "".join(character if character.isprintable() else f"%{ord(character):02X}" for character in text)


def _line(fields: tuple[Any, ...]) -> bytes:
    return ("\t".join("" if field is None else _plain(str(field)) for field in fields) + "\n").encode("utf-8", "replace")
