"""Archives cut into shards: ranges of their bytes that hold up to so many records."""

from __future__ import annotations

import hashlib
import json
import os
from collections.abc import Iterator
from pathlib import Path
from typing import NamedTuple

from rdfax.archives import Reader, records

__all__ = ["Archive", "Shard", "cut", "keep", "known"]

# A shard has no more bytes of the archive than this, but for its last record.
_BYTES = 64 << 20


class Shard(NamedTuple):
    """The records of an archive that begin from `start` to before `end`."""

    archive: str
    digest: str
    number: int
    start: int
    end: int
    records: int

    @property
    def name(self) -> str:
        """The name of the folder of what the shard gives."""
        return f"{self.digest[:16]}-{self.number:06}"


class Archive(NamedTuple):
    """An archive by its digest, and its shards."""

    path: str
    digest: str
    bytes: int
    shards: list[Shard]


def _ranges(path: str, most: int, reader: Reader) -> Iterator[tuple[int, int, int]]:
    """Where each shard begins and ends, and how many records it has."""
    start, last, count = 0, 0, 0
    for record in records(path, longest=0, reader=reader):
        if record.offset > last and (count >= most or record.offset - start >= _BYTES):
            yield start, record.offset, count
            start, count = record.offset, 0
        last = record.offset
        count += 1
    if count:
        yield start, os.path.getsize(path), count


def cut(path: str, most: int, reader: Reader) -> Archive:
    """Cuts an archive into shards of up to so many records. All of it is read once."""
    with Path(path).open("rb") as file:
        digest = hashlib.file_digest(file, "sha256").hexdigest()
    shards = [Shard(path, digest, number, *place) for number, place in enumerate(_ranges(path, most, reader))]
    return Archive(path, digest, os.path.getsize(path), shards)


def _place(out: Path, path: str) -> Path:
    state = os.stat(path)
    name = hashlib.sha256(f"{path}\0{state.st_size}\0{state.st_mtime_ns}".encode("utf-8", "surrogateescape")).hexdigest()
    return out / "archives" / f"{name[:32]}.json"


def keep(out: Path, archive: Archive) -> None:
    """Writes down how the archive was cut."""
    place = _place(out, archive.path)
    part = out / "tmp" / f"{place.name}.{os.getpid()}"
    part.write_text(json.dumps(archive), encoding="utf-8")
    os.replace(part, place)


def known(out: Path, path: str) -> Archive | None:
    """How the archive was cut before, if it was, and wasn't changed since."""
    try:
        name, digest, size, shards = json.loads(_place(out, path).read_text(encoding="utf-8"))
    except FileNotFoundError:
        return None
    return Archive(name, digest, size, [Shard(*shard) for shard in shards])
