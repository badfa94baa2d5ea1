"""The whole of a crawl: archives cut, shards done, sums reported."""

from __future__ import annotations

import fcntl
import json
import shutil
import sys
from collections.abc import Iterator
from contextlib import contextmanager
from pathlib import Path
from typing import Any, Self

from rdfax.crawling.options import Options, begin
from rdfax.crawling.outputs import place_of
from rdfax.crawling.report import Report, write_report
from rdfax.crawling.scheduling import Engine
from rdfax.crawling.shards import Archive, Shard, cut, keep, known
from rdfax.crawling.sums import Sums
from rdfax.crawling.working import work
from rdfax.errors import Usage

__all__ = ["Crawl"]


class Crawl:
    """A crawl in a folder, which the same call goes on with."""

    def __init__(self, out: Path, options: Options) -> None:
        self._out, self._options = out.resolve(), options

    def run(self, paths: list[str], engine: Engine) -> Report:
        """Does what isn't done, writes the report, and answers it."""
        begin(self._out, self._options)
        with _alone(self._out):
            archives = self._cut(list(dict.fromkeys(str(Path(path).resolve(strict=True)) for path in paths)), engine)
            unique = list({archive.digest: archive for archive in reversed(archives)}.values())[::-1]
            shards = [shard for archive in unique for shard in archive.shards]
            try:
                self._do(shards, engine)
            finally:
                report = self._report(archives, unique, shards)
            return report

    def _cut(self, paths: list[str], engine: Engine) -> list[Archive]:
        """The archives, each cut into shards, now or by an earlier run."""
        found = {path: known(self._out, path) for path in paths}
        new = [(path, self._options.records, self._options.reader) for path, archive in found.items() if archive is None]
        with _Bar(len(new), "archive") as bar:
            for (path, *_), archive in engine.do(cut, new):
                if archive is None:
                    raise ChildProcessError(f"{path} couldn't be cut: its worker ended")
                keep(self._out, archive)
                found[path] = archive
                bar.update(1)
        return [archive for archive in found.values() if archive is not None]

    def _do(self, shards: list[Shard], engine: Engine) -> None:
        left = [shard for shard in shards if not place_of(self._out, shard).is_dir()]
        with _Bar(sum(shard.records for shard in left), "record") as bar:
            for _, count in engine.do(work, ((str(self._out), shard, self._options) for shard in left)):
                bar.update(count or 0)

    def _report(self, archives: list[Archive], unique: list[Archive], shards: list[Shard]) -> Report:
        done = [shard for shard in shards if place_of(self._out, shard).is_dir()]
        undone = [f"{shard.name} of {shard.archive}" for shard in shards if not place_of(self._out, shard).is_dir()]
        doubles = [archive.path for archive in archives if archive not in unique]
        if not undone:
            for room in (self._out / "tmp").iterdir():
                shutil.rmtree(room, ignore_errors=True)
        report = Report(Sums.of(self._sums(done)), [archive.path for archive in unique], len(shards), undone, doubles)
        write_report(self._out, report)
        return report

    def _sums(self, shards: list[Shard]) -> Iterator[dict[str, Any]]:
        for shard in shards:
            told = json.loads((place_of(self._out, shard) / "sums.json").read_text(encoding="utf-8"))
            del told["shard"]
            yield told


@contextmanager
def _alone(out: Path) -> Iterator[None]:
    """Keeps other crawls from the folder."""
    with (out / "lock").open("w") as lock:
        try:
            fcntl.flock(lock, fcntl.LOCK_EX | fcntl.LOCK_NB)
        except BlockingIOError:
            raise Usage(f"another crawl runs in {out}") from None
        yield


class _Bar:
    """A progress bar on standard error, where that is a terminal and tqdm is installed."""

    def __init__(self, total: int, unit: str) -> None:
        self._bar: Any = None
        if total:
            try:
                from tqdm import tqdm
            except ImportError:
                return
            self._bar = tqdm(total=total, unit=unit, file=sys.stderr, disable=not sys.stderr.isatty(), leave=False, unit_scale=True)

    def __enter__(self) -> Self:
        return self

    def __exit__(self, *_: object) -> None:
        if self._bar is not None:
            self._bar.close()

    def update(self, count: int) -> None:
        """Goes on by so many."""
        if self._bar is not None:
            self._bar.update(count)
