"""A worker: reads a shard's records, has its pages read by a child, and writes what they give."""

from __future__ import annotations

import time
from collections.abc import Iterator
from pathlib import Path
from typing import NamedTuple

from rdfax.archives import PAGE_TYPES, Fetched, Record, fetched, records
from rdfax.crawling.child import Reader, reader
from rdfax.crawling.options import Options
from rdfax.crawling.outputs import Outputs, place_of
from rdfax.crawling.pages import Found, Given
from rdfax.crawling.shards import Shard
from rdfax.crawling.sums import Sums

__all__ = ["work"]

# As many pages and bytes are handed over at once.
_PAGES, _BYTES = 64, 4 << 20
_OK = range(200, 300)
# Faults of records that are there to their end.
_WHOLE = ("BadDigest", "TooLong")


class _Entry(NamedTuple):
    """A page, and what came of it where it can't be handed over."""

    record: Record
    given: Given
    found: Found | None


def work(out: str, shard: Shard, options: Options) -> int:
    """Does a shard, if it isn't done, and answers how many records it has."""
    folder = Path(out)
    if place_of(folder, shard).is_dir():
        return shard.records
    began = time.thread_time()
    with Outputs(folder, shard, options.compression) as outputs, reader(options) as child:
        nodes = 0
        for batch in _batches(_entries(shard, options, outputs.sums)):
            nodes += _add(batch, child, nodes, outputs)
        spent = outputs.sums.tables["seconds"]
        own = time.thread_time() - began
        outputs.sums.spend("hand over", own - spent["read"] - spent["write"])
        outputs.keep()
    return shard.records


def _add(batch: list[_Entry], child: Reader, nodes: int, outputs: Outputs) -> int:
    """Has a batch read, and adds what it gives. Answers how many blank nodes that has."""
    answers = child.read([entry.given for entry in batch if entry.found is None], nodes)
    made = 0
    for record, given, told in batch:
        found = told or next(answers)
        made += found.nodes
        began = time.thread_time()
        outputs.add(record, given, found)
        outputs.sums.spend("write", time.thread_time() - began)
        outputs.sums.spend("mend", found.mending)
        outputs.sums.spend("extract", found.reading)
        if found.placing:
            outputs.sums.spend("place", found.placing)
    return made


def _batches(entries: Iterator[_Entry]) -> Iterator[list[_Entry]]:
    batch: list[_Entry] = []
    size = 0
    for entry in entries:
        batch.append(entry)
        size += len(entry.given.body)
        if len(batch) >= _PAGES or size >= _BYTES:
            yield batch
            batch, size = [], 0
    if batch:
        yield batch


def _entries(shard: Shard, options: Options, sums: Sums) -> Iterator[_Entry]:
    """The pages of a shard. Records that are none are counted."""
    began = time.thread_time()
    for record in records(shard.archive, shard.start, shard.end, longest=options.limits.bytes, reader=options.reader):
        sums.tables["totals"]["records"] += 1
        entry = _entry(record, fetched(record, options.limits.bytes), sums)
        if entry is not None:
            sums.spend("read", time.thread_time() - began)
            yield entry
            began = time.thread_time()
    sums.spend("read", time.thread_time() - began)


def _entry(record: Record, page: Fetched | None, sums: Sums) -> _Entry | None:
    if page is None and (not record.fault or (record.kind and record.fault in _WHOLE)):
        sums.skip(record.kind or "record of no kind")
        return None
    if page is None or (page.fault and not page.media_type):
        # Whatever it was, it is lost.
        return _Entry(record, Given(record.address, "html", None, b""), Found("failed", record.fault or (page.fault if page else "")))
    if page.status not in _OK:
        sums.skip(f"status {page.status}")
        return None
    if page.media_type not in PAGE_TYPES:
        sums.skip(page.media_type or "no media type")
        return None
    given = Given(record.address, PAGE_TYPES[page.media_type], page.charset, page.body)
    return _Entry(record, given, Found("failed", page.fault) if page.fault else None)
