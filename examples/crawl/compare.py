"""Compares what a crawl without mending wrote with what the calls of one page give, one page after another.

    python3 compare.py OUT

Each shard's quads and items have to be the same byte for byte, once blank nodes are numbered through. Status 1: they aren't.
"""

import gzip
import json
import re
import sys
from pathlib import Path

import rdfax
from rdfax.archives import PAGE_TYPES, fetched, records

NODE = re.compile(r"(?m)(?:^|^\S+ \S+ )(_:b\d+)")


def single(shard):
    """The quads and the items of a shard's pages, and how many pages there are."""
    quads, items, nodes, pages = [], [], 0, 0
    for record in records(shard["archive"], shard["start"], shard["end"]):
        page = fetched(record)
        if not page or page.status != 200 or page.media_type not in PAGE_TYPES or page.fault:
            continue
        pages += 1
        syntax = PAGE_TYPES[page.media_type]
        try:
            text = rdfax.extract(page.body, record.address, graph=record.address, first_node=nodes, syntax=syntax)
            items += rdfax.items(page.body, record.address, syntax=syntax)["items"]
        except rdfax.Refused as refused:
            text = f"# {refused} of {record.address}\n"
        nodes += len(set(NODE.findall(text)))
        quads.append(text)
    return "".join(quads).encode(), items, pages


def main():
    """Compares all shards."""
    count, size, wrong = 0, 0, []
    for folder in sorted(Path(sys.argv[1]).glob("shards/*")):
        quads, items, pages = single(json.loads((folder / "sums.json").read_text())["shard"])
        written = [json.loads(line)["item"] for line in gzip.decompress((folder / "items.jsonl.gz").read_bytes()).splitlines()]
        if quads != gzip.decompress((folder / "quads.nq.gz").read_bytes()) or items != written:
            wrong.append(folder.name)
        count, size = count + pages, size + len(quads)
    print(f"{count:,} pages one after another, {size:,} bytes: {len(wrong)} shards differ {' '.join(wrong)}".rstrip())
    sys.exit(1 if wrong else 0)


if __name__ == "__main__":
    main()
