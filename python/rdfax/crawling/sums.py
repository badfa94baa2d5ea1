"""What a crawl gave, counted: by outcome, vocabulary, class, property and site."""

from __future__ import annotations

import re
from collections import Counter
from collections.abc import Iterable, Mapping
from typing import Any
from urllib.parse import urlsplit

from rdfax.crawling.pages import Found, Given

__all__ = ["TABLES", "Sums"]

# What is counted, and what it is called in a report.
TABLES = {
    "totals": "In all",
    "outcomes": "Pages by outcome",
    "kinds": "Refused and failed pages by kind",
    "skipped": "Records that are no pages",
    "seconds": "Seconds of processor time by stage",
    "triple_vocabularies": "Triples by vocabulary of the property",
    "triple_classes": "Triples by class",
    "triple_properties": "Triples by property",
    "triple_sites": "Triples by site",
    "item_vocabularies": "Items by vocabulary",
    "item_classes": "Items by class",
    "item_properties": "Properties of items",
    "item_sites": "Items by site",
    "page_sites": "Pages by site",
}
# Of each line of N-Quads its property, and of those with rdf:type their class.
_PROPERTY = re.compile(rb"^[^ ]+ <([^>]*)>", re.MULTILINE)
_CLASS = re.compile(rb"^[^ ]+ <http://www\.w3\.org/1999/02/22-rdf-syntax-ns#type> <([^>]*)>", re.MULTILINE)


class Sums:
    """Counts, each under the name of a table."""

    def __init__(self, tables: Mapping[str, Mapping[str, float]] | None = None) -> None:
        self.tables: dict[str, Counter[str]] = {name: Counter((tables or {}).get(name, {})) for name in TABLES}

    def add(self, other: Sums) -> None:
        """Adds what another one counted."""
        for name, counts in other.tables.items():
            self.tables[name].update(counts)

    def told(self) -> dict[str, dict[str, float]]:
        """The tables as JSON has them, what stands most often first."""
        return {name: dict(sorted(counts.items(), key=lambda count: (-count[1], count[0]))) for name, counts in self.tables.items()}

    def skip(self, why: str) -> None:
        """Counts a record that is no page."""
        self.tables["skipped"][why] += 1

    def spend(self, stage: str, seconds: float) -> None:
        """Counts the time of a stage."""
        self.tables["seconds"][stage] += seconds  # type: ignore[assignment]

    def page(self, given: Given, found: Found, items: list[Any]) -> None:
        """Counts a page."""
        site = urlsplit(given.address).hostname or ""
        totals = self.tables["totals"]
        totals.update({"pages": 1, "bytes": len(given.body)})
        self.tables["outcomes"][f"{found.status}, mended" if found.mended else found.status] += 1
        if found.kind:
            self.tables["kinds"][f"{found.status}: {found.kind}"] += 1
        self.tables["page_sites"][site] += 1
        if found.quads:
            self._quads(found.quads, site)
        if items:
            totals.update({"items": len(items), "pages with items": 1})
            self.tables["item_sites"][site] += len(items)
            for item in items:
                self._item(item)

    def _quads(self, quads: bytes, site: str) -> None:
        properties, classes = Counter(_PROPERTY.findall(quads)), Counter(_CLASS.findall(quads))
        count = properties.total()
        self.tables["totals"].update({"triples": count, "pages with triples": 1})
        self.tables["triple_sites"][site] += count
        for name, times in properties.items():
            self.tables["triple_properties"][text := name.decode()] += times
            self.tables["triple_vocabularies"][vocabulary(text)] += times
        for name, times in classes.items():
            self.tables["triple_classes"][name.decode()] += times

    def _item(self, item: Mapping[str, Any]) -> None:
        types = item.get("type", [])
        self.tables["item_classes"].update(types)
        self.tables["item_vocabularies"].update({vocabulary(name) for name in types} or {"none"})
        for name, values in item.get("properties", {}).items():
            self.tables["item_properties"][name] += len(values)
            for value in values:
                if isinstance(value, dict):
                    self._item(value)

    @classmethod
    def of(cls, all_sums: Iterable[Mapping[str, Mapping[str, float]]]) -> Sums:
        """The sum of many."""
        total = cls()
        for sums in all_sums:
            total.add(cls(sums))
        return total


def vocabulary(name: str) -> str:
    """The vocabulary of a name: the IRI up to its last `#` or `/`.

    >>> vocabulary("http://schema.org/name")
    'http://schema.org/'
    """
    return name[: max(name.rfind("#"), name.rfind("/")) + 1] or name
