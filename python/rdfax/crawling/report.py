"""The report of a crawl: as text, as JSON, and as one HTML page with plots."""

from __future__ import annotations

import html
import json
from collections.abc import Iterator, Mapping
from pathlib import Path
from typing import Any, NamedTuple

from rdfax.crawling.sums import TABLES, Sums

__all__ = ["Report", "write_report"]

# As many lines has a table in the text and on the page; the JSON has all.
_LINES = 20
_STYLE = "body{font:15px/1.4 sans-serif;margin:2em auto;max-width:60em}td,th{text-align:left;padding:0 .6em}td.n{text-align:right}svg{display:block}"
_BAR, _WIDTH, _NAMES = 18, 860, 420


class Report(NamedTuple):
    """What a crawl gave: the sums of the shards that are done, and what isn't done."""

    sums: Sums
    archives: list[str]
    shards: int
    undone: list[str]
    doubles: list[str]

    def told(self) -> dict[str, Any]:
        """The report as JSON has it."""
        return {"archives": self.archives, "the same as another": self.doubles, "shards": self.shards, "undone": self.undone, **self.sums.told()}

    def head(self) -> str:
        """What came of the crawl, in one line."""
        totals, outcomes = self.sums.tables["totals"], self.sums.tables["outcomes"]
        said = [f"{count:,} {name}" for name, count in sorted(outcomes.items())]
        undone = f"; {len(self.undone):,} of {self.shards:,} shards undone" if self.undone else ""
        pages, triples, items = (int(totals[name]) for name in ("pages", "triples", "items"))
        return f"{pages:,} pages: {', '.join(said) or 'none'}; {triples:,} triples, {items:,} items{undone}"


def write_report(out: Path, report: Report) -> None:
    """Writes report.txt, report.json and report.html, each whole."""
    texts = {"report.json": json.dumps(report.told(), ensure_ascii=False, indent=1) + "\n", "report.txt": _text(report), "report.html": _page(report)}
    for name, text in texts.items():
        part = out / "tmp" / name
        part.write_text(text, encoding="utf-8")
        part.replace(out / name)


def _rows(counts: Mapping[str, float]) -> Iterator[tuple[str, float, str]]:
    """The first lines of a table: name, count, and the count as it is shown. What is left is summed up."""
    told = list(counts.items())
    if len(told) > _LINES + 1:
        told, rest = told[:_LINES], told[_LINES:]
        told.append((f"({len(rest):,} others)", sum(count for _, count in rest)))
    for name, count in told:
        yield name, count, f"{count:,}" if isinstance(count, int) else f"{count:,.1f}"


def _tables(report: Report) -> Iterator[tuple[str, list[tuple[str, float, str]]]]:
    for name, counts in report.sums.told().items():
        if counts:
            yield TABLES[name], list(_rows(counts))


def _text(report: Report) -> str:
    lines = [report.head(), f"{len(report.archives):,} archives, {report.shards:,} shards"]
    lines += [f"the same archive as another: {path}" for path in report.doubles] + [f"undone: {name}" for name in report.undone]
    for title, rows in _tables(report):
        width = max(len(shown) for _, _, shown in rows)
        lines += ["", title, *(f"  {shown:>{width}}  {name}" for name, _, shown in rows)]
    return "\n".join(lines) + "\n"


def _page(report: Report) -> str:
    parts = [
        f'<!DOCTYPE html>\n<html lang="en"><head><meta charset="utf-8"><title>Crawl</title><style>{_STYLE}</style></head><body>',
        f"<h1>Crawl</h1><p>{html.escape(report.head())}</p><p>{len(report.archives):,} archives, {report.shards:,} shards</p>",
        *(f"<h2>{html.escape(title)}</h2>{_plot(rows)}" for title, rows in _tables(report)),
        "</body></html>\n",
    ]
    return "\n".join(parts)


def _plot(rows: list[tuple[str, float, str]]) -> str:
    """A table as bars."""
    most = max(count for _, count, _ in rows) or 1
    bars = []
    for number, (name, count, shown) in enumerate(rows):
        y, room = number * _BAR, _WIDTH - _NAMES - 100
        short = name if len(name) <= 60 else f"{name[:28]}…{name[-30:]}"
        bars.append(
            f'<text x="0" y="{y + 13}" font-size="12">{html.escape(short)}<title>{html.escape(name)}</title></text>'
            f'<rect x="{_NAMES}" y="{y + 3}" width="{max(1, room * count / most):.0f}" height="12" fill="#4a7ab0"></rect>'
            f'<text x="{_NAMES + max(1, room * count / most) + 6:.0f}" y="{y + 13}" font-size="12">{shown}</text>'
        )
    height = len(rows) * _BAR + 4
    return f'<svg width="{_WIDTH}" height="{height}" viewBox="0 0 {_WIDTH} {height}" role="img">{"".join(bars)}</svg>'
