"""Checks pages, and shows where each refused one is faulty.

For each refused page there is a line `FILE:LINE:COLUMN: error: KIND: what is wrong`, which editors read, and below it the
line of the page, a mark, and how the page is mended. The status is 0 where each page is read, 1 where one is refused, and
3 where a file couldn't be read.
"""

from __future__ import annotations

import argparse
import json
import os
import sys
from collections import Counter
from collections.abc import Iterator
from typing import Any, NamedTuple, TextIO

from rdfax.commands.pages import REFUSED, UNREADABLE, add_context, add_syntax, context_of, open_page
from rdfax.errors import Refused
from rdfax.kinds import KINDS
from rdfax.pages import check
from rdfax.places import caret, printable, to_line
from rdfax.progress import progress, write

__all__ = ["add_arguments", "run"]


class Finding(NamedTuple):
    """What is wrong with a page, and where."""

    file: str
    line: int
    column: int
    kind: str
    message: str
    mended: str
    at: int
    token: int
    shown: str


def add_arguments(parser: argparse.ArgumentParser) -> None:
    """Adds the command's options."""
    add_syntax(parser)
    add_context(parser)
    parser.add_argument("--format", choices=("text", "json", "github"), default="text", help="text, a JSON array, or annotations of GitHub's workflows")
    parser.add_argument("pages", nargs="+", metavar="PAGE", help="a page's file, or - for standard input")


def run(arguments: argparse.Namespace) -> int:
    """Checks each page, and answers the status."""
    checking = _Checking(arguments.syntax, context_of(arguments))
    names = progress(arguments.pages, total=len(arguments.pages), unit="page")
    writer = {"text": _write_text, "json": _write_json, "github": _write_github}[arguments.format]
    writer(checking.findings(names), sys.stdout)
    print(checking.sum(), file=sys.stderr)
    return UNREADABLE if checking.unreadable else REFUSED if checking.refused else 0


class _Checking:
    """Checks pages, and counts what comes of them."""

    def __init__(self, syntax: str, context: bytes | None) -> None:
        self._options: dict[str, Any] = {"syntax": syntax, "context": context}
        self.read = self.unreadable = 0
        self.refused: Counter[str] = Counter()

    def findings(self, names: Iterator[str]) -> Iterator[Finding]:
        """What is wrong with each page that is refused. Files that can't be read are told on standard error."""
        for name in names:
            try:
                with open_page(name) as file:
                    page = file.read()
            except OSError as error:
                write(f"{printable(name)}: {error.strerror}", sys.stderr)
                self.unreadable += 1
                continue
            try:
                check(page, **self._options)
                self.read += 1
            except Refused as refused:
                self.refused[refused.kind] += 1
                yield _finding("<stdin>" if name == "-" else name, page, refused)

    def sum(self) -> str:
        """How many pages are read and refused."""
        said = [f"{self.read:,} read", f"{self.refused.total():,} refused"]
        if self.refused:
            said[1] += f" ({', '.join(f'{kind} {count:,}' for kind, count in self.refused.most_common())})"
        if self.unreadable:
            said.append(f"{self.unreadable:,} unreadable")
        total = self.read + self.refused.total() + self.unreadable
        return f"{total:,} page{'' if total == 1 else 's'}: {', '.join(said)}"


def _finding(name: str, page: bytes, refused: Refused) -> Finding:
    place, kind = to_line(page, refused), KINDS[refused.kind]
    message = printable(kind.told(place.source))
    return Finding(printable(name), place.line, place.column, kind.name, message, kind.mended, refused.at, refused.token, caret(page, refused))


def _write_text(findings: Iterator[Finding], out: TextIO) -> None:
    coloured = out.isatty() and "NO_COLOR" not in os.environ and os.environ.get("TERM") != "dumb"
    bold, red, green, plain = ("\x1b[1m", "\x1b[1;31m", "\x1b[1;32m", "\x1b[0m") if coloured else ("", "", "", "")
    for finding in findings:
        line, mark = finding.shown.split("\n")
        place = f"{finding.file}:{finding.line}:{finding.column}"
        head = f"{bold}{place}:{plain} {red}error:{plain} {bold}{finding.kind}: {finding.message}{plain}"
        write(f"{head}\n{line}\n{green}{mark}{plain}\nhelp: {finding.mended}", out)


def _write_json(findings: Iterator[Finding], out: TextIO) -> None:
    told = [finding._asdict() for finding in findings]
    json.dump(told, out, indent=2)
    out.write("\n")


def _write_github(findings: Iterator[Finding], out: TextIO) -> None:
    for finding in findings:
        place = f"file={_escaped(finding.file, ':,')},line={finding.line},col={finding.column},title={finding.kind}"
        write(f"::error {place}::{_escaped(f'{finding.message}. {finding.mended}')}", out)


def _escaped(text: str, more: str = "") -> str:
    """The text as a workflow command's value, in which some characters stand as their numbers."""
    return "".join(f"%{ord(character):02X}" if character in "%\r\n" + more else character for character in text)
