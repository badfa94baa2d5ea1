"""Writes what pages say, and why they are refused, as one HTML file that opens without a server.

The file is written to standard output. A page's address is --base where one is named, with one page; else it is the file's.
Needs CodeMirror: on Debian the package libjs-codemirror, and graphviz for the drawings.
"""

from __future__ import annotations

import argparse
import sys
from pathlib import Path

from rdfax.commands.pages import UNREADABLE, add_syntax, open_page
from rdfax.progress import progress

__all__ = ["add_arguments", "run"]


def add_arguments(parser: argparse.ArgumentParser) -> None:
    """Adds the command's options."""
    add_syntax(parser)
    parser.add_argument("--base", metavar="IRI", help="the page's address, where there is one page")
    parser.add_argument("pages", nargs="+", metavar="PAGE", help="a page's file, or - for standard input")


def _base_of(name: str, base: str | None) -> str:
    if base is not None:
        return base
    return "http://localhost/stdin" if name == "-" else Path(name).absolute().as_uri()


def run(arguments: argparse.Namespace) -> int:
    """Writes the report, and answers the status: 0, or 3 where a file couldn't be read."""
    from rdfax.serving.report import Page, told_of, written

    if arguments.base is not None and len(arguments.pages) > 1:
        print("rdfax: --base is the address of one page", file=sys.stderr)
        return 2
    told, status = [], 0
    for name in progress(arguments.pages, total=len(arguments.pages), unit="page"):
        try:
            with open_page(name) as file:
                told.append(told_of(Page(name, file.read(), _base_of(name, arguments.base), arguments.syntax)))
        except OSError as error:
            print(f"{name}: {error.strerror}", file=sys.stderr)
            status = UNREADABLE
    if told:
        sys.stdout.write(written(told))
    return status
