"""What the commands on pages share: their options, and how a page is read."""

from __future__ import annotations

import argparse
import sys
from contextlib import AbstractContextManager, nullcontext
from pathlib import Path
from typing import IO

from rdfax.errors import Refused
from rdfax.pages import SYNTAXES, Page

__all__ = ["REFUSED", "UNREADABLE", "add_syntax", "context_of", "open_page", "write_text"]

# The statuses of the command `rdfax`.
REFUSED, UNREADABLE = 1, 3
# How many bytes of a page are read at once.
_PIECE = 1 << 16


def add_syntax(parser: argparse.ArgumentParser) -> None:
    """Adds the option for the page's syntax."""
    parser.add_argument("--syntax", choices=SYNTAXES, default="html", help="the page's syntax, which is HTML where none is named")


def add_context(parser: argparse.ArgumentParser) -> None:
    """Adds the option for a context file."""
    parser.add_argument("--context", metavar="FILE", help="a JSON file of prefixes and terms, which hold in place of the standard ones")


def add_base(parser: argparse.ArgumentParser) -> None:
    """Adds the option for the page's address, and the page."""
    parser.add_argument("--base", metavar="IRI", required=True, help="the page's address")
    parser.add_argument("--mend", action="store_true", help="mend the page where it is refused for its form, and say so")
    parser.add_argument("--charset", metavar="LABEL", help="the charset that came with the page, for mending")
    parser.add_argument("page", metavar="PAGE", help="the page's file, or - for standard input")


def context_of(arguments: argparse.Namespace) -> bytes | None:
    """The content of the context file, if one is named."""
    return None if arguments.context is None else Path(arguments.context).read_bytes()


def open_page(name: str) -> AbstractContextManager[IO[bytes]]:
    """The page's file, or standard input, which stays open."""
    if name == "-":
        return nullcontext(sys.stdin.buffer)
    return Path(name).open("rb")


def write_text(page: Page, name: str) -> int:
    """Reads the page's file, and writes its text; or says that it is refused. Answers the status."""
    with page, open_page(name) as file:
        try:
            while piece := file.read(_PIECE):
                page.feed(piece)
            text = page.finish()
        except Refused as refused:
            print(refused, file=sys.stderr)
            return REFUSED
    sys.stdout.buffer.write(text)
    sys.stdout.buffer.flush()
    return 0
