"""Writes a mended copy of a page: one of the grammar, with the tree that a browser builds of the original.

Each page is mended, also one that would be read as it is. What was changed is said on standard error. What rdfax says of
a mended page is proved of the mended page, and not of the original.
"""

from __future__ import annotations

import argparse
import json
import sys
from collections.abc import Callable

from rdfax.commands.pages import REFUSED, add_syntax, open_page
from rdfax.errors import Refused
from rdfax.mending import MendedText, NotMended, mend

__all__ = ["add_arguments", "run", "write_mended"]


def add_arguments(parser: argparse.ArgumentParser) -> None:
    """Adds the command's options."""
    add_syntax(parser)
    parser.add_argument("--charset", metavar="LABEL", help="the charset that came with the page, as in its Content-Type")
    parser.add_argument("--report", action="store_true", help="say what was changed as one line of JSON")
    parser.add_argument("page", metavar="PAGE", help="the page's file, or - for standard input")


def run(arguments: argparse.Namespace) -> int:
    """Writes the mended page, and answers the status."""
    page = _read(arguments.page)
    try:
        mended = mend(page, arguments.charset, arguments.syntax)
    except NotMended as error:
        print(error, file=sys.stderr)
        return REFUSED
    print(json.dumps(mended.told()) if arguments.report else mended, file=sys.stderr)
    sys.stdout.buffer.write(mended.page)
    sys.stdout.buffer.flush()
    return 0


def _read(name: str) -> bytes:
    with open_page(name) as file:
        return file.read()


def write_mended(name: str, read: Callable[[bytes], str]) -> int:
    """Writes what is read of a page with mending, and says so where it was mended. Answers the status."""
    try:
        text = read(_read(name))
    except (Refused, NotMended) as error:
        print(error, file=sys.stderr)
        return REFUSED
    if isinstance(text, MendedText):
        print(text.mended, file=sys.stderr)
    sys.stdout.buffer.write(text.encode("utf-8"))
    sys.stdout.buffer.flush()
    return 0
