"""Writes the Microdata of a page as JSON."""

from __future__ import annotations

import argparse

from rdfax.commands.mend import write_mended
from rdfax.commands.pages import add_base, add_syntax, write_text
from rdfax.pages import Page, items_text

__all__ = ["add_arguments", "run"]


def add_arguments(parser: argparse.ArgumentParser) -> None:
    """Adds the command's options."""
    add_syntax(parser)
    add_base(parser)


def run(arguments: argparse.Namespace) -> int:
    """Writes the page's items, and answers the status."""
    if arguments.mend:
        return write_mended(arguments.page, lambda page: items_text(page, arguments.base, syntax=arguments.syntax, mend=True, charset=arguments.charset))
    return write_text(Page("items", arguments.base, syntax=arguments.syntax), arguments.page)
