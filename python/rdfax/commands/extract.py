"""Writes the RDFa of a page as N-Quads, Turtle or JSON-LD."""

from __future__ import annotations

import argparse

from rdfax.commands.mend import write_mended
from rdfax.commands.pages import add_base, add_context, add_syntax, context_of, write_text
from rdfax.pages import FORMATS, Page, extract

__all__ = ["add_arguments", "run"]


def add_arguments(parser: argparse.ArgumentParser) -> None:
    """Adds the command's options."""
    add_syntax(parser)
    parser.add_argument("--format", choices=FORMATS, default="nquads", help="the form of the triples, which is N-Quads where none is named")
    parser.add_argument("--graph", metavar="IRI", help="the name of the graph in which the quads stand, with N-Quads alone")
    add_context(parser)
    add_base(parser)


def run(arguments: argparse.Namespace) -> int:
    """Writes the page's triples, and answers the status."""
    if arguments.mend:
        options = {name: getattr(arguments, name) for name in ("syntax", "format", "graph", "charset")}
        return write_mended(arguments.page, lambda page: extract(page, arguments.base, context=context_of(arguments), mend=True, **options))
    page = Page("extract", arguments.base, syntax=arguments.syntax, format=arguments.format, graph=arguments.graph, context=context_of(arguments))
    return write_text(page, arguments.page)
