"""The data that authors embed in web pages: RDFa 1.1 and Microdata, by an exact grammar.

>>> import rdfax
>>> page = '<html><body about="/anvil"><p property="schema:name">Anvil</p></body></html>'
>>> rdfax.extract(page, "http://h.example/d")
'<http://h.example/anvil> <http://schema.org/name> "Anvil" .\\n'
>>> for subject, predicate, value, graph in rdfax.quads(page, "http://h.example/d"):
...     print(subject, predicate, value.text, graph)
http://h.example/anvil http://schema.org/name Anvil None
>>> rdfax.items('<html><p itemscope><b itemprop="name">Anvil</b></p></html>', "http://h.example/d")
{'items': [{'properties': {'name': ['Anvil']}}]}
>>> rdfax.check("<html><p></html></p>")
Traceback (most recent call last):
  ...
rdfax.errors.Refused: refused: NothingOpen at byte 19 in token 16

A page is bytes in UTF-8, or a text. A page that isn't one by the grammar is refused at its first fault: `Refused` says
why and where. Nothing is guessed.
"""

from __future__ import annotations

from rdfax._version import __version__
from rdfax.errors import BadContext, Error, Refused, Usage
from rdfax.kinds import KINDS, Kind
from rdfax.mending import Mended, NotMended, mend
from rdfax.pages import FORMATS, SYNTAXES, Page, check, extract, items, items_text, quads
from rdfax.places import Place, to_line
from rdfax.shapes import syntaxes
from rdfax.terms import Blank, Iri, Literal, Quad

__all__ = [
    "FORMATS",
    "KINDS",
    "SYNTAXES",
    "BadContext",
    "Blank",
    "Error",
    "Iri",
    "Kind",
    "Literal",
    "Mended",
    "NotMended",
    "Page",
    "Place",
    "Quad",
    "Refused",
    "Usage",
    "__version__",
    "check",
    "extract",
    "items",
    "items_text",
    "mend",
    "quads",
    "syntaxes",
    "to_line",
]
