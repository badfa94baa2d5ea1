"""Where the original of a mended page says what the mended page says: the places of quads and items.

The mender keeps for each start tag of the mended page the place of the token that made its element, and the second readings
(`rdfax.serving`) tell which element said what. They are Python's: a page takes some ten times as long as its reading by the
library, so nothing is traced that isn't asked for, nor is a page of more than `LONGEST` bytes.
"""

from __future__ import annotations

import typing
from collections.abc import Sequence
from typing import Any

from rdfax.pages import Source, quads, to_bytes
from rdfax.serving import item_elements, origins
from rdfax.serving.names import STANDARD, context_of
from rdfax.terms import Quad

if typing.TYPE_CHECKING:
    from rdfax.mending import Mended

__all__ = ["LONGEST", "place_items", "places_of_quads"]

LONGEST = 1_000_000


def places_of_quads(mended: Mended, base: str, told: Sequence[Quad] | None = None, context: Source | None = None) -> list[int] | None:
    """Of each quad, in the library's order, the first byte of the token in the original that made the element which said it.

    `told` are the library's quads of the mended page, where they are known. None where the page is too long, or where the
    second reading says another thing than the library.
    """
    if len(mended.page) > LONGEST:
        return None
    found = origins.find(mended.page, base, syntax=mended.syntax, context=STANDARD if context is None else context_of(to_bytes(context)))
    if told is None:
        told = list(quads(mended.page, base, syntax=mended.syntax, context=context))
    agreed = origins.places_of(found, told)
    return None if agreed is None else [mended.original(origin.span[0]) for origin in agreed]


def place_items(mended: Mended, items: Sequence[dict[str, Any]]) -> bool:
    """Gives each item, those among the values of properties too, a member `place`: as for quads. Whether it could."""
    if len(mended.page) > LONGEST:
        return False
    found = item_elements.find(mended.page, mended.syntax)
    if not item_elements.agrees(found, items):
        return False
    for item, told in item_elements.pairs(found, items):
        told["place"] = mended.original(item.span[0])
    return True
