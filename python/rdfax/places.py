"""Where a fault stands, as a line and a column."""

from __future__ import annotations

import unicodedata
from typing import NamedTuple

from rdfax.errors import Refused
from rdfax.pages import Source, to_bytes

__all__ = ["Place", "caret", "line_at", "printable", "to_line"]

_BYTE_ORDER_MARK = b"\xef\xbb\xbf"
# Of a longer line only what stands about the fault is shown.
_WIDTH = 120


class Place(NamedTuple):
    """A place in a page: its line and its column, each from 1, and what is faulty there.

    A line ends with LF, CR LF or CR. Columns count characters, of which a byte order mark is none; bytes that are no
    UTF-8 count as Python's decoder replaces them.
    """

    line: int
    column: int
    source: str


def _line_start(page: bytes, at: int) -> int:
    start = max(page.rfind(b"\n", 0, at), page.rfind(b"\r", 0, at)) + 1
    marked = start == 0 and page.startswith(_BYTE_ORDER_MARK)
    return min(at, len(_BYTE_ORDER_MARK)) if marked else start


def _line_number(page: bytes, at: int) -> int:
    return 1 + page.count(b"\n", 0, at) + page.count(b"\r", 0, at) - page.count(b"\r\n", 0, at)


def _decoded(piece: bytes) -> str:
    return piece.decode("utf-8", "replace")


def line_at(page: Source, at: int) -> str:
    r"""The line in which this byte of the page stands, without the characters that end it.

    >>> line_at("<html>\n  <p>Anvil", 9)
    '  <p>Anvil'
    """
    held = to_bytes(page)
    start = _line_start(held, at)
    ends = [end for end in (held.find(b"\n", start), held.find(b"\r", start)) if end != -1]
    return _decoded(held[start : min(ends, default=len(held))])


def to_line(page: Source, fault: Refused) -> Place:
    r"""The line and the column at which the faulty token begins, and the token as far as the byte that decides the fault.

    >>> page = "<html>\n  <p>Anvil</b>\n</html>"
    >>> to_line(page, Refused("Mismatch", 20, 17))
    Place(line=2, column=11, source='</b>')
    """
    held = to_bytes(page)
    column = 1 + len(_decoded(held[_line_start(held, fault.token) : fault.token]))
    return Place(_line_number(held, fault.token), column, _decoded(held[fault.token : fault.at + 1]))


def printable(text: str) -> str:
    r"""The text with U+FFFD for each control character but the tab, so that no page can steer a terminal.

    Nor is half a surrogate pair left, as it stands in a file's name that isn't UTF-8.

    >>> printable("a\x1b[31mb")
    'a\ufffd[31mb'
    """
    return "".join("\ufffd" if unicodedata.category(character) in ("Cc", "Cf", "Cs") and character != "\t" else character for character in text)


def _blank(character: str) -> str:
    """White space that is as wide as the character."""
    if character == "\t" or unicodedata.combining(character):
        return "\t" if character == "\t" else ""
    return "  " if unicodedata.east_asian_width(character) in "WF" else " "


def caret(page: Source, fault: Refused) -> str:
    r"""The line in which the faulty token begins, and below it a mark from there to the byte that decides the fault.

    >>> print(caret("<html>\n  <p>Anvil</b>\n</html>", Refused("Mismatch", 20, 17)))
      <p>Anvil</b>
              ^~~~
    """
    held = to_bytes(page)
    line, place = line_at(held, fault.token), to_line(held, fault)
    start = max(0, place.column - 1 - _WIDTH // 2) if len(line) > _WIDTH else 0
    shown, before = printable(line[start : start + _WIDTH]), printable(line[start : place.column - 1])
    length = max(1, min(len(place.source), len(shown) - len(before)))
    return f"{shown}\n{''.join(map(_blank, before))}^{'~' * (length - 1)}"
