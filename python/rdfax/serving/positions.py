"""Places in a page as an editor has them: a line, and a place in it that counts UTF-16 units, each from 0."""

from __future__ import annotations

from collections.abc import Iterable

__all__ = ["positions"]

_BYTE_ORDER_MARK = b"\xef\xbb\xbf"


def _units(text: str) -> int:
    return len(text) if text.isascii() else len(text.encode("utf-16-le", "surrogatepass")) // 2


def positions(page: bytes, offsets: Iterable[int]) -> list[tuple[int, int]]:
    r"""The line and the place in it of each byte. A line ends with LF, CR LF or CR; a byte order mark counts as nothing.

    >>> positions("<p>\r\n\U0001f600 Anvil".encode(), [5, 9])
    [(1, 0), (1, 2)]
    """
    wanted = list(offsets)
    line = unit = 0
    at = len(_BYTE_ORDER_MARK) if page.startswith(_BYTE_ORDER_MARK) else 0
    found = dict[int, tuple[int, int]]()
    for offset in sorted(set(wanted)):
        piece = page[at:offset].decode("utf-8", "replace").replace("\r\n", "\n").replace("\r", "\n")
        line += piece.count("\n")
        unit = _units(piece.rpartition("\n")[2]) + (0 if "\n" in piece else unit)
        at = max(at, offset)
        found[offset] = (line, unit)
    return [found[offset] for offset in wanted]
