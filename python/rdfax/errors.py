"""Why there is no answer: the page is refused, the words are wrong, or the context file is."""

from __future__ import annotations

__all__ = ["BadContext", "Error", "Refused", "Usage"]


class Error(ValueError):
    """Any of the errors below. Want of memory is Python's own `MemoryError`."""


class Refused(Error):
    """The page has a fault: its kind, the byte that decides it, and the first byte of the token that has it.

    Bytes are counted from the page's first one, which is 0. `rdfax.KINDS` says of each kind what is wrong and how
    the page is mended; `rdfax.to_line` tells line and column.

    >>> error = Refused("Unended", 18, 18)
    >>> print(error, error.kind, error.at, error.token, sep="; ")
    refused: Unended at byte 18 in token 18; Unended; 18; 18
    """

    def __init__(self, kind: str, at: int, token: int) -> None:
        super().__init__(kind, at, token)
        self.kind = kind
        self.at = at
        self.token = token

    def __str__(self) -> str:
        return f"refused: {self.kind} at byte {self.at} in token {self.token}"


class Usage(Error):
    """What was asked for is nothing that rdfax does: the base or the graph's name is no IRI, say."""


class BadContext(Error):
    """The context file has another shape, or it is too long."""
