"""The calls of the shared object, as include/rdfax.h declares them."""

from __future__ import annotations

import ctypes
import functools
import os
from pathlib import Path
from typing import Any

__all__ = ["BAD_CONTEXT", "DONE", "NO_MEMORY", "REFUSED", "USAGE", "Fault", "Options", "PageHandle", "Terms", "library"]

SONAME = "librdfax.so.0"

DONE, REFUSED, USAGE, NO_MEMORY, BAD_CONTEXT = 0, 1, 2, 5, 6
NOTHING, IRI, BLANK, LITERAL = range(4)


class PageHandle(ctypes.Structure):
    """`rdfax_page`: what the library keeps of a page."""

    _fields_ = [("at", ctypes.c_void_p), ("opened", ctypes.c_bool)]


class Options(ctypes.Structure):
    """`rdfax_options`: how a page's triples are wanted."""

    _fields_ = [("syntax", ctypes.c_uint32), ("format", ctypes.c_uint32), ("first_node", ctypes.c_uint64)]


class Fault(ctypes.Structure):
    """`rdfax_fault_place`: the fault of a refused page."""

    _fields_ = [("kind", ctypes.c_uint32), ("token", ctypes.c_uint64), ("at", ctypes.c_uint64)]


class Bytes(ctypes.Structure):
    """`rdfax_bytes`: bytes that the library lends."""

    _fields_ = [("bytes", ctypes.c_void_p), ("length", ctypes.c_size_t)]


class Term(ctypes.Structure):
    """`rdfax_term`: a term of a quad."""

    _fields_ = [("kind", ctypes.c_uint32), ("text", Bytes), ("language", Bytes), ("datatype", Bytes)]


class Terms(ctypes.Structure):
    """`rdfax_terms`: the terms of a quad."""

    _fields_ = [("subject", Term), ("predicate", Term), ("object", Term), ("graph", Term)]


_PAGE = ctypes.POINTER(PageHandle)
_TEXT, _ROOM, _SIZE, _NUMBER = ctypes.c_char_p, ctypes.c_void_p, ctypes.c_size_t, ctypes.c_uint32
_CALLS = {
    "rdfax_extract": ([ctypes.POINTER(Options), _TEXT, _SIZE, _TEXT, _SIZE, _TEXT, _SIZE, _PAGE], _NUMBER),
    "rdfax_items": ([_NUMBER, _TEXT, _SIZE, _PAGE], _NUMBER),
    "rdfax_check": ([_NUMBER, _TEXT, _SIZE, _PAGE], _NUMBER),
    "rdfax_feed": ([_PAGE, _TEXT, _SIZE], _NUMBER),
    "rdfax_finish": ([_PAGE], _NUMBER),
    "rdfax_text_length": ([_PAGE], _SIZE),
    "rdfax_text": ([_PAGE, _SIZE, _ROOM, _SIZE], _SIZE),
    "rdfax_fault": ([_PAGE, ctypes.POINTER(Fault)], ctypes.c_bool),
    "rdfax_fault_name": ([_PAGE, _ROOM, _SIZE], _SIZE),
    "rdfax_nodes": ([_PAGE], ctypes.c_uint64),
    "rdfax_quad_count": ([_PAGE], _SIZE),
    "rdfax_quad": ([_PAGE, _SIZE, ctypes.POINTER(Terms)], _NUMBER),
    "rdfax_close": ([_PAGE], None),
}


class LibraryMissing(ImportError):
    """The shared object isn't there."""


def _candidates() -> list[str]:
    named = os.environ.get("RDFAX_LIBRARY")
    if named:
        return [named]
    beside = Path(__file__).resolve().parent / SONAME
    return [str(beside), SONAME] if beside.exists() else [SONAME]


def _opened() -> ctypes.CDLL:
    said = []
    for name in _candidates():
        try:
            return ctypes.CDLL(name)
        except OSError as error:
            said.append(str(error))
    raise LibraryMissing(f"the shared object isn't there ({'; '.join(said)}); RDFAX_LIBRARY may name it")


@functools.cache
def library() -> Any:
    """The shared object: the one that RDFAX_LIBRARY names, else the one beside this package, else the system's."""
    opened = _opened()
    for name, (given, answer) in _CALLS.items():
        call = getattr(opened, name)
        call.argtypes, call.restype = given, answer
    return opened
