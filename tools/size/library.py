"""The library: each reason for which a page isn't opened, and faults at the end of a page, told as what they are."""

from __future__ import annotations

import ctypes
import importlib
import os
import sys
from collections.abc import Callable, Iterable
from functools import partial
from typing import Any

from answers import HERE
from size.cases import ADDRESS, Cases

DONE, REFUSED, USAGE, NO_MEMORY, BAD_CONTEXT = 0, 1, 2, 5, 6
STATUSES = {DONE: "done", REFUSED: "refused", USAGE: "usage", NO_MEMORY: "want of memory", BAD_CONTEXT: "bad context"}
LARGEST_FIRST, LARGEST_CONTEXT = 1 << 63, 65_536
QUADS = 4
FORBIDDEN = [*range(0x21), *b'<>"{}|\\^`']
NO_IRIS = [
    b"", b"d", b"/d", b"//h/d", b"#f", b":a", b"1a:b", b"a b:c", "é:a".encode(), b"\xff",
    b"http://h.example/\x80", b"http://h.example/\xc3", b"http://h.example/\xed\xa0\x80",
]
BAD_CONTEXTS = [
    b"", b" ", b"[]", b"7", b'"a"', b"null", b"{", b"{}}", b'{"prefixes":[]}',
    b'{"prefixes":{"e":1}}', b'{"terms":{"e":null}}', b'{"others":{}}', b'{"prefixes":{},"x":1}',
    b'{"prefixes":{"e":"v"}}', b'{"prefixes":{"e":"http://v.example/ a"}}',
    b'{"prefixes":{"_":"http://v.example/"}}', b'{"prefixes":{"1":"http://v.example/"}}',
    b'{"prefixes":{"":"http://v.example/"}}', b'{"prefixes":{"e":"http://v.example/","E":"http://w.example/"}}', b'{"terms":{"a b":"http://v.example/"}}',
    b"{'prefixes':{}}", b'{"prefixes":{},}', b'\xff{}', b'{"prefixes":{"e":"http://v.example/\xff"}}', b"\xef\xbb\xbf{}",
]
GOOD_CONTEXTS = [b"{}", b' {"prefixes":{"e":"http://v.example/"},"terms":{"t":"a:"}}\n', b'{"prefixes":1,"prefixes":{}}']


class Calls:
    """The calls of the library, as the package for Python has them, with what was opened kept until it is closed."""

    def __init__(self, library: str) -> None:
        os.environ["RDFAX_LIBRARY"] = library
        sys.path.insert(0, os.path.join(HERE, "python"))
        self.package: Any = importlib.import_module("rdfax")
        self.low: Any = importlib.import_module("rdfax._library")
        self.library: Any = self.low.library()

    def page(self) -> Any:
        return self.low.PageHandle()

    def extract(
        self, page: Any, *, syntax: int = 0, form: int = 0, first: int = 0,
        base: bytes = ADDRESS.encode(), graph: bytes | None = None, context: bytes | None = None,
    ) -> int:
        options = self.low.Options(syntax, form, first)
        words = [ctypes.byref(options), base, len(base), graph, len(graph or b""), context, len(context or b""), ctypes.byref(page)]
        return int(self.library.rdfax_extract(*words))

    def items(self, page: Any, *, syntax: int = 0, base: bytes = ADDRESS.encode()) -> int:
        return int(self.library.rdfax_items(syntax, base, len(base), ctypes.byref(page)))

    def check(self, page: Any, *, syntax: int = 0, context: bytes | None = None) -> int:
        return int(self.library.rdfax_check(syntax, context, len(context or b""), ctypes.byref(page)))

    def read(self, page: Any, content: bytes) -> int:
        """Hands a page over, to its end."""
        status = int(self.library.rdfax_feed(ctypes.byref(page), content, len(content)))
        return status or int(self.library.rdfax_finish(ctypes.byref(page)))

    def text(self, page: Any) -> bytes:
        room = (ctypes.c_char * int(self.library.rdfax_text_length(ctypes.byref(page))))()
        self.library.rdfax_text(ctypes.byref(page), 0, room, len(room))
        return bytes(room.raw)

    def fault(self, page: Any) -> tuple[int, int, int] | None:
        """Kind, byte and token of the page's fault, where it has one."""
        place = self.low.Fault()
        return (place.kind, place.at, place.token) if self.library.rdfax_fault(ctypes.byref(page), ctypes.byref(place)) else None

    def close(self, page: Any) -> None:
        self.library.rdfax_close(ctypes.byref(page))


Opens = Callable[[Any], int]


def _opening(calls: Calls, name: str, opens: Opens, status: int) -> tuple[str, str | None]:
    """A call that opens a page, or doesn't. Where it does, a page is read to its end."""
    page = calls.page()
    found = opens(page)
    if found == DONE:
        read = calls.read(page, b"<html></html>")
        found = found if read == DONE else read
    calls.close(page)
    told = f"{STATUSES.get(found, found)}, where {STATUSES[status]} is right"
    return name, None if found == status else told


def _each(values: Iterable[Any], what: str) -> Iterable[tuple[str, Any]]:
    return ((f"{what} {value!r:.60}", value) for value in values)


def numbers(calls: Calls) -> Cases:
    for name, syntax in _each((2, 3, 255, 1 << 31, (1 << 32) - 1), "syntax"):
        yield _opening(calls, f"{name}, extract", partial(calls.extract, syntax=syntax), USAGE)
        yield _opening(calls, f"{name}, items", partial(calls.items, syntax=syntax), USAGE)
        yield _opening(calls, f"{name}, check", partial(calls.check, syntax=syntax), USAGE)
    for name, form in _each((5, 6, 255, (1 << 32) - 1), "format"):
        yield _opening(calls, name, partial(calls.extract, form=form), USAGE)
    for name, first in _each((LARGEST_FIRST + 1, (1 << 64) - 1), "first node"):
        yield _opening(calls, name, partial(calls.extract, first=first), USAGE)
    for name, first in _each((1, LARGEST_FIRST - 1, LARGEST_FIRST), "first node"):
        yield _opening(calls, name, partial(calls.extract, first=first), DONE)


def addresses(calls: Calls) -> Cases:
    wrong = [*NO_IRIS, *(b"http://h.example/a" + bytes([byte]) + b"z" for byte in FORBIDDEN)]
    for name, base in _each(wrong, "address"):
        for form in range(QUADS + 1):
            yield _opening(calls, f"{name}, format {form}", partial(calls.extract, base=base, form=form), USAGE)
        yield _opening(calls, f"{name}, items", partial(calls.items, base=base), USAGE)
    for name, graph in _each(wrong, "graph"):
        for form in (0, QUADS):
            yield _opening(calls, f"{name}, format {form}", partial(calls.extract, graph=graph, form=form), USAGE)
    for form in (1, 2, 3):
        yield _opening(calls, f"a graph's name with format {form}", partial(calls.extract, graph=b"http://h.example/g", form=form), USAGE)
    allowed = [byte for byte in range(0x21, 0x80) if byte not in FORBIDDEN]
    right = [
        b"a:", b"http://h.example/" + "é😀".encode(), b"http://h.example/" + b"a" * 100_000,
        *(b"http://h.example/a" + bytes([byte]) + b"z" for byte in allowed),
    ]
    for name, base in _each(right, "address"):
        yield _opening(calls, f"{name}, extract", partial(calls.extract, base=base), DONE)
        yield _opening(calls, f"{name}, items", partial(calls.items, base=base), DONE)
        yield _opening(calls, f"{name} as a graph", partial(calls.extract, graph=base), DONE)


def contexts(calls: Calls) -> Cases:
    longest = b'{"prefixes":{"e":"http://v.example/' + b"a" * (LARGEST_CONTEXT - 38) + b'"}}'
    assert len(longest) == LARGEST_CONTEXT
    for name, context in _each([*BAD_CONTEXTS, longest + b" ", b"{}" + b" " * LARGEST_CONTEXT], "context"):
        for form in range(QUADS + 1):
            yield _opening(calls, f"{name}, format {form}", partial(calls.extract, context=context, form=form), BAD_CONTEXT)
        yield _opening(calls, f"{name}, check", partial(calls.check, context=context), BAD_CONTEXT)
    for name, context in _each([*GOOD_CONTEXTS, longest], "context"):
        yield _opening(calls, f"{name}, extract", partial(calls.extract, context=context), DONE)
        yield _opening(calls, f"{name}, check", partial(calls.check, context=context), DONE)
    many = b'{"prefixes":{' + b",".join(b'"p%d":"http://v.example/%d/"' % (number, number) for number in range(1500)) + b"}}"
    yield _opening(calls, "a context of 1,500 prefixes", partial(calls.extract, context=many, form=1), DONE)


def _ends(calls: Calls, name: str, opens: Opens, content: bytes, wanted: tuple[str, int, int]) -> tuple[str, str | None]:
    """A page whose fault is known at its end alone: each piece is taken, and then each further call gives that fault."""
    page = calls.page()
    kind = calls.package.KINDS[wanted[0]].number
    if opens(page) != DONE:
        return name, "the page isn't opened"
    fed = [int(calls.library.rdfax_feed(ctypes.byref(page), content[at : at + 7], len(content[at : at + 7]))) for at in range(0, max(len(content), 1), 7)]
    ends = [int(calls.library.rdfax_finish(ctypes.byref(page))) for _ in range(2)]
    again = int(calls.library.rdfax_feed(ctypes.byref(page), b"", 0))
    fault, text = calls.fault(page), calls.text(page)
    calls.close(page)
    found = (set(fed), ends, again, fault, text)
    right = ({DONE}, [REFUSED, REFUSED], REFUSED, (kind, *wanted[1:]), b"")
    return name, None if found == right else f"found {found}, where {right} is right"


def faults_at_the_end(calls: Calls) -> Cases:
    unended = b"<html><body><p>a"
    for form in range(QUADS + 1):
        yield _ends(calls, f"Unended, format {form}", partial(calls.extract, form=form), unended, ("Unended", 16, 16))
    yield _ends(calls, "Unended, items", calls.items, unended, ("Unended", 16, 16))
    yield _ends(calls, "Unended, check", calls.check, unended, ("Unended", 16, 16))
    yield _ends(calls, "nothing at all, extract", calls.extract, b"", ("Unended", 0, 0))
    pair = b'<p id="a" itemprop="n" itemscope itemref="b"></p><p id="b" itemprop="n" itemscope itemref="a"></p>'
    cycle = b'<html><body><p itemscope itemref="a"></p>' + pair + b"</body></html>"
    second = cycle.index(b'<p id="a"')
    yield _ends(calls, "Cycle, items", calls.items, cycle, ("Cycle", cycle.index(b">", second), second))
    deep = b'<html><body><p itemscope>' + b'<b itemprop="n" itemscope>' * 40 + b"</b>" * 40 + b"</p></body></html>"
    last = deep.rindex(b"<b itemprop")
    yield _ends(calls, "ItemsTooNested, items", calls.items, deep, ("ItemsTooNested", deep.index(b">", last), last))
    cell = '<b id="{0}{1}" itemprop="{0}" itemscope itemref="i{2} j{2}"></b>'
    cells = "".join(cell.format(front, number, number + 1) for number in range(17) for front in "ij").encode()
    many = b'<html><body><p itemscope itemref="i0 j0"></p>' + cells + b"</body></html>"
    yield _too_many(calls, many)


def _too_many(calls: Calls, content: bytes) -> tuple[str, str | None]:
    """More than 100,000 visits: the fault's kind; its place is where the visit lies."""
    page = calls.page()
    status, again = calls.items(page) or calls.read(page, content), int(calls.library.rdfax_finish(ctypes.byref(page)))
    fault = calls.fault(page)
    calls.close(page)
    right = (status, again) == (REFUSED, REFUSED) and fault is not None and fault[0] == calls.package.KINDS["ItemsTooMany"].number
    return "ItemsTooMany, items", None if right else f"{STATUSES.get(status, status)}, {again}, {fault}"


def exceptions(calls: Calls) -> Cases:
    """The same as the package raises them."""
    rdfax = calls.package
    rows: list[tuple[str, type[BaseException], Callable[[], object]]] = [
        ("a forbidden address", rdfax.Usage, lambda: rdfax.extract("<html></html>", "http://h.example/a b")),
        ("a forbidden address of items", rdfax.Usage, lambda: rdfax.items("<html></html>", "http://h.example/<")),
        ("a forbidden graph", rdfax.Usage, lambda: rdfax.extract("<html></html>", ADDRESS, graph="http://h.example/{")),
        ("a bad context", rdfax.BadContext, lambda: rdfax.extract("<html></html>", ADDRESS, context=b"[]")),
        ("a bad context of a check", rdfax.BadContext, lambda: rdfax.check("<html></html>", context=b"{")),
        ("a fault at the end", rdfax.Refused, lambda: rdfax.extract("<html>", ADDRESS)),
        ("a fault at the end of items", rdfax.Refused, lambda: rdfax.items("<html>", ADDRESS)),
        ("a fault at the end of quads", rdfax.Refused, lambda: list(rdfax.quads("<html>", ADDRESS))),
    ]
    for name, kind, call in rows:
        try:
            call()
            yield name, "no exception"
        except Exception as error:  # noqa: BLE001
            yield name, None if type(error) is kind else f"{error!r}, where {kind.__name__} is right"


GROUPS: list[Callable[[Calls], Cases]] = [numbers, addresses, contexts, faults_at_the_end, exceptions]
