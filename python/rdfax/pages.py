"""Pages: handed over in pieces (`Page`), or whole (`extract`, `quads`, `items`, `check`)."""

from __future__ import annotations

import ctypes
import json
import struct
import threading
import typing
import weakref
from collections.abc import Callable, Iterator
from contextlib import contextmanager
from ctypes import string_at
from typing import Any, NamedTuple, NoReturn

from rdfax import _library
from rdfax._library import Fault, Options, PageHandle, Terms, library
from rdfax.errors import BadContext, Refused, Usage
from rdfax.terms import Blank, Iri, Literal, Object, Quad

if typing.TYPE_CHECKING:
    from rdfax.mending import Mended

__all__ = ["FORMATS", "SYNTAXES", "TASKS", "Format", "Mend", "Page", "Source", "Syntax", "Task", "check", "extract", "items", "items_text", "quads", "to_bytes"]

Source = str | bytes | bytearray | memoryview
Task = typing.Literal["extract", "quads", "items", "check"]
Syntax = typing.Literal["html", "xhtml"]
Format = typing.Literal["nquads", "turtle", "nested", "jsonld"]
# Whether a page is mended before it is read: never, where it is refused for its form, or in any case.
Mend = bool | typing.Literal["always"]

TASKS: tuple[Task, ...] = typing.get_args(Task)
SYNTAXES: tuple[Syntax, ...] = typing.get_args(Syntax)
FORMATS: tuple[Format, ...] = typing.get_args(Format)

_QUADS = len(FORMATS)
# How many bytes are handed over at once: between two calls Python does what else is due, such as an interrupt.
_PIECE = 1 << 20
# How many quads are read at once.
_BATCH = 256
# The options of each task. All have `syntax`.
_OPTIONS = {
    "extract": {"base", "format", "graph", "context", "first_node"},
    "quads": {"base", "graph", "context", "first_node"},
    "items": {"base"},
    "check": {"context"},
}
# What is read of a quad's terms (`Terms`): kind and text of subject, object and graph, the text of the predicate, and the
# language and the datatype of the object; each but the kind as an address and a length. The rest is passed over.
_TERMS = struct.Struct("@I4xPN32x 8xPN32x I4xPNPNPN I4xPN32x")
# What makes a term of its kind, text, language and datatype.
_Make = Callable[[int, bytes, bytes, bytes], Any]


_NOT_OPEN = "no page is open, or it was finished before"


def to_bytes(page: Source) -> bytes:
    """The bytes of a page: a text is taken as UTF-8."""
    if isinstance(page, bytes):
        return page
    return page.encode("utf-8") if isinstance(page, str) else memoryview(page).tobytes()


class Page:
    """A page that is handed over in pieces.

    The task is one of `TASKS`. Each but `check` needs the page's address as `base`. The options are the words of the
    functions of the task's name: an option that the task doesn't have is a `TypeError`, a value that no option has is
    `Usage`. A page is in one call at a time: another one, from another thread, is a `RuntimeError`.

    >>> with Page("extract", "http://h.example/d", format="turtle") as page:
    ...     page.feed(b'<html><p property="schema:na')
    ...     page.feed(b'me">Anvil</p></html>')
    ...     print(page.finish().decode())
    @prefix schema: <http://schema.org/> .
    <BLANKLINE>
    <http://h.example/d> schema:name "Anvil" .
    <BLANKLINE>
    """

    @typing.overload
    def __init__(
        self,
        task: typing.Literal["extract"],
        base: str,
        *,
        syntax: Syntax = ...,
        format: Format = ...,
        graph: str | None = ...,
        context: Source | None = ...,
        first_node: int = ...,
    ) -> None: ...

    @typing.overload
    def __init__(
        self,
        task: typing.Literal["quads"],
        base: str,
        *,
        syntax: Syntax = ...,
        graph: str | None = ...,
        context: Source | None = ...,
        first_node: int = ...,
    ) -> None: ...

    @typing.overload
    def __init__(self, task: typing.Literal["items"], base: str, *, syntax: Syntax = ...) -> None: ...

    @typing.overload
    def __init__(self, task: typing.Literal["check"], *, syntax: Syntax = ..., context: Source | None = ...) -> None: ...

    def __init__(
        self,
        task: Task,
        base: str | None = None,
        *,
        syntax: Syntax = "html",
        format: Format | None = None,
        graph: str | None = None,
        context: Source | None = None,
        first_node: int | None = None,
    ) -> None:
        given = {"base": base, "format": format, "graph": graph, "context": context, "first_node": first_node}
        _check_options(task, given)
        form = _number("format", "nquads" if format is None else format, FORMATS)
        request = Request(task, _number("syntax", syntax, SYNTAXES), base or "", form, graph, context, first_node or 0)
        self._handle = PageHandle()
        self._lock = threading.Lock()
        # Not `__del__`, and not at the interpreter's end: another thread may be in the middle of a call then.
        self._closing = weakref.finalize(self, library().rdfax_close, self._handle)
        self._closing.atexit = False
        status = request.open(self._handle)
        if status == _library.USAGE:
            raise Usage(request.wrong())
        self._answered(status)

    def feed(self, piece: Source) -> None:
        """Hands the next piece over."""
        held = to_bytes(piece)
        with self._alone():
            status = library().rdfax_feed(self._handle, held, len(held))
            self._answered(status)

    def finish(self) -> bytes:
        """The page's end: its text in UTF-8, which is empty where the task is `quads`."""
        with self._alone():
            self._answered(library().rdfax_finish(self._handle))
            return _text_of(self._handle)

    @property
    def nodes(self) -> int:
        """How many blank nodes the graph of a finished page has: their labels go on from `first_node`."""
        with self._alone():
            return int(library().rdfax_nodes(self._handle))

    @property
    def count(self) -> int:
        """How many quads a finished page has, where the task is `quads`."""
        with self._alone():
            return int(library().rdfax_quad_count(self._handle))

    def quads(self) -> Iterator[Quad]:
        """The quads of a page that was finished, one after another, in order of first appearance.

        >>> with Page("quads", "http://h.example/d") as page:
        ...     page.feed('<html><p property="schema:name" lang="en">Anvil</p></html>')
        ...     page.finish()
        ...     [quad.object for quad in page.quads()]
        b''
        [Literal(text='Anvil', language='en', datatype=None)]
        """
        return typing.cast("Iterator[Quad]", map(Quad._make, self.terms(_term)))

    def terms(self, make: _Make) -> Iterator[tuple[Any, Any, Any, Any]]:
        """The quads of a page that was finished, of terms that `make` makes of kind, text, language and datatype."""
        with self._alone():
            count = library().rdfax_quad_count(self._handle)
        lent = Terms()
        for start in range(0, count, _BATCH):
            with self._alone():
                batch = [self._quad(number, lent, make) for number in range(start, min(start + _BATCH, count))]
            yield from batch

    def close(self) -> None:
        """Lets go what is kept of the page."""
        with self._alone():
            self._closing()

    def __enter__(self) -> typing.Self:
        return self

    def __exit__(self, *_: object) -> None:
        self.close()

    def __reduce__(self) -> NoReturn:
        raise TypeError("a Page can be neither pickled nor copied")

    @contextmanager
    def _alone(self) -> Iterator[None]:
        if not self._lock.acquire(blocking=False):
            raise RuntimeError("another thread is in a call with this page")
        try:
            yield
        finally:
            self._lock.release()

    def _quad(self, number: int, lent: Terms, make: _Make) -> tuple[Any, Any, Any, Any]:
        status = library().rdfax_quad(self._handle, number, lent)
        if status:
            self._answered(status, "the page was closed while its quads were read")
        kind, text, length, predicate, predicate_length, object_kind, *value, graph_kind, graph, graph_length = _TERMS.unpack_from(lent)
        return (
            make(kind, string_at(text, length), b"", b""),
            make(_library.IRI, string_at(predicate, predicate_length), b"", b""),
            make(object_kind, string_at(*value[:2]), string_at(*value[2:4]), string_at(*value[4:])),
            make(graph_kind, string_at(graph, graph_length), b"", b"") if graph_kind else None,
        )

    def _answered(self, status: int, usage: str = _NOT_OPEN) -> None:
        _check_status(status, self._handle, usage)


def _check_status(status: int, handle: PageHandle, usage: str = _NOT_OPEN) -> None:
    """Raises what the status of a call says."""
    if status == _library.REFUSED:
        raise _refusal(handle)
    if status == _library.USAGE:
        raise Usage(usage)
    if status == _library.NO_MEMORY:
        raise MemoryError("rdfax: there was no memory")
    if status == _library.BAD_CONTEXT:
        raise BadContext("the context file has another shape, or it is too long")


def _refusal(handle: PageHandle) -> Refused:
    fault = Fault()
    library().rdfax_fault(handle, fault)
    room = (ctypes.c_char * library().rdfax_fault_name(handle, None, 0))()
    library().rdfax_fault_name(handle, room, len(room))
    return Refused(room.raw.decode("ascii"), int(fault.at), int(fault.token))


def _text_of(handle: PageHandle) -> bytes:
    """The text of a finished page."""
    length = library().rdfax_text_length(handle)
    if not length:
        return b""
    room = bytearray(length)
    # (an array of this length would be a class of its own, which takes longer to make than most texts to copy)
    library().rdfax_text(handle, 0, ctypes.byref(ctypes.c_char.from_buffer(room)), length)
    return bytes(room)


class Request(NamedTuple):
    """What is asked for: a page's task, with the numbers of the library and the words."""

    task: Task
    syntax: int
    base: str
    format: int
    graph: str | None
    context: Source | None
    first_node: int

    def open(self, handle: PageHandle) -> int:
        """Opens the page, and answers the library's status."""
        base, graph = _encoded("base", self.base), None if self.graph is None else _encoded("graph's name", self.graph)
        context = None if self.context is None else to_bytes(self.context)
        if self.task == "items":
            return int(library().rdfax_items(self.syntax, base, len(base), handle))
        if self.task == "check":
            return int(library().rdfax_check(self.syntax, context, len(context or b""), handle))
        options = Options(self.syntax, _QUADS if self.task == "quads" else self.format, self.first_node)
        return int(library().rdfax_extract(options, base, len(base), graph, len(graph or b""), context, len(context or b""), handle))

    def wrong(self) -> str:
        """Why the library knows nothing of it."""
        if self.graph is None:
            return f"the base {self.base!r} is no IRI"
        if FORMATS[self.format] != "nquads":
            return f"a text in the format {FORMATS[self.format]} can name no graph"
        return f"the base {self.base!r} or the graph's name {self.graph!r} is no IRI"


def text_and_nodes(request: Request, page: bytes) -> tuple[bytes, int]:
    """The text of a whole page, and how many blank nodes its graph has: what a `Page` does, in fewer steps, for many pages.

    >>> text_and_nodes(Request("extract", 0, "http://h.example/d", 0, None, None, 0), b'<html><p property="schema:name">Anvil</p></html>')
    (b'<http://h.example/d> <http://schema.org/name> "Anvil" .\\n', 0)
    """
    handle, calls = PageHandle(), library()
    try:
        status = request.open(handle)
        if status == _library.USAGE:
            raise Usage(request.wrong())
        _check_status(status or calls.rdfax_feed(handle, page, len(page)) or calls.rdfax_finish(handle), handle)
        return _text_of(handle), int(calls.rdfax_nodes(handle))
    finally:
        calls.rdfax_close(handle)


def _check_options(task: Task, given: dict[str, Any]) -> None:
    """Raises an error where the task is none, or an option was given that it doesn't have."""
    if task not in _OPTIONS:
        raise Usage(f"the task {task!r} is none of {', '.join(TASKS)}")
    wrong = [name for name, value in given.items() if value is not None and name not in _OPTIONS[task]]
    if wrong:
        raise TypeError(f"the task {task} has no option {wrong[0]}")
    if "base" in _OPTIONS[task] and given["base"] is None:
        raise TypeError(f"the task {task} needs a base, which is the page's address")
    if not 0 <= (given["first_node"] or 0) <= 1 << 63:
        raise Usage(f"first_node is from 0 to 2 ** 63, and not {given['first_node']}")


def _number(name: str, value: str, values: tuple[str, ...]) -> int:
    if value not in values:
        raise Usage(f"the {name} {value!r} is none of {', '.join(values)}")
    return values.index(value)


def _encoded(name: str, text: str) -> bytes:
    try:
        return text.encode("utf-8")
    except UnicodeEncodeError:
        raise Usage(f"the {name} {text!r} isn't text in UTF-8") from None


def _term(kind: int, text: bytes, language: bytes, datatype: bytes) -> Object:
    if kind == _library.IRI:
        return Iri(text, "utf-8")
    if kind == _library.BLANK:
        return Blank(text, "utf-8")
    return Literal(text.decode(), language.decode() or None, Iri(datatype, "utf-8") if datatype else None)


def _fed(page: Page, source: Source) -> bytes:
    held = to_bytes(source)
    if len(held) <= _PIECE:
        page.feed(held)
    else:
        for start in range(0, len(held), _PIECE):
            page.feed(held[start : start + _PIECE])
    return page.finish()


def extract(
    page: Source,
    base: str,
    *,
    syntax: Syntax = "html",
    format: Format = "nquads",
    graph: str | None = None,
    context: Source | None = None,
    first_node: int = 0,
    mend: Mend = False,
    charset: str | None = None,
) -> str:
    """The text of the page's triples, in a format of `FORMATS`.

    `base` is the page's address. `graph` names the graph in which the quads stand (N-Quads alone). `context` is the
    content of a context file. The labels of blank nodes are `_:b0`, `_:b1` and so on, from the number `first_node`.
    `mend` is true, for a page that is refused for its form, or "always"; the text of a mended page says so
    (docs/MENDING.md), and `charset` is the label that came with it.

    >>> extract('<html><p property="schema:name" lang="en">Anvil</p></html>', "http://h.example/d", graph="http://h.example/g")
    '<http://h.example/d> <http://schema.org/name> "Anvil"@en <http://h.example/g> .\\n'
    """
    if mend:
        from rdfax import mending

        return mending.extracted(page, base, mend, charset=charset, syntax=syntax, format=format, graph=graph, context=context, first_node=first_node)
    with Page("extract", base, syntax=syntax, format=format, graph=graph, context=context, first_node=first_node) as opened:
        return _fed(opened, page).decode("utf-8")


def quads(
    page: Source,
    base: str,
    *,
    syntax: Syntax = "html",
    graph: str | None = None,
    context: Source | None = None,
    first_node: int = 0,
    mend: Mend = False,
    charset: str | None = None,
) -> Iterator[Quad]:
    """The page's triples, one after another; the words are those of `extract`.

    >>> next(quads('<html><p property="schema:name" lang="en">Anvil</p></html>', "http://h.example/d")).object
    Literal(text='Anvil', language='en', datatype=None)
    """
    if mend:
        from rdfax import mending

        return mending.quads_told(page, base, mend, charset=charset, syntax=syntax, graph=graph, context=context, first_node=first_node)
    opened = Page("quads", base, syntax=syntax, graph=graph, context=context, first_node=first_node)
    _fed(opened, page)
    return _and_close(opened)


def _and_close(opened: Page) -> Iterator[Quad]:
    with opened:
        yield from opened.quads()


def items_text(page: Source, base: str, *, syntax: Syntax = "html", mend: Mend = False, charset: str | None = None) -> str:
    """The JSON text of the page's items (Microdata), as the HTML Standard has it, and a line feed.

    >>> items_text('<html><p itemscope itemtype="http://schema.org/Thing"></p></html>', "http://h.example/d")
    '{"items":[{"properties":{},"type":["http://schema.org/Thing"]}]}\\n'
    """
    if mend:
        from rdfax import mending

        return mending.items_told(page, base, mend, charset=charset, syntax=syntax)
    with Page("items", base, syntax=syntax) as opened:
        return _fed(opened, page).decode("utf-8")


def items(page: Source, base: str, *, syntax: Syntax = "html", mend: Mend = False, charset: str | None = None) -> dict[str, Any]:
    """The page's items (Microdata), as the HTML Standard's JSON has them.

    >>> items('<html><p itemscope><b itemprop="name">Anvil</b></p></html>', "http://h.example/d")
    {'items': [{'properties': {'name': ['Anvil']}}]}
    """
    found: dict[str, Any] = json.loads(items_text(page, base, syntax=syntax, mend=mend, charset=charset))
    return found


def check(page: Source, *, syntax: Syntax = "html", context: Source | None = None, mend: Mend = False, charset: str | None = None) -> Mended | None:
    """Nothing where the page is one of the grammar and nothing in it is refused; else `Refused` is raised. With `mend`
    the mended page, where it was mended.

    >>> check("<html><p>Anvil</html>")
    >>> check("<html><p>Anvil")
    Traceback (most recent call last):
      ...
    rdfax.errors.Refused: refused: Unended at byte 14 in token 14
    """
    if mend:
        from rdfax import mending

        return mending.checked(page, mend, charset=charset, syntax=syntax, context=context)
    with Page("check", syntax=syntax, context=context) as opened:
        _fed(opened, page)
    return None
