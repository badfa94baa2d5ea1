"""The child that reads pages in a worker's stead, bounded in time and memory: a page that takes more ends the child.

A batch of pages is handed over from memory, and an answer comes for each. Where the child ends, its page is tried once
more in a new one, and told as failed where it ends that too; the others of the batch aren't lost. A child goes on from
shard to shard, since its start takes as long as many pages.
"""

from __future__ import annotations

import contextlib
import multiprocessing
import os
import resource
import select
import signal
import subprocess
import sys
import threading
import time
from collections.abc import Iterator
from multiprocessing.connection import Connection
from typing import Any, Self

from rdfax.crawling.options import Options
from rdfax.crawling.pages import Found, Given, read

__all__ = ["Reader", "main", "reader"]

# Beside the seconds of processor time that a page may take, so many times as many of the clock's.
_PATIENCE = 20
# So many children may end before they have begun.
_STARTS = 3
# After so many pages a child makes place for a new one, whatever its memory has come to.
_MOST_PAGES = 100_000
_kept = threading.local()


class Reader:
    """Reads pages in a child, which is begun anew where a page ended it, and goes on where none did."""

    def __init__(self, options: Options) -> None:
        self.options = options
        self._process: subprocess.Popen[bytes] | None = None
        self._link: Any = None
        self._ready = select.poll()
        self._pages = 0

    def __enter__(self) -> Self:
        return self

    def __exit__(self, kind: object, *_: object) -> None:
        # (where something went wrong, answers may be on their way still)
        if kind is not None or self._pages > _MOST_PAGES:
            self.end()

    def read(self, pages: list[Given], first_node: int) -> Iterator[Found]:
        """What came of each page."""
        left, tried = pages, False
        while left:
            answered = 0
            for found in self._answers(left, first_node):
                if found.status == "failed" and found.kind in _ENDED and not tried:
                    tried = True
                    break
                tried = False
                first_node += found.nodes
                answered += 1
                yield found
            left = left[answered:]

    def _answers(self, pages: list[Given], first_node: int) -> Iterator[Found]:
        """The answers of one child: the last one may be that it ended."""
        if self._process is None:
            self._begin()
        try:
            self._link.send((pages, first_node))
            self._pages += len(pages)
            for _ in pages:
                if not self._ready.poll(self.options.limits.seconds * _PATIENCE * 1000):
                    yield self._ended("TooSlow")
                    return
                found = self._link.recv()
                if found.kind == "NoMemory":
                    self.end()
                yield found
                if self._process is None:
                    return
        except (EOFError, OSError):
            yield self._ended("")

    def _begin(self) -> None:
        for _ in range(_STARTS):
            with contextlib.suppress(EOFError, ConnectionError):
                return self._start()
            self.end()
        raise ChildProcessError("the children of the crawl end at their start")

    def _start(self) -> None:
        self._link, its = multiprocessing.Pipe()
        words = [sys.executable, "-c", "from rdfax.crawling.child import main; main()", str(its.fileno())]
        package = os.path.dirname(os.path.dirname(os.path.dirname(os.path.abspath(__file__))))
        path = os.pathsep.join([package, *filter(None, [os.environ.get("PYTHONPATH")])])
        self._process = subprocess.Popen(words, pass_fds=[its.fileno()], stdin=subprocess.DEVNULL, env={**os.environ, "PYTHONPATH": path})
        its.close()
        self._ready, self._pages = select.poll(), 0
        self._ready.register(self._link, select.POLLIN)
        self._link.send(self.options)
        if not self._link.poll(_PATIENCE * self.options.limits.seconds):
            raise TimeoutError("a child of the crawl doesn't begin")
        fault = self._link.recv()
        if fault is not None:
            raise fault

    def _ended(self, kind: str) -> Found:
        """The failure of the page that ended the child."""
        process = self._process
        assert process is not None
        if not kind:
            try:
                process.wait(1)
            except subprocess.TimeoutExpired:
                process.kill()
        self.end()
        number = -process.returncode
        return Found("failed", kind or ("TooSlow" if number == signal.SIGXCPU else "Ended"))

    def end(self) -> None:
        """Ends the child."""
        if self._process is not None:
            self._process.kill()
            self._process.wait()
            self._link.close()
        self._process = None


def reader(options: Options) -> Reader:
    """The reader of this thread, whose child may have read other shards by the same options."""
    known: Reader | None = getattr(_kept, "reader", None)
    if known is None or known.options != options:
        if known is not None:
            known.end()
        known = _kept.reader = Reader(options)
    return known


# Failures of a child, and not of a page that it read.
_ENDED = ("TooSlow", "Ended", "NoMemory")


def main() -> None:
    """Reads the pages that come, and answers what they gave, until the parent is gone."""
    link = Connection(int(sys.argv[1]))
    signal.signal(signal.SIGINT, signal.SIG_IGN)
    options = link.recv()
    try:
        _prepare(options)
    except (ImportError, OSError, MemoryError) as error:
        link.send(error)
        return
    link.send(None)
    try:
        while True:
            pages, first_node = link.recv()
            for page in pages:
                found = _bounded(page, first_node, options)
                first_node += found.nodes
                link.send(found)
                if found.kind == "NoMemory":
                    return
    except (EOFError, BrokenPipeError, ConnectionResetError):
        pass


def _prepare(options: Options) -> None:
    """Loads what is needed, and then bounds the memory."""
    from rdfax._library import library

    library()
    if options.mend:
        from rdfax.mending import mend

        mend(b"<p>")
    resource.setrlimit(resource.RLIMIT_CORE, (0, 0))
    with open("/proc/self/statm", encoding="ascii") as told:
        held = int(told.read().split()[0]) * resource.getpagesize()
    most = held + (options.limits.mebibytes << 20)
    resource.setrlimit(resource.RLIMIT_AS, (most, most))


def _bounded(page: Given, first_node: int, options: Options) -> Found:
    """Reads a page in so many seconds of processor time, at whose end the system ends this process."""
    _, hard = resource.getrlimit(resource.RLIMIT_CPU)
    resource.setrlimit(resource.RLIMIT_CPU, (int(time.process_time()) + 1 + options.limits.seconds, hard))
    try:
        return read(page, first_node, options)
    except MemoryError:
        return Found("failed", "NoMemory")
