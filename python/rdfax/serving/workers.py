"""Processes that read pages, each bounded in memory and time: a hostile page ends one of them, and nothing else."""

from __future__ import annotations

import base64
import json
import multiprocessing
import queue
import resource
import signal
import threading
from collections.abc import Callable
from contextlib import suppress
from multiprocessing.connection import Connection
from multiprocessing.context import ForkServerProcess
from typing import Any, NamedTuple

__all__ = ["Busy", "Limits", "Pool"]

_CONTEXT = multiprocessing.get_context("forkserver")


class Limits(NamedTuple):
    """The bounds of a request: bytes of a page, seconds of work and of waiting, bytes of memory."""

    page: int = 32 << 20
    seconds: float = 10
    waiting: float = 30
    memory: int = 1 << 30
    workers: int = 3


class Busy(Exception):
    """No process came free in time."""


def _fetched(address: str, seconds: float, longest: int, private: bool) -> dict[str, Any]:
    from rdfax.serving.fetching import NotFetched, fetch

    try:
        came = fetch(address, seconds=seconds, longest=longest, private=private)
    except NotFetched as error:
        return {"none": str(error)}
    return {**came._asdict(), "page": base64.b64encode(came.page).decode()}


def _answer(task: str, words: tuple[Any, ...]) -> bytes:
    from rdfax.serving import reading

    if task == "text":
        return reading.text(*words)
    tasks: dict[str, Callable[..., dict[str, Any]]] = {"read": reading.read, "places": reading.places, "mended": reading.mended, "fetch": _fetched}
    return json.dumps(tasks[task](*words)).encode()


def _work(connection: Connection, memory: int) -> None:
    """A process's work: one request after another, until memory is wanting. Nothing is kept of one."""
    signal.signal(signal.SIGINT, signal.SIG_IGN)
    resource.setrlimit(resource.RLIMIT_AS, (memory, memory))
    resource.setrlimit(resource.RLIMIT_CORE, (0, 0))
    while True:
        try:
            task, words = connection.recv()
        except EOFError:
            return
        try:
            answer = _answer(task, words)
        except MemoryError:
            connection.send_bytes(b'{"failed":"The page needs more memory than a request may take."}')
            return
        except (ImportError, ValueError) as error:
            answer = json.dumps({"failed": str(error)}).encode()
        connection.send_bytes(answer)


class _Worker:
    """A process, and the pipe to it."""

    def __init__(self, memory: int) -> None:
        self._ours, its = _CONTEXT.Pipe()
        self._process: ForkServerProcess = _CONTEXT.Process(target=_work, args=(its, memory), daemon=True)
        self._process.start()
        its.close()

    def asked(self, task: str, words: tuple[Any, ...], seconds: float) -> bytes | None:
        """The answer, or none where the process ended; it is ended where it takes too long."""
        timer = threading.Timer(seconds, self._process.kill)
        timer.start()
        try:
            self._ours.send((task, words))
            return self._ours.recv_bytes()
        except (EOFError, OSError):
            return None
        finally:
            timer.cancel()

    def is_alive(self) -> bool:
        """Whether it goes on."""
        return self._process.is_alive()

    def end(self) -> None:
        """Ends the process."""
        self._process.kill()
        self._process.join()
        with suppress(OSError):
            self._ours.close()


class Pool:
    """Some processes, of which each request has one for itself."""

    def __init__(self, limits: Limits) -> None:
        self._limits = limits
        self._free = queue.Queue[_Worker]()
        _CONTEXT.set_forkserver_preload(["rdfax.serving.reading", "rdfax.serving.fetching"])
        for _ in range(limits.workers):
            self._free.put(_Worker(limits.memory))

    def ask(self, task: str, *words: Any, seconds: float | None = None) -> bytes:
        """What comes of the task. Raises `Busy` where no process comes free in time."""
        try:
            worker = self._free.get(timeout=self._limits.waiting)
        except queue.Empty:
            raise Busy from None
        bound = self._limits.seconds if seconds is None else seconds
        answer = None
        try:
            answer = worker.asked(task, words, bound)
        finally:
            if answer is None or answer.startswith(b'{"failed"'):
                worker.end()
                worker = _Worker(self._limits.memory)
            self._free.put(worker)
        if answer is None:
            return json.dumps({"failed": f"The page took more than {bound:g} seconds, or more memory than a request may take."}).encode()
        return answer

    def close(self) -> None:
        """Ends the processes that are free."""
        with suppress(queue.Empty):
            while True:
                self._free.get_nowait().end()
