"""Who has the shards done: this process, one after another, or Dask's distributed scheduler."""

from __future__ import annotations

import itertools
import logging
import tempfile
import typing
from collections.abc import Callable, Iterable, Iterator
from typing import Any, Protocol, Self

from rdfax.errors import Error

__all__ = ["Engine", "SchedulerLost", "engine"]

# How many tasks the scheduler is told of at once, for each thread of the workers: it needn't hold millions.
_AHEAD = 4
_WANTED = "a crawl by workers needs Dask's package distributed (the extra `crawl`); --workers 0 goes without"

Task = Any
# A task, and its answer, or none where the workers that did it ended.
Done = tuple[Task, Any]


class SchedulerLost(Error):
    """Dask's scheduler is gone. What was done stays."""


class Engine(Protocol):
    """Has tasks done."""

    def __enter__(self) -> Self: ...

    def __exit__(self, *_: object) -> None: ...

    def do(self, work: Callable[..., Any], tasks: Iterable[tuple[Any, ...]]) -> Iterator[Done]:
        """Each task with its answer, as they come. An error of the work itself ends all."""
        ...


class _Here:
    """Does tasks in this process."""

    def __enter__(self) -> Self:
        return self

    def __exit__(self, *_: object) -> None:
        pass

    def do(self, work: Callable[..., Any], tasks: Iterable[tuple[Any, ...]]) -> Iterator[Done]:
        for task in tasks:
            yield task, work(*task)


# A task whose worker ends is given back at once. What Dask watches and keeps of itself a hundred times a second takes much of
# a processor, and more memory the longer it runs. (A scheduler and workers that run already have their own configuration.)
_CONFIGURATION = {
    "distributed.scheduler.allowed-failures": 0,
    "distributed.comm.timeouts.connect": "10s",
    "distributed.worker.profile.enabled": False,
    "distributed.admin.tick.interval": "500ms",
    "distributed.admin.system-monitor.interval": "5s",
}


class _Dask:
    """Has tasks done by the workers of a scheduler that runs, or of a cluster on this machine."""

    def __init__(self, scheduler: str | None, workers: int) -> None:
        import dask
        from distributed import Client

        # What the scheduler's and a worker's end come to is told by who calls.
        for name in ("distributed", "distributed.client"):
            logging.getLogger(name).setLevel(logging.CRITICAL)
        dask.config.set(_CONFIGURATION)
        self._room: tempfile.TemporaryDirectory[str] | None = None
        if scheduler:
            self._client = Client(scheduler)
        else:
            # (without a folder of their own the workers would make one where the command was begun)
            self._room = tempfile.TemporaryDirectory(prefix="rdfax-crawl.", ignore_cleanup_errors=True)
            words = {"n_workers": workers, "threads_per_worker": 1, "processes": True, "memory_limit": None, "dashboard_address": None}
            self._client = Client(**words, silence_logs=logging.CRITICAL, local_directory=self._room.name)

    def __enter__(self) -> Self:
        return self

    def __exit__(self, *_: object) -> None:
        self._client.close()
        if self._room:
            self._room.cleanup()

    def do(self, work: Callable[..., Any], tasks: Iterable[tuple[Any, ...]]) -> Iterator[Done]:
        """What a worker's end lost is done once more, one task at a time: then one that ends its worker takes no other along."""
        lost = []
        for task, answer in self._once(work, tasks, _AHEAD * max(1, sum(self._client.nthreads().values()))):
            if answer is None:
                lost.append(task)
            else:
                yield task, answer
        yield from self._once(work, lost, 1)

    def _once(self, work: Callable[..., Any], tasks: Iterable[tuple[Any, ...]], ahead: int) -> Iterator[Done]:
        from distributed import as_completed

        left, known = iter(tasks), {}

        def submitted(count: int) -> list[Any]:
            futures = []
            for task in itertools.islice(left, count):
                future = self._client.submit(work, *task, pure=False)
                known[future.key] = task
                futures.append(future)
            return futures

        running = as_completed(submitted(ahead))
        for future in running:
            yield known.pop(future.key), self._answer(future)
            for more in submitted(1):
                running.add(more)

    def _answer(self, future: Any) -> Any:
        from concurrent.futures import CancelledError

        from distributed import KilledWorker
        from distributed.comm.core import CommClosedError

        try:
            if future.status == "finished":
                return future.result()
            error = future.exception()
        except (CommClosedError, CancelledError):
            error = None
        if error is None or isinstance(error, CancelledError):
            # A task that is neither done nor wrong was forgotten by the scheduler.
            raise SchedulerLost("Dask's scheduler is gone; the same command goes on")
        if isinstance(error, KilledWorker):
            return None
        raise error


def engine(scheduler: str | None, workers: int) -> Engine:
    """Dask's, or this process where there are to be no workers."""
    if workers == 0 and scheduler is None:
        return _Here()
    try:
        return typing.cast(Engine, _Dask(scheduler, workers))
    except ImportError as error:
        raise ImportError(f"{_WANTED} ({error})") from None
