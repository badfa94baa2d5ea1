"""Pages and threads: one call at a time, a page that is collected anywhere, and errors that go through a pool of processes."""

from __future__ import annotations

import gc
import multiprocessing
import pickle
import subprocess
import sys
import threading
from concurrent.futures import ProcessPoolExecutor, ThreadPoolExecutor
from typing import Any

import pytest

import rdfax
from rdfax.rdflib_parser import PageRefused

BASE = "http://h.example/d"
# A page that takes some tenths of a second in one call.
LONG = b"<html>" + b'<p property="schema:name">Anvil</p>' * 200_000 + b"</html>"


def test_a_call_while_another_goes_on_is_an_error() -> None:
    page = rdfax.Page("extract", BASE)
    begun = threading.Barrier(8)

    def feed() -> type[BaseException] | None:
        begun.wait()
        try:
            page.feed(LONG)
        except (RuntimeError, rdfax.Refused) as error:
            return type(error)
        return None

    with ThreadPoolExecutor(8) as pool:
        came = [future.result() for future in [pool.submit(feed) for _ in range(8)]]
    assert RuntimeError in came
    page.close()


def test_a_page_may_go_from_thread_to_thread() -> None:
    page = rdfax.Page("extract", BASE)
    for piece in (b"<html><p property='schema:name'>", b"Anvil</p>", b"</html>"):
        thread = threading.Thread(target=page.feed, args=[piece])
        thread.start()
        thread.join()
    assert page.finish() == b'<http://h.example/d> <http://schema.org/name> "Anvil" .\n'
    page.close()


def test_threads_have_pages_of_their_own() -> None:
    def name(number: int) -> str:
        return rdfax.extract(f'<html><p property="schema:name">{number}</p></html>', BASE)

    with ThreadPoolExecutor(8) as pool:
        for number, text in enumerate(pool.map(name, range(2000))):
            assert text == f'<http://h.example/d> <http://schema.org/name> "{number}" .\n'


def test_a_page_that_was_left_is_collected_on_another_thread() -> None:
    def leave() -> None:
        page = rdfax.Page("extract", BASE)
        page.feed(LONG[:100_000])
        around = [page]
        around.append(around)  # type: ignore[arg-type]

    leave()
    collecting = threading.Thread(target=gc.collect)
    collecting.start()
    collecting.join()
    assert not [found for found in gc.get_objects() if isinstance(found, rdfax.Page)]


ENDINGS = {
    "an open page": "page = rdfax.Page('extract', 'http://h.example/d'); page.feed(b'<html>')",
    "a page in a cycle": "page = rdfax.Page('check'); page.feed(b'<html>'); page.own = page",
    "a page that a thread is in": """
import threading, time
page = rdfax.Page('extract', 'http://h.example/d')
page.feed(b'<html>')
def feed():
    while True:
        page.feed(b'<p property="schema:name">Anvil</p>' * 20_000)
threading.Thread(target=feed, daemon=True).start()
time.sleep(0.2)
""",
    "a page that a thread feeds": """
import atexit, threading, time
atexit.register(time.sleep, 0.2)  # (what the package does at the end is done before this, so that the thread would meet it)
page = rdfax.Page('extract', 'http://h.example/d')
def feed():
    while True:
        page.feed(b' ')
        time.sleep(0.01)
threading.Thread(target=feed, daemon=True).start()
""",
    "quads that are half read": """
found = rdfax.quads('<html><p property="schema:name">1</p><p property="schema:name">2</p></html>', 'http://h.example/d')
next(found)
""",
}


@pytest.mark.parametrize("ending", ENDINGS.values(), ids=ENDINGS)
def test_the_interpreter_ends_in_order(ending: str) -> None:
    done = subprocess.run([sys.executable, "-X", "dev", "-c", f"import rdfax\n{ending}"], capture_output=True, text=True, check=False)
    assert (done.returncode, done.stderr) == (0, "")


ALL_ERRORS = [
    rdfax.Refused("Mismatch", 20, 17),
    rdfax.Usage("the base 'd' is no IRI"),
    rdfax.BadContext("the context file has another shape, or it is too long"),
    PageRefused("Mismatch", 20, 17, BASE, 2, 11, "</b>"),
]


@pytest.mark.parametrize("error", ALL_ERRORS, ids=repr)
@pytest.mark.parametrize("protocol", range(pickle.HIGHEST_PROTOCOL + 1))
def test_errors_pickle(error: rdfax.Error, protocol: int) -> None:
    came = pickle.loads(pickle.dumps(error, protocol))
    assert (type(came), str(came), came.args, vars(came)) == (type(error), str(error), error.args, vars(error))


def _ask(words: tuple[Any, ...]) -> str:
    page, base, options = words
    return rdfax.extract(page, base, **options)


@pytest.mark.parametrize("method", ["fork", "spawn", "forkserver"])
def test_errors_come_through_a_pool_of_processes(method: str) -> None:
    asked: list[tuple[tuple[Any, ...], type[Exception]]] = [
        (("<html><p>", BASE, {}), rdfax.Refused),
        (("<html></html>", "d", {}), rdfax.Usage),
        (("<html></html>", BASE, {"context": b"[]"}), rdfax.BadContext),
    ]
    with ProcessPoolExecutor(1, mp_context=multiprocessing.get_context(method)) as pool:
        for words, error in asked:
            with pytest.raises(error):
                pool.submit(_ask, words).result()
        assert pool.submit(_ask, ("<html></html>", BASE, {})).result() == ""
