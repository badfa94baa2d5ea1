"""rdfax in rdflib: from files, bytes, texts and responses, in graphs and in datasets, beside pyRdfa and without it."""

from __future__ import annotations

import http.server
import importlib.metadata
import io
import json
import subprocess
import sys
import threading
import venv
from collections.abc import Callable, Iterator
from functools import partial
from pathlib import Path
from typing import Any, ClassVar

import pytest
import rdflib
import rdflib.exceptions
from rdflib.compare import isomorphic
from rows import TOP, Row, rows

import rdfax
from rdfax.rdflib_parser import PageRefused

BASE = "http://h.example/d"
SCHEMA = rdflib.Namespace("http://schema.org/")
PAGE = '<html><body about="/anvil" lang="en"><p property="schema:name">Ambo\u00df</p></body></html>'
TRIPLE = (rdflib.URIRef("http://h.example/anvil"), SCHEMA.name, rdflib.Literal("Ambo\u00df", lang="en"))
FAULTY = "<html>\n<body>\n</p>"
# What rdflib needs, and Debian has in one folder with pyRdfa.
NEEDED = (
    "rdflib",
    "rdflib-*",
    "pyparsing",
    "pyparsing-*",
    "isodate",
    "isodate-*",
    "six.py",
    "six-*",
    "html5lib",
    "html5lib-*",
    "webencodings",
    "webencodings-*",
)


@pytest.fixture
def folder(tmp_path: Path) -> Path:
    (tmp_path / "page.html").write_text(PAGE, encoding="utf-8")
    (tmp_path / "page.xhtml").write_text("<html about='/anvil' lang='en'><p property='schema:name'>Ambo\u00df</p><p/></html>", encoding="utf-8")
    (tmp_path / "faulty.html").write_text(FAULTY)
    return tmp_path


@pytest.fixture
def server(folder: Path) -> Iterator[str]:
    class Handler(http.server.SimpleHTTPRequestHandler):
        extensions_map: ClassVar[dict[str, str]] = {".html": "text/html; charset=utf-8", ".xhtml": "application/xhtml+xml"}

        def do_GET(self) -> None:
            if self.path != "/moved":
                return super().do_GET()
            self.send_response(301)
            self.send_header("Location", "/page.html")
            self.end_headers()

        def log_message(self, *_: Any) -> None:
            pass

    with http.server.ThreadingHTTPServer(("127.0.0.1", 0), partial(Handler, directory=folder)) as serving:
        threading.Thread(target=serving.serve_forever, daemon=True).start()
        yield f"http://127.0.0.1:{serving.server_port}"
        serving.shutdown()


SOURCES: dict[str, Callable[[Path], dict[str, Any]]] = {
    "a file's name": lambda folder: {"source": str(folder / "page.html")},
    "a path": lambda folder: {"source": folder / "page.html"},
    "a location": lambda folder: {"location": str(folder / "page.html")},
    "a file of bytes": lambda folder: {"file": (folder / "page.html").open("rb")},
    "a file of text": lambda folder: {"file": (folder / "page.html").open(encoding="utf-8")},
    "a stream of bytes": lambda folder: {"source": io.BytesIO(PAGE.encode())},
    "a stream of text": lambda folder: {"source": io.StringIO(PAGE)},
    "bytes": lambda folder: {"data": PAGE.encode()},
    "bytes as source": lambda folder: {"source": PAGE.encode()},
    "a text": lambda folder: {"data": PAGE},
}


@pytest.mark.parametrize("source", SOURCES.values(), ids=SOURCES)
def test_pages_from_everywhere(source: Callable[[Path], dict[str, Any]], folder: Path) -> None:
    graph = rdflib.Graph()
    assert graph.parse(**source(folder), format="rdfax", publicID=BASE) is graph
    assert list(graph) == [TRIPLE]


def test_a_file_s_address_is_its_own(folder: Path) -> None:
    (triple,) = rdflib.Graph().parse(folder / "page.html", format="rdfax")
    assert triple[0] == rdflib.URIRef("file:///anvil")


@pytest.mark.parametrize("path", ["page.html", "page.xhtml", "moved"])
def test_a_response(server: str, path: str) -> None:
    (triple,) = rdflib.Graph().parse(f"{server}/{path}", format="rdfax")
    assert triple == (rdflib.URIRef(f"{server}/anvil"), *TRIPLE[1:])


@pytest.mark.parametrize("row", [row for row in rows("extract") if row.status == 0 and row.words.get("format", "nquads") == "nquads"], ids=lambda row: row.name)
def test_a_page_gives_the_graph_of_its_text(row: Row) -> None:
    words = {name: value for name, value in row.words.items() if name in ("syntax", "context")}
    ours = rdflib.Graph().parse(data=row.page, format="rdfax", publicID=row.words["base"], **words)
    text = rdfax.extract(row.page, row.words["base"], **words)  # type: ignore[arg-type]
    assert isomorphic(ours, rdflib.Graph().parse(data=text, format="nt"))


def test_a_page_that_is_refused_adds_nothing_and_says_where(folder: Path) -> None:
    graph = rdflib.Graph()
    graph.add(TRIPLE)
    with pytest.raises(rdflib.exceptions.ParserError, match=r"http://h.example/d:3:1: Mismatch: </p> ends nothing that is open") as caught:
        graph.parse(folder / "faulty.html", format="rdfax", publicID=BASE)
    refused = caught.value
    assert isinstance(refused, PageRefused) and isinstance(refused, rdfax.Refused)
    assert (refused.kind, refused.line, refused.column, refused.at, refused.token, refused.address) == ("Mismatch", 3, 1, 17, 14, BASE)
    assert list(graph) == [TRIPLE]


def test_a_page_needs_its_address() -> None:
    with pytest.raises(rdfax.Usage, match="publicID"):
        rdflib.Graph().parse(data=PAGE, format="rdfax")


@pytest.mark.parametrize("kind", [rdflib.Dataset, rdflib.ConjunctiveGraph])
def test_a_dataset_gets_the_page_s_graph_name(kind: type[rdflib.ConjunctiveGraph]) -> None:
    dataset = kind()
    for number in range(2):
        dataset.parse(data=PAGE, format="rdfax", publicID=f"{BASE}{number}")
    found = {(*quad[:3], rdflib.URIRef(str(getattr(quad[3], "identifier", quad[3])))) for quad in dataset.quads((None, None, None, None))}
    if kind is rdflib.ConjunctiveGraph and rdflib.__version__ >= "7":
        pytest.skip("from rdflib 7 on a ConjunctiveGraph parses into its default graph")
    assert found == {(*TRIPLE, rdflib.URIRef(f"{BASE}{number}")) for number in range(2)}


def test_pages_share_no_blank_node() -> None:
    graph = rdflib.Graph()
    for _ in range(2):
        graph.parse(data='<html><p typeof="schema:Offer"></p></html>', format="rdfax", publicID=BASE)
    assert len(graph) == 2


def _environment(folder: Path, names: tuple[str, ...]) -> Path:
    """The Python of a fresh environment with rdfax, and with what has these names in Debian's folder."""
    venv.create(folder / "environment", with_pip=True, symlinks=True)
    python = folder / "environment" / "bin" / "python"
    subprocess.run([python, "-m", "pip", "install", "--quiet", "--no-index", TOP / "python"], check=True)
    site = next((folder / "environment" / "lib").glob("python*/site-packages"))
    for name in names:
        for path in Path(rdflib.__file__).parents[1].glob(name):
            (site / path.name).symlink_to(path)
    return python


def _pyrdfa_has_the_name() -> bool:
    """Whether the pyRdfa that is there has a parser of that name: 3.5 has, and 3.6 hasn't."""
    found = importlib.metadata.distributions(name="pyRdfa3", path=[str(Path(rdflib.__file__).parents[1])])
    return any(entry.group == "rdf.plugins.parser" and entry.name == "rdfa" for each in found for entry in each.entry_points)


@pytest.mark.parametrize("beside", [False, True], ids=["without pyRdfa", "with pyRdfa"])
def test_the_format_rdfa_is_ours_where_no_other_has_the_name(tmp_path: Path, beside: bool) -> None:
    python = _environment(tmp_path, NEEDED + (("pyRdfa", "pyRdfa3-*") if beside else ()))
    script = f"""
import json, rdflib, rdflib.plugin, rdflib.parser
parser = rdflib.plugin.get("rdfa", rdflib.parser.Parser)()
found = [triple for triple in rdflib.Graph().parse(data={PAGE!r}, format="rdfax", publicID={BASE!r})]
print(json.dumps([type(parser).__module__, len(found)]))
"""
    done = subprocess.run([python, "-I", "-c", script], capture_output=True, text=True, check=True)
    is_theirs = beside and _pyrdfa_has_the_name()
    assert json.loads(done.stdout) == ["pyRdfa.rdflibparsers" if is_theirs else "rdfax.rdflib_parser", 1]
    if not is_theirs:
        script = script.replace('format="rdfax"', 'format="rdfa"')
        assert json.loads(subprocess.run([python, "-I", "-c", script], capture_output=True, text=True, check=True).stdout)[1] == 1


def test_rdflib_has_the_package_s_parsers() -> None:
    assert sys.modules["rdfax.rdflib_parser"]
    assert rdflib.plugin.get("rdfax", rdflib.parser.Parser).__module__ == "rdfax.rdflib_parser"
