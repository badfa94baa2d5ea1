"""Crawls: what they write, whatever ends in their midst."""

from __future__ import annotations

import contextlib
import csv
import gzip
import importlib.util
import io
import json
import os
import re
import shutil
import signal
import socket
import subprocess
import sys
import time
from collections.abc import Callable, Iterator
from pathlib import Path
from typing import Any

import pytest
import web
from test_archives import record, response, written

import rdfax
from rdfax.crawling import child
from rdfax.crawling.options import Options
from rdfax.crawling.pages import Given

HERE = Path(__file__).resolve().parent
needs_dask = pytest.mark.skipif(importlib.util.find_spec("distributed") is None, reason="distributed isn't installed")
LIST = "<html vocab='http://schema.org/'><p typeof='Offer'><b property='price'>{}</b></p><p typeof='Thing'></p></html>"
OUTPUTS = ("quads.nq", "items.jsonl", "pages.tsv")


def body(number: int, mark: str = "") -> bytes:
    """A page by its number: with data, with blank nodes, or broken."""
    if number % 5 == 4:
        return f"<p>Broken {mark}<p property='schema:name'>Anvil {number}".encode()
    return f"{LIST.format(number)}<!--{mark}-->".encode() if number % 2 else web.page(number).replace(b"</body>", f"<!--{mark}--></body>".encode())


def parts(count: int, marks: dict[int, str] | None = None) -> list[bytes]:
    """The records of an archive: pages, and between them what is none."""
    made = [record("", b"software: none\r\n", "warcinfo", Content_Type="application/warc-fields")]
    for number in range(count):
        made.append(record(f"http://h{number % 3}.example/{number}", b"GET / HTTP/1.1\r\n\r\n", "request"))
        made.append(response(number, body(number, (marks or {}).get(number, ""))).replace(b"//h.example", b"//h%d.example" % (number % 3)))
        if number % 10 == 9:
            made.append(record(f"http://h.example/lost/{number}", b"HTTP/1.1 404 Not Found\r\nContent-Type: text/html\r\n\r\n<html>"))
    return made


def crawl(out: Path, *words: object, status: int | None = 0, **environment: str) -> subprocess.CompletedProcess[str]:
    """Runs the command."""
    done = subprocess.run(command(out, *words), capture_output=True, text=True, check=False, env=surroundings(**environment))
    assert status is None or done.returncode == status, done.stderr
    return done


def command(out: Path, *words: object) -> list[str]:
    return [sys.executable, "-m", "rdfax", "crawl", "--out", str(out), *map(str, words)]


def surroundings(**more: str) -> dict[str, str]:
    path = os.pathsep.join([str(HERE / "hostile"), *filter(None, [os.environ.get("PYTHONPATH")])])
    return {**os.environ, "PYTHONPATH": path, **more}


def table(out: Path) -> list[dict[str, str]]:
    """The tables of pages."""
    rows: list[dict[str, str]] = []
    for path in sorted(out.glob("shards/*/pages.tsv.gz")):
        rows += csv.DictReader(io.StringIO(gzip.decompress(path.read_bytes()).decode()), delimiter="\t", quoting=csv.QUOTE_NONE)
    return rows


def texts(out: Path) -> dict[str, str]:
    """All that a crawl wrote, but for what time it took."""
    found = {}
    for path in sorted(out.glob("shards/*/*.gz")):
        text = gzip.decompress(path.read_bytes()).decode()
        found[f"{path.parent.name}/{path.name}"] = re.sub(r"\t[0-9.]+(\t\d+\t<urn:)", r"\t\1", text)
    return found


@pytest.fixture(name="archive", scope="module")
def _archive(tmp_path_factory: pytest.TempPathFactory) -> Path:
    path = tmp_path_factory.mktemp("archive") / "site.warc.gz"
    written(path, parts(60))
    return path


@pytest.fixture(name="single", scope="module")
def _single(archive: Path, tmp_path_factory: pytest.TempPathFactory) -> Path:
    """What one process writes, shard after shard."""
    out = tmp_path_factory.mktemp("single") / "out"
    crawl(out, archive, "--workers", 0, "--records", 20)
    return out


def test_pages(archive: Path, single: Path) -> None:
    """What a crawl writes of each page is what the calls of one page give."""
    shards = sorted(single.glob("shards/*/quads.nq.gz"))
    assert len(shards) > 5
    rows = table(single)
    assert [row["address"] for row in rows] == [f"http://h{number % 3}.example/{number}" for number in range(60)]
    lines = iter(line for path in shards for line in [*gzip.decompress(path.read_bytes()).decode().splitlines(), "end"])
    items = [json.loads(line) for path in sorted(single.glob("shards/*/items.jsonl.gz")) for line in gzip.decompress(path.read_bytes()).splitlines()]
    nodes, wanted_items = 0, []
    for number, row in enumerate(rows):
        page, address = body(number), row["address"]
        while (line := next(lines)) == "end":
            nodes = 0
        try:
            quads = rdfax.extract(page, address, graph=address, first_node=nodes)
        except rdfax.Refused as refused:
            assert (row["status"], row["kind"], row["token"], row["at"]) == ("refused", refused.kind, str(refused.token), str(refused.at))
            assert line == f"# {refused} of {address}"
            continue
        assert row["status"] == "read" and int(row["triples"]) == quads.count("\n")
        assert [line, *(next(lines) for _ in range(quads.count("\n") - 1))] == quads.splitlines()
        nodes += len(set(re.findall(r"_:b\d+", quads)))
        wanted_items += [(address, item) for item in rdfax.items(page, address)["items"]]
    assert [(line["address"], line["item"]) for line in items] == wanted_items
    assert all(set(line) == {"address", "record", "archive", "offset", "number", "item"} for line in items)


def test_report(single: Path) -> None:
    told, rows = json.loads((single / "report.json").read_text()), table(single)
    outcomes = {status: sum(row["status"] == status for row in rows) for status in ("read", "refused")}
    assert told["outcomes"] == outcomes
    assert told["totals"]["pages"] == 60 and told["skipped"] == {"request": 60, "status 404": 6, "warcinfo": 1}
    assert told["triple_classes"] == {"http://schema.org/Offer": 24, "http://schema.org/Thing": 24}
    assert told["triple_properties"]["http://schema.org/price"] == 24
    assert told["item_classes"] == {"http://schema.org/Offer": 24} and told["item_properties"] == {"price": 24}
    assert sum(told["triple_sites"].values()) == told["totals"]["triples"] == sum(int(row["triples"]) for row in rows)
    assert "60 pages: 48 read, 12 refused" in (single / "report.txt").read_text()
    page = (single / "report.html").read_bytes()
    assert page.count(b"<svg") > 8
    rdfax.check(page)


def test_again(archive: Path, single: Path, tmp_path: Path) -> None:
    """A crawl that is done changes nothing; nor does the same archive twice, or a copy of it."""
    before = {path: path.stat().st_mtime_ns for path in single.glob("shards/*/*")}
    copy = tmp_path / "copy.warc.gz"
    shutil.copy(archive, copy)
    crawl(single, archive, archive, copy, "--workers", 0, "--records", 20)
    assert {path: path.stat().st_mtime_ns for path in single.glob("shards/*/*")} == before
    assert f"the same archive as another: {copy}" in (single / "report.txt").read_text()
    assert crawl(single, archive, "--workers", 0, "--mend", status=2).stderr.startswith("rdfax: ")
    crawl(single, archive, "--workers", 0, "--records", 20)


@needs_dask
@pytest.mark.parametrize("workers", [1, 2])
def test_workers(archive: Path, single: Path, tmp_path: Path, workers: int, monkeypatch: pytest.MonkeyPatch) -> None:
    """Workers write what one process writes, and nothing where the command is begun."""
    (tmp_path / "here").mkdir()
    monkeypatch.chdir(tmp_path / "here")
    crawl(tmp_path / "out", archive, "--workers", workers, "--records", 20)
    assert texts(tmp_path / "out") == texts(single)
    assert list((tmp_path / "here").iterdir()) == []


@pytest.mark.parametrize("compression", ["none", "zstd"])
def test_compressions(archive: Path, single: Path, tmp_path: Path, compression: str) -> None:
    unpack: Callable[[bytes], bytes] = bytes
    if compression == "zstd":
        zstandard = pytest.importorskip("zstandard")

        def unpack(packed: bytes) -> bytes:
            return zstandard.ZstdDecompressor().stream_reader(packed).read()

    crawl(tmp_path / "out", archive, "--workers", 0, "--records", 20, "--compress", compression)
    ending = {"none": "", "zstd": ".zst"}[compression]
    for name in ("quads.nq", "items.jsonl"):
        for path in single.glob(f"shards/*/{name}.gz"):
            other = tmp_path / "out" / path.relative_to(single).with_suffix(ending)
            assert unpack(other.read_bytes()) == gzip.decompress(path.read_bytes())


def test_hostile(tmp_path: Path) -> None:
    """Pages that end their child, spin or eat are told as failed, and the others aren't lost."""
    marks = {3: "MARK-END", 10: "MARK-SPIN", 11: "MARK-EAT", 20: "MARK-END", 21: "MARK-END", 30: "MARK-ONCE", 41: "x" * 100_000}
    written(tmp_path / "a.warc.gz", parts(60, marks))
    out, plain = tmp_path / "out", tmp_path / "plain"
    words = ("--workers", 0, "--seconds", 1, "--mebibytes", 200, "--bytes", 50_000)
    crawl(out, tmp_path / "a.warc.gz", *words, MARK_ONCE=str(tmp_path / "once"))
    failed = {int(row["address"].rpartition("/")[2]): row["kind"] for row in table(out) if row["status"] == "failed"}
    assert failed == {3: "Ended", 10: "TooSlow", 11: "NoMemory", 20: "Ended", 21: "Ended", 41: "TooLong"}
    written(tmp_path / "b.warc.gz", parts(60))
    crawl(plain, tmp_path / "b.warc.gz", *words)
    kept = [(row["address"], row["status"], row["triples"]) for row in table(out) if row["status"] != "failed"]
    lost = {f"http://h{number % 3}.example/{number}" for number in failed}
    assert kept == [(row["address"], row["status"], row["triples"]) for row in table(plain) if row["address"] not in lost]


def test_damaged(tmp_path: Path) -> None:
    """What is damaged in an archive is told in the table, with its place."""
    path = tmp_path / "a.warc.gz"
    places = written(path, [response(number) for number in range(12)])
    whole = bytearray(path.read_bytes())
    for at in range(places[3] + 60, places[3] + 70):
        whole[at] ^= 255
    path.write_bytes(whole[: places[11] + 80])
    crawl(tmp_path / "out", path, "--workers", 0, "--records", 4)
    rows = table(tmp_path / "out")
    assert [row["kind"] for row in rows] == ["", "", "", "BadGzip", *[""] * 7, "Cut"]
    assert [int(row["offset"]) for row in rows] == places
    assert json.loads((tmp_path / "out" / "report.json").read_text())["kinds"] == {"failed: BadGzip": 1, "failed: Cut": 1}


def test_what_can_not_be_unpacked(tmp_path: Path) -> None:
    """Bodies whose package isn't installed, and files of the older format, are rows of the table, with the reason."""
    head = b"HTTP/1.1 200 OK\r\nContent-Type: text/html\r\nContent-Encoding: "
    written(tmp_path / "a.warc.gz", [record(f"http://h.example/{name}", head + name.encode() + b"\r\n\r\n\x28\xb5\x2f\xfd") for name in ("br", "zstd", "lzma")])
    (tmp_path / "b.arc.gz").write_bytes(gzip.compress(b"filedesc://b.arc 0.0.0.0 20080101000000 text/plain 76\n"))
    hidden = tmp_path / "hidden"
    hidden.mkdir()
    for name in ("brotli", "zstandard"):
        (hidden / f"{name}.py").write_text("raise ImportError")
    crawl(tmp_path / "out", tmp_path / "a.warc.gz", tmp_path / "b.arc.gz", "--workers", 0, PYTHONPATH=f"{hidden}:{os.environ.get('PYTHONPATH', '')}")
    rows = {(row["address"].rpartition("/")[2], row["status"], row["kind"]) for row in table(tmp_path / "out")}
    assert rows == {("br", "failed", "NoBrotli"), ("zstd", "failed", "NoZstandard"), ("lzma", "failed", "UnknownEncoding"), ("", "failed", "ArcFile")}


@pytest.mark.skipif(os.geteuid() != 0, reason="a small disk needs root")
def test_full_disk(archive: Path, single: Path, tmp_path: Path) -> None:
    disk = tmp_path / "disk"
    disk.mkdir()
    if subprocess.run(["mount", "-t", "tmpfs", "-o", "size=64k", "none", disk], check=False).returncode:
        pytest.skip("nothing can be mounted here")
    try:
        said = crawl(disk / "out", archive, "--workers", 0, "--records", 20, status=3).stderr
        assert "No space left" in said
        assert set(texts(disk / "out").items()) < set(texts(single).items())
        subprocess.run(["mount", "-o", "remount,size=9m", disk], check=True)
        crawl(disk / "out", archive, "--workers", 0, "--records", 20)
        assert texts(disk / "out") == texts(single)
    finally:
        subprocess.run(["umount", disk], check=True)


def slow_archive(folder: Path) -> Path:
    """An archive whose pages take some time, with the pages of the other one."""
    path = folder / "slow.warc.gz"
    written(path, parts(60, dict.fromkeys(range(60), "MARK-SLOW")))
    return path


@contextlib.contextmanager
def running(*words: str, **environment: str) -> Iterator[subprocess.Popen[str]]:
    """A process that is ended at the end."""
    # (what a shell runs in the background passes interrupts over, and so would what is begun here)
    asked = ["env", "--default-signal=INT", *words]
    process = subprocess.Popen(asked, text=True, stdout=subprocess.PIPE, stderr=subprocess.PIPE, env=surroundings(**environment), start_new_session=True)
    try:
        yield process
    finally:
        with contextlib.suppress(ProcessLookupError):
            os.killpg(process.pid, signal.SIGKILL)
        process.communicate()


def wait(what: Callable[[], Any], seconds: float = 120) -> Any:
    """What there is, as soon as it is."""
    end = time.monotonic() + seconds
    while not (found := what()):
        assert time.monotonic() < end, "it didn't come in time"
        time.sleep(0.05)
    return found


def done(out: Path) -> list[Path]:
    return list(out.glob("shards/*"))


def readers(session: int) -> list[tuple[int, int]]:
    """The children that read pages in a session, each with its parent, which is a worker."""
    found = []
    for path in Path("/proc").glob("[0-9]*"):
        with contextlib.suppress(OSError):
            state = (path / "stat").read_text().rpartition(")")[2].split()
            if int(state[3]) == session and b"crawling.child" in (path / "cmdline").read_bytes():
                found.append((int(path.name), int(state[1])))
    return found


@pytest.mark.parametrize("number", [signal.SIGINT, signal.SIGKILL])
def test_interrupted(tmp_path: Path, number: signal.Signals) -> None:
    """An interrupted crawl goes on, and writes what one that wasn't interrupted writes."""
    path, out, whole = slow_archive(tmp_path), tmp_path / "out", tmp_path / "whole"
    words = (path, "--workers", 0, "--records", 20)
    with running(*command(out, *words)) as process:
        wait(lambda: done(out))
        process.send_signal(number)
        assert process.wait(30) == (130 if number == signal.SIGINT else -number)
    before = {shard: shard.stat().st_ctime_ns for shard in done(out)}
    assert 0 < len(before) < 7
    crawl(out, *words, MARK_SLOW="0")
    assert {shard: shard.stat().st_ctime_ns for shard in done(out) if shard in before} == before
    crawl(whole, *words, MARK_SLOW="0")
    assert texts(out) == texts(whole)
    assert not list((out / "tmp").iterdir())


@needs_dask
def test_worker_killed(tmp_path: Path) -> None:
    """A worker that is killed in the middle of a shard loses nothing; nor does a child."""
    path, out, whole = slow_archive(tmp_path), tmp_path / "out", tmp_path / "whole"
    with running(*command(out, path, "--workers", 2, "--records", 20)) as process:
        child, _ = wait(lambda: readers(process.pid))[0]
        os.kill(child, signal.SIGKILL)
        wait(lambda: done(out))
        _, worker = wait(lambda: readers(process.pid))[0]
        os.kill(worker, signal.SIGKILL)
        said = process.communicate(timeout=180)[1]
        assert process.returncode == 0, said
    crawl(whole, path, "--workers", 0, "--records", 20, MARK_SLOW="0")
    assert texts(out) == texts(whole)


@needs_dask
def test_scheduler_killed(tmp_path: Path) -> None:
    """Where the scheduler is gone the command says so, and goes on with another one."""
    path, out, whole = slow_archive(tmp_path), tmp_path / "out", tmp_path / "whole"
    with scheduler() as (address, process), running(*command(out, path, "--scheduler", address, "--records", 20)) as client:
        wait(lambda: done(out))
        os.killpg(process.pid, signal.SIGKILL)
        said = client.communicate(timeout=180)[1]
        assert client.returncode == 1 and "scheduler is gone" in said, said
    assert 0 < len(done(out)) < 7
    with scheduler() as (address, _):
        crawl(out, path, "--scheduler", address, "--records", 20, MARK_SLOW="0")
    crawl(whole, path, "--workers", 0, "--records", 20, MARK_SLOW="0")
    assert texts(out) == texts(whole)


@contextlib.contextmanager
def scheduler() -> Iterator[tuple[str, subprocess.Popen[str]]]:
    """A scheduler with two workers, each in a process of its own."""
    with socket.create_server(("127.0.0.1", 0)) as free:
        port = free.getsockname()[1]
    address, python = f"tcp://127.0.0.1:{port}", [sys.executable, "-m"]
    worker = [*python, "distributed.cli.dask_worker", "--nthreads", "1", "--no-nanny", "--no-dashboard", "--death-timeout", "20", address]
    with contextlib.ExitStack() as stack:
        words = [*python, "distributed.cli.dask_scheduler", "--host", "127.0.0.1", "--port", str(port), "--no-dashboard", "--no-show"]
        process = stack.enter_context(running(*words, DASK_DISTRIBUTED__SCHEDULER__ALLOWED_FAILURES="0"))
        for _ in range(2):
            stack.enter_context(running(*worker))
        yield address, process


def test_a_child_goes_on_from_shard_to_shard(monkeypatch: pytest.MonkeyPatch) -> None:
    """Until something goes wrong in a shard, for then answers may be on their way; or until it has read many pages."""
    pages = [Given(f"http://h.example/{number}", "html", None, web.page(number)) for number in range(3)]
    processes = []
    for most in (100, 100, 1):
        monkeypatch.setattr(child, "_MOST_PAGES", most)
        with child.reader(Options()) as reader:
            assert [found.status for found in reader.read(pages, 0)] == ["read"] * 3
            processes.append(reader._process)
    assert processes[0] is processes[1] is processes[2] and reader._process is None
    with contextlib.suppress(OSError), child.reader(Options()) as reader:
        next(reader.read(pages, 0))
        raise OSError("no space is left")
    assert reader._process is None
    assert child.reader(Options(items=False)) is not reader


def test_mended(tmp_path: Path) -> None:
    """With `--mend` what is refused is mended, and said to be."""
    mending = pytest.importorskip("rdfax.mending")
    try:
        mending.mend(b"<p>")
    except ImportError:
        pytest.skip("the mender isn't built")
    written(tmp_path / "a.warc.gz", parts(20))
    out = tmp_path / "out"
    crawl(out, tmp_path / "a.warc.gz", "--workers", 0, "--mend")
    for number, row in enumerate(table(out)):
        broken = number % 5 == 4
        assert (row["status"], bool(row["mended"]), row["triples"]) == ("read", broken, "1" if broken or number % 2 == 0 else "4")
    quads = gzip.decompress(next(out.glob("shards/*/quads.nq.gz")).read_bytes()).decode()
    assert quads.count("# mended: ") == 4 and "# places" not in quads
    crawl(tmp_path / "placed", tmp_path / "a.warc.gz", "--workers", 0, "--mend", "--places")
    placed = gzip.decompress(next((tmp_path / "placed").glob("shards/*/quads.nq.gz")).read_bytes()).decode()
    places = re.findall(r"# mended: .*\n# places: (\d+)\n", placed)
    assert [body(number)[int(place) :][:12] for number, place in zip((4, 9, 14, 19), places, strict=True)] == [b"<p property="] * 4
    assert re.sub(r"# places: .*\n", "", placed) == quads
    crawl(tmp_path / "wrong", tmp_path / "a.warc.gz", "--workers", 0, "--places", status=2)
    assert json.loads((out / "report.json").read_text())["outcomes"] == {"read": 16, "read, mended": 4}
