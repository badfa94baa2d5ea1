"""`python3 -m rdfax`: what it prints, which editors read, and its statuses."""

from __future__ import annotations

import json
import os
import pty
import re
import subprocess
import sys
from pathlib import Path

import pytest
from rows import Row, rows

import rdfax

FAULTY = "<html>\n<body>\n  <p>Such are:\n    <ul><li>one</ul>\n    </p>\n</body>\n</html>\n"
RIGHT = "<html><body><p>Anvil</body></html>\n"
# As VS Code's problem matcher in docs/PYTHON.md has it: file, line, column, severity, code and message.
MATCHER = r"^(.+?):(\d+):(\d+): (error): (\w+): (.*)$"
REPORT = """\
page.html:5:5: error: Mismatch: </p> ends nothing that is open
    </p>
    ^~~~
help: End what was begun last first, and each element once: a p ends where a list, a table, a heading or a div begins, \
and an element without content, such as br, has no end tag.
"""


@pytest.fixture(autouse=True)
def folder(tmp_path: Path, monkeypatch: pytest.MonkeyPatch) -> Path:
    monkeypatch.chdir(tmp_path)
    (tmp_path / "page.html").write_text(FAULTY)
    (tmp_path / "right.html").write_text(RIGHT)
    return tmp_path


def rdfax_does(*words: str, stdin: bytes = b"") -> tuple[int, str, str]:
    """The status of `python3 -m rdfax` with these words, and what it wrote and said."""
    done = subprocess.run([sys.executable, "-m", "rdfax", *words], input=stdin, capture_output=True, check=False)
    return done.returncode, done.stdout.decode(), done.stderr.decode()


def on_a_terminal(*words: str) -> str:
    """What `python3 -m rdfax` shows where it writes to a terminal."""
    ours, its = pty.openpty()
    environment = {**os.environ, "TERM": "xterm", "COLUMNS": "80"}
    environment.pop("NO_COLOR", None)
    with subprocess.Popen([sys.executable, "-m", "rdfax", *words], stdout=its, stderr=its, env=environment):
        os.close(its)
        shown = b""
        try:
            while piece := os.read(ours, 1 << 16):
                shown += piece
        except OSError:
            pass
    os.close(ours)
    return shown.decode()


def test_a_refused_page_is_shown_where_it_is_faulty() -> None:
    assert rdfax_does("check", "page.html", "right.html") == (1, REPORT, "2 pages: 1 read, 1 refused (Mismatch 1)\n")
    assert rdfax_does("check", "right.html") == (0, "", "1 page: 1 read, 0 refused\n")
    assert rdfax_does("check", "-", stdin=FAULTY.encode())[1] == REPORT.replace("page.html", "<stdin>")


def test_a_file_that_is_missing_is_told_and_the_others_are_checked() -> None:
    assert rdfax_does("check", "none.html", "page.html") == (
        3,
        REPORT,
        "none.html: No such file or directory\n2 pages: 0 read, 1 refused (Mismatch 1), 1 unreadable\n",
    )


def test_colour_is_for_terminals_alone() -> None:
    shown = on_a_terminal("check", "page.html")
    assert "\x1b[1;31merror:\x1b[0m" in shown
    assert re.sub(r"\x1b\[[\d;]*m", "", shown).replace("\r\n", "\n").startswith(REPORT)
    assert "\x1b" not in "".join(rdfax_does("check", "page.html")[1:])


def test_a_page_cannot_steer_the_terminal(folder: Path) -> None:
    (folder / "hostile.html").write_text("<html>\x1b[2J\x9b2J</b\x1b[2J>")
    assert not re.search("[\x1b\x9b]", rdfax_does("check", "hostile.html")[1])


def test_a_name_need_not_be_text(folder: Path) -> None:
    os.rename(b"page.html", b"\xff.html")
    status, written, _ = rdfax_does("check", os.fsdecode(b"\xff.html"))
    assert (status, written) == (1, REPORT.replace("page", "\ufffd"))


def test_json() -> None:
    status, written, _ = rdfax_does("check", "--format", "json", "page.html", "right.html")
    (found,) = json.loads(written)
    assert status == 1
    assert {name: found[name] for name in ("file", "line", "column", "kind", "message", "at", "token")} == {
        "file": "page.html",
        "line": 5,
        "column": 5,
        "kind": "Mismatch",
        "message": "</p> ends nothing that is open",
        "at": 57,
        "token": 54,
    }
    assert json.loads(rdfax_does("check", "--format", "json", "right.html")[1]) == []


def test_annotations_of_github(folder: Path) -> None:
    (folder / "a:b,c%.html").write_text("<html></i\n>")
    _, written, _ = rdfax_does("check", "--format", "github", "page.html", "a:b,c%.html")
    first, second = written.splitlines()
    assert first.startswith("::error file=page.html,line=5,col=5,title=Mismatch::</p> ends nothing that is open. End what")
    assert second.startswith("::error file=a%3Ab%2Cc%25.html,line=1,col=7,title=Mismatch::</i > ends nothing")


def test_a_thousand_pages_have_a_progress_bar_and_a_sum(folder: Path) -> None:
    pytest.importorskip("tqdm")
    page = "<html>" + '<p property="schema:name">Anvil</p>' * 1000 + "</html>"
    names = [f"{number}.html" for number in range(1000)]
    for name in names:
        (folder / name).write_text(page)
    shown = on_a_terminal("check", "page.html", *names)
    assert re.search(r"\d+%.*/1001 ", shown)
    # (the bar is away where something else is written, and at the end)
    assert re.search(r"\rpage.html:5:5", re.sub(r"\x1b\[[\d;]*m", "", shown))
    assert "1,001 pages: 1,000 read, 1 refused (Mismatch 1)" in shown
    assert "/1000 " not in rdfax_does("check", *names)[2]


@pytest.mark.parametrize("setting", ["", "set errorformat=%f:%l:%c:\\ %t%*[^:]:\\ %m,%-G%.%#"], ids=["as vim is set", "as the docs set it"])
def test_vim_reads_it(folder: Path, setting: str) -> None:
    (folder / "script.vim").write_text(f"""
set makeprg={sys.executable}\\ -m\\ rdfax\\ check\\ page.html\\ right.html
{setting}
silent make!
call writefile([json_encode(filter(getqflist(), 'v:val.valid'))], 'found')
cfirst
call writefile([json_encode(getpos('.'))], 'at')
qall!
""")
    subprocess.run(["vim", "-es", "-u", "NONE", "-S", "script.vim"], check=False, timeout=60)
    (found,) = json.loads((folder / "found").read_text())
    assert (found["lnum"], found["col"]) == (5, 5)
    assert found["text"].strip().endswith("Mismatch: </p> ends nothing that is open")
    assert json.loads((folder / "at").read_text())[1:3] == [5, 5]


def test_a_problem_matcher_reads_it() -> None:
    assert MATCHER in (Path(__file__).resolve().parents[2] / "docs" / "PYTHON.md").read_text(encoding="utf-8").replace("\\\\", "\\")
    found = [match.groups() for line in rdfax_does("check", "page.html")[1].splitlines() if (match := re.match(MATCHER, line))]
    assert found == [("page.html", "5", "5", "error", "Mismatch", "</p> ends nothing that is open")]


def _words(row: Row, folder: Path) -> list[str]:
    (folder / "asked.html").write_bytes(row.page)
    words = [row.task]
    for name, value in row.words.items():
        if name == "context":
            (folder / "context.json").write_bytes(value)
            value = "context.json"
        words += [f"--{name}={value}"]
    return [*words, "asked.html"]


# (a process each: of each task and status a few)
FEW = [row for task in ("extract", "items") for status in (0, 1, 2, 6) for row in [row for row in rows(task) if row.status == status][:4]]


@pytest.mark.parametrize("row", FEW, ids=lambda row: f"{row.task}: {row.name}")
def test_extract_and_items_do_what_the_command_does(row: Row, folder: Path) -> None:
    status, written, said = rdfax_does(*_words(row, folder))
    assert (status, written) == (row.status, row.written)
    if status == 1 and row.said:
        assert said == row.said


@pytest.mark.parametrize(
    ("words", "status", "said"),
    [
        ((), 2, "usage:"),
        (("chekc",), 2, "invalid choice: 'chekc'"),
        (("check",), 2, "the following arguments are required: PAGE"),
        (("extract", "page.html"), 2, "the following arguments are required: --base"),
        (("extract", "--base", "d", "right.html"), 2, "rdfax: the base 'd' is no IRI"),
        (("extract", "--base", "http://h.example/d", "none.html"), 3, "none.html"),
        (("check", "--context", "none.json", "right.html"), 3, "none.json"),
        (("check", "--context", "page.html", "right.html"), 6, "context"),
    ],
)
def test_statuses(words: tuple[str, ...], status: int, said: str) -> None:
    came = rdfax_does(*words)
    assert (came[0], came[1]) == (status, "") and said in came[2]


def test_where_there_is_no_library_it_says_so(monkeypatch: pytest.MonkeyPatch) -> None:
    monkeypatch.setenv("RDFAX_LIBRARY", "/none.so")
    status, written, said = rdfax_does("check", "page.html")
    assert (status, written, said.count("\n")) == (69, "", 1) and "/none.so" in said


def test_the_version() -> None:
    assert rdfax_does("--version") == (0, f"rdfax {rdfax.__version__}\n", "")
