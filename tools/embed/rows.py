"""The worked rows that ask something of one page, as jobs, and what the program answers to them."""

from __future__ import annotations

import json
import os
import re
from dataclasses import dataclass, field, replace
from typing import Any

from answers import HERE, Answer
from embed import header

ROWS = os.path.join(HERE, "crates/rx_vectors/data")
TASKS = {"extract": {"--syntax", "--format", "--graph", "--context", "--base"}, "items": {"--syntax", "--base"}, "check": {"--syntax", "--context"}}
SYNTAXES, FORMATS = ("html", "xhtml"), ("nquads", "turtle", "nested", "jsonld")
# the sizes of pieces, of pages up to 4,000 bytes and of longer ones
PIECES, SMALL, WHOLE = (1, 7, 65_536), 4_000, 65_536
TERM = re.compile(r'"(?:[^"\\]|\\.)*"|<[^>]*>|_:b(\d+)')


@dataclass(frozen=True)
class Job:
    """What is asked of a page: the words of a line of a list, `-` for none."""

    name: str
    folder: str
    task: str
    page: str
    syntax: str = "html"
    format: str = "nquads"
    base: str = "-"
    graph: str = "-"
    context: str = "-"
    first_node: int = 0
    piece: int = WHOLE

    def path(self, name: str) -> str:
        return name if name == "-" else os.path.join(self.folder, name)

    def line(self) -> str:
        words = [self.task, self.syntax, self.format, self.base, self.graph, self.path(self.context), self.first_node, self.path(self.page), self.piece]
        return "\t".join(map(str, words)) + "\n"

    def words(self) -> list[str]:
        """The words of the command for the same."""
        given = {"--syntax": self.syntax, "--context": self.context}
        if self.task != "check":
            given["--base"] = self.base
        if self.task == "extract":
            given |= {"--format": "nquads" if self.format == "quads" else self.format, "--graph": self.graph}
        return [self.task, *(word for name, value in given.items() if value != "-" for word in (name, value)), self.page]


def content(value: Any) -> bytes:
    """The bytes that a row tells of a file."""
    if isinstance(value, str):
        return value.encode()
    return b"".join(bytes([part]) if isinstance(part, int) else part.encode() if isinstance(part, str) else part[0].encode() * part[1] for part in value)


def job_of(row: dict[str, Any], folder: str) -> Job | None:
    """The job of a row; none where it asks something else than a page's text."""
    task, *rest = row["words"] or [""]
    given = dict(zip(rest[:-1:2], rest[1:-1:2]))
    if task not in TASKS or len(rest) != 2 * len(given) + 1 or not set(given) <= TASKS[task] or (task != "check" and "--base" not in given):
        return None
    options = {name[2:]: value for name, value in given.items()}
    job = Job(row["name"], folder, task, rest[-1], **options)
    files = [job.page] + [job.context] * (job.context != "-")
    if job.syntax not in SYNTAXES or job.format not in FORMATS or not set(files) <= set(row["files"]):
        return None
    if any(re.search(r"[\t\n\0]", word) or not word for word in [*options.values(), *files]):
        return None
    os.makedirs(folder, exist_ok=True)
    for name in files:
        with open(job.path(name), "wb") as file:
            file.write(content(row["files"][name]))
    return job


def all_jobs(folder: str) -> tuple[list[Job], int]:
    """The jobs of all rows, and how many rows aren't."""
    jobs = []
    for name in sorted(os.listdir(ROWS)):
        with open(os.path.join(ROWS, name), encoding="utf-8") as file:
            jobs += [job_of(row, os.path.join(folder, f"{name}-{number}")) for number, row in enumerate(json.load(file))]
    found = [job for job in jobs if job is not None]
    return found, len(jobs) - len(found)


@dataclass(frozen=True)
class Wanted:
    """A job, and what has to come of it: the line, and the text behind it."""

    job: Job
    line: str
    text: str = ""


@dataclass
class Program:
    """The built program, which is asked once for each row."""

    path: str
    kept: dict[tuple[str, ...], Answer] = field(default_factory=dict)

    def answer(self, job: Job) -> Answer:
        words = (job.folder, *job.words())
        if words not in self.kept:
            self.kept[words] = Answer(job.words(), program=self.path, cwd=job.folder)
        return self.kept[words]

    def wanted(self, job: Job) -> Wanted:
        """What the library has to make of the job, by what the program writes and says."""
        answer = self.answer(job)
        if answer.status == 1:
            fault = answer.said.decode().removeprefix("refused: ").rstrip("\n")
            return Wanted(job, f"1 0 {header.kinds().index(fault.split()[0]) + 1} {fault}")
        if answer.status != 0:
            return Wanted(job, f"{answer.status} 0")
        text = raised(answer.written.decode(), job)
        return Wanted(job, f"0 {len(text.encode())} {self.nodes(job)}", text)

    def nodes(self, job: Job) -> int:
        if job.task != "extract":
            return 0
        text = self.answer(replace(job, format="nquads")).written.decode()
        return len({match[1] for match in TERM.finditer(text) if match[1]})


def raised(text: str, job: Job) -> str:
    """The text with the numbers of its blank nodes raised to begin with the job's first one."""
    pattern = re.compile(r'"_:b(\d+)"') if job.format == "jsonld" else TERM
    return pattern.sub(lambda match: match[0] if match[1] is None else match[0].replace(f"b{match[1]}", f"b{int(match[1]) + job.first_node}"), text)


def ways(job: Job) -> list[Job]:
    """The ways in which a job is done: in pieces of several sizes, with other numbers of nodes, and as quads."""
    is_small = os.path.getsize(job.path(job.page)) <= SMALL
    found = [replace(job, piece=piece) for piece in (PIECES if is_small else (WHOLE,))]
    if job.task == "extract":
        found.append(replace(job, first_node=1_000))
    if job.task == "extract" and job.format == "nquads":
        found += [replace(job, format="quads"), replace(job, format="quads", first_node=2**63)]
    return found


def write_list(folder: str, name: str, jobs: list[Job]) -> str:
    path = os.path.join(folder, name)
    with open(path, "w", encoding="utf-8") as file:
        file.writelines(job.line() for job in jobs)
    return path


def answers_in(stream: bytes) -> list[tuple[str, str]]:
    """The lines and texts that a program wrote for a list."""
    found, at = [], 0
    while at < len(stream):
        end = stream.index(b"\n", at)
        line = stream[at:end].decode()
        at = end + 1 + int(line.split()[1])
        found.append((line, stream[end + 1 : at].decode()))
    return found
