"""The library in C: on the worked rows, call by call, from two threads, under valgrind, and with each request for memory refused."""

from __future__ import annotations

import os
import shutil
import subprocess
from dataclasses import dataclass, replace

from answers import HERE
from embed import header, rows, terms

EMBED, TESTS = os.path.join(HERE, "examples/embed"), os.path.join(HERE, "native/tests")
FLAGS = ["-std=c11", "-D_POSIX_C_SOURCE=200809L", "-O2", "-g", *header.WARNINGS]
VALGRIND = ["valgrind", "-q", "--error-exitcode=9"]
LEAKS = [*VALGRIND, "--leak-check=full", "--show-leak-kinds=all"]


@dataclass
class Native:
    """What programs in C are made with: a folder for them, that of the header, and that of the libraries."""

    folder: str
    include: str
    libraries: str

    def make(self, name: str, *sources: str, kind: str = "a") -> str:
        """The program of these sources, linked with the static library or the shared one."""
        made = os.path.join(self.folder, f"{name}_{kind}")
        library = [os.path.join(self.libraries, "librdfax.a")] if kind == "a" else [f"-L{self.libraries}", "-lrdfax", f"-Wl,-rpath,{self.libraries}"]
        subprocess.run(["cc", *FLAGS, "-I", self.include, "-o", made, *sources, *library, "-pthread"], check=True)
        return made


def example(name: str) -> str:
    return os.path.join(EMBED, name)


def test(name: str) -> str:
    return os.path.join(TESTS, name)


def output(words: list[str]) -> bytes:
    return subprocess.run(words, stdout=subprocess.PIPE, check=True).stdout


def differs(found: tuple[str, str], wanted: rows.Wanted) -> str | None:
    """What is wrong with what was found, if anything is."""
    line, text = found
    job = wanted.job
    if job.format == "quads" and line.startswith("0 "):
        quads = terms.quads_in(text)
        text = terms.as_text(quads)
        line = f"0 {len(text.encode())} {line.split()[2]}"
        if terms.rdflib and not terms.is_as_read(quads, wanted.text):
            return "rdflib reads other terms in the text"
    if (line, text) != (wanted.line, wanted.text):
        return f"wanted {wanted.line!r} {wanted.text[:200]!r}, found {line!r} {text[:200]!r}"
    return None


def compare(what: str, stream: bytes, wanted: list[rows.Wanted]) -> bool:
    """Whether all answers are the wanted ones; else says which is the first that isn't."""
    found = rows.answers_in(stream)
    for one, other in zip(found, wanted):
        wrong = differs(one, other)
        if wrong:
            print(f"{what}: {other.job.name} ({other.job.line().strip()}): {wrong}")
            return False
    if len(found) != len(wanted):
        print(f"{what}: {len(found)} answers to {len(wanted)} jobs")
    return len(found) == len(wanted)


def rows_hold(native: Native, wanted: list[rows.Wanted]) -> bool:
    path = rows.write_list(native.folder, "all.list", [each.job for each in wanted])
    right = compare("C", output([native.make("pages", example("pages.c")), path]), wanted)
    quads, read = sum(each.job.format == "quads" for each in wanted), "as rdflib reads the text" if terms.rdflib else "without rdflib, which isn't there"
    print(f"C: {'all as the program' if right else 'WRONG'}; {quads} of the jobs told quads, {read}")
    return right


def calls_hold(native: Native, words: dict[str, list[str]]) -> bool:
    """Whether each call answers as it must, in each library, and the sentences of the kinds are the header's."""
    wanted = "".join(sentence + "\n" for _, _, sentence in header.kinds_of_header())
    right = True
    for kind, more in words.items():
        done = subprocess.run([native.make("calls", test("calls.c"), kind=kind), header.version(), *more], capture_output=True, text=True, check=False)
        if done.returncode != 0 or done.stdout != wanted:
            print(f"calls: wrong with librdfax.{kind}: {done.stderr or 'the sentences are not those of the header'}")
            right = False
    print(f"calls: {'each as it must be, and each refused option, in librdfax.a and librdfax.so; a page past a gibibyte is refused' if right else 'WRONG'}")
    return right


def threads_hold(native: Native) -> bool:
    program = native.make("threads", test("threads.c"))
    right = subprocess.run([program, "20000"], check=False).returncode == 0
    told = "not looked for"
    if right and shutil.which("valgrind"):
        right = subprocess.run([*VALGRIND, "--tool=helgrind", program, "20"], check=False).returncode == 0
        told = "none by helgrind" if right else "FOUND by helgrind"
    print(f"threads: two with 20,000 pages each, {'all right' if right else 'WRONG'}; races: {told}")
    return right


def valgrind_holds(native: Native, wanted: list[rows.Wanted]) -> bool:
    """Whether no job of each row, no call and no example leaves memory or reads what isn't there."""
    if not shutil.which("valgrind"):
        print("valgrind: not there")
        return True
    few = list({each.job.folder: each for each in wanted if os.path.getsize(each.job.path(each.job.page)) <= 100_000}.values())
    path = rows.write_list(native.folder, "few.list", [each.job for each in few])
    programs = [[os.path.join(native.folder, "pages_a"), path], [os.path.join(native.folder, "calls_a"), header.version()]]
    right = all(subprocess.run([*LEAKS, *words], stdout=subprocess.DEVNULL, check=False).returncode == 0 for words in programs)
    print(f"valgrind: {len(few)} jobs and each call, {'no error and no leak' if right else 'WRONG'}")
    return right


def refuse_each(program: str, folder: str, job: rows.Job) -> int | None:
    """How many requests for memory of a job were refused, each alone; None where an answer was wrong."""
    path, reached = rows.write_list(folder, "refused.list", [job]), os.path.join(folder, "reached")
    own = output([program, path])
    number = 0
    while True:
        number += 1
        done = subprocess.run([program, path], stdout=subprocess.PIPE, env={**os.environ, "REFUSE": str(number), "REACHED": reached}, check=False)
        if done.returncode != 0 or done.stdout not in (b"5 0\n", own):
            print(f"memory: {job.line().strip()}: request {number} refused: status {done.returncode}, {done.stdout[:100]!r}")
            return None
        if not os.path.exists(reached):
            return number - 1
        os.remove(reached)


def memory_holds(native: Native, wanted: list[rows.Wanted]) -> bool:
    """Whether each refused request is an answer, for each task and format, where a program's own allocator takes the library's place."""
    done = [each for each in wanted if each.line.startswith("0 ") and (each.job.task == "check" or len(each.text) > 60) and each.job.context == "-"]
    firsts = {(each.job.task, each.job.format): replace(each.job, piece=rows.WHOLE) for each in reversed(done)}
    counts, goes_on = {}, True
    for kind in ("a", "so"):
        goes_on = subprocess.run([native.make("no_memory", test("no_memory.c"), kind=kind)], check=False).returncode == 0 and goes_on
        program = native.make("refused", example("pages.c"), test("refusing_heap.c"), kind=kind)
        counts[kind] = [refuse_each(program, native.folder, job) for job in firsts.values()]
    right = goes_on and None not in counts["a"] and counts["a"] == counts["so"] and all(counts["a"])
    total, told = sum(count or 0 for kind in counts.values() for count in kind), "status 5 each, or the answer that was asked for"
    print(f"memory: {total} requests of {len(firsts)} jobs refused, one at a time, and all of a call, with both libraries: {told if right else 'WRONG'}")
    return right
