"""How many pages a second come through the library in one process, beside a command a page and beside libraptor2.

    apt-get install libraptor2-dev valgrind
    ./build                          # proves and builds program and library, if they aren't there
    python3 bench/embed.py [COUNT]

Of each size of page (bench/page.py) COUNT are extracted as N-Quads, 1,000 without the word: in one process by the library
(bench/embed.c), by a process of the command for each, and in one process by libraptor2 (bench/embed_raptor.c). The three run
in turn, three rounds; of these the least processor time is taken, of the user and of the system. Beside it stand the
instructions of a page by valgrind's callgrind, which don't depend on what else the machine does: those of three pages less
those of one, halved, and of one run of the command. A page that is opened and closed, with nothing handed over, is counted too.
"""

import os
import re
import resource
import subprocess
import sys
import tempfile

import page

HERE = os.path.dirname(os.path.abspath(__file__))
TOP = os.path.dirname(HERE)
PROGRAM = os.path.join(TOP, "built/rdfax")
LIBRARY = os.path.join(TOP, "built/librdfax.a")
# how many items make a page of some 2, 20 and 200 kB
ITEMS = [21, 220, 2_190]
ROUNDS = 3


def build(folder):
    """The two programs, made in the folder."""
    ours, theirs = os.path.join(folder, "embed"), os.path.join(folder, "embed_raptor")
    subprocess.run(["cc", "-O2", "-I", os.path.join(TOP, "include"), "-o", ours, os.path.join(HERE, "embed.c"), LIBRARY], check=True)
    flags = subprocess.run(["pkg-config", "--cflags", "--libs", "raptor2"], stdout=subprocess.PIPE, check=True, text=True).stdout.split()
    subprocess.run(["cc", "-O2", "-o", theirs, os.path.join(HERE, "embed_raptor.c"), *flags], check=True)
    return ours, theirs


def seconds(words, times=1):
    """The processor time of so many runs."""
    before = resource.getrusage(resource.RUSAGE_CHILDREN)
    for _ in range(times):
        pid = os.posix_spawn(words[0], words, os.environ, file_actions=[(os.POSIX_SPAWN_OPEN, 1, "/dev/null", os.O_WRONLY, 0)])
        if os.waitstatus_to_exitcode(os.waitpid(pid, 0)[1]) != 0:
            sys.exit(f"{words} failed")
    after = resource.getrusage(resource.RUSAGE_CHILDREN)
    return after.ru_utime + after.ru_stime - before.ru_utime - before.ru_stime


def instructions(words):
    """The instructions of one run."""
    said = subprocess.run(["valgrind", "--tool=callgrind", "--callgrind-out-file=/dev/null", *words], stdout=subprocess.DEVNULL, stderr=subprocess.PIPE, check=True, text=True).stderr
    return int(re.search(r"Collected : (\d+)", said)[1])


def of_a_page(program, path, *words):
    """The instructions of one page more in the same process."""
    return (instructions([program, "3", path, *words]) - instructions([program, "1", path, *words])) // 2


def main():
    count = int(sys.argv[1]) if len(sys.argv) > 1 else 1_000
    if not (os.path.exists(PROGRAM) and os.path.exists(LIBRARY)):
        print("bench/embed.py: no program and library is built; ./build proves and builds them", file=sys.stderr)
        sys.exit(70)
    with tempfile.TemporaryDirectory() as folder:
        ours, theirs = build(folder)
        path = os.path.join(folder, "page.html")
        for items in ITEMS:
            with open(path, "w", encoding="utf-8") as file:
                page.write(file, items)
            command = [PROGRAM, "extract", "--base", "http://localhost/", path]
            runs = {"library": ([ours, str(count), path], 1), "command": (command, count), "libraptor2": ([theirs, str(count), path], 1)}
            least = dict.fromkeys(runs, float("inf"))
            for _ in range(ROUNDS):
                for name, (words, times) in runs.items():
                    least[name] = min(least[name], seconds(words, times))
            counted = {"library": of_a_page(ours, path), "command": instructions(command), "libraptor2": of_a_page(theirs, path)}
            print(f"{os.path.getsize(path):,} bytes")
            for name in runs:
                print(f"    {name:10} {count / least[name]:8,.0f} pages a second of processor time, {counted[name]:12,} instructions a page")
        print(f"opened and closed alone: {of_a_page(ours, path, 'open'):,} instructions")


if __name__ == "__main__":
    main()
