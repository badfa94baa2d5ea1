"""Plants each bug of python/planted in the installed package, one at a time, and sees that a test fails.

    python tests/plant.py       # in an environment where the package is installed, as `python/test --planted` does

An edit has three lines: the module's file, a text that stands in it once, and what stands there instead.
"""

from __future__ import annotations

import subprocess
import sys
from pathlib import Path

import rdfax

HERE = Path(__file__).resolve().parent
PACKAGE = Path(rdfax.__file__).parent
TESTS = ["test_pages.py", "test_places.py", "test_threads.py", "test_rdflib.py"]


def passes() -> bool:
    """Whether the tests pass on the package as it stands."""
    words = [sys.executable, "-m", "pytest", "--quiet", "-x", "-p", "no:cacheprovider", "-k", "not where_no_other", *TESTS]
    return subprocess.run(words, cwd=HERE, stdout=subprocess.DEVNULL, stderr=subprocess.DEVNULL, check=False).returncode == 0


def caught(edit: Path) -> bool:
    """Whether a test fails on the package with this bug."""
    file, old, new = (line.split(": ", 1)[1] for line in edit.read_text(encoding="utf-8").splitlines())
    path = PACKAGE / file
    source = path.read_text(encoding="utf-8")
    if source.count(old) != 1:
        sys.exit(f"{edit.name}: the text stands {source.count(old)} times in {file}")
    path.write_text(source.replace(old, new), encoding="utf-8")
    try:
        return not passes()
    finally:
        path.write_text(source, encoding="utf-8")


def main() -> int:
    """Plants each bug, and answers 1 where one isn't caught."""
    if not passes():
        sys.exit("the tests fail without a planted bug")
    missed = 0
    for edit in sorted((HERE.parent / "planted").glob("*.edit")):
        found = caught(edit)
        missed += not found
        print(f"{edit.stem}: {'caught' if found else 'MISSED'}", flush=True)
    return 1 if missed else 0


if __name__ == "__main__":
    sys.exit(main())
