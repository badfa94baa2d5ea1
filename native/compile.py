"""Compiles the static library of the crate in this folder, whose libraries `rt ci` proved and left beside it.

    compile.py KIT REPOSITORY

`rt ci` proves such a crate and compiles it not; `rt lib` compiles it, and proves each library below it once more. This takes
the kit's own module for the second, and the libraries of the first. The crate itself is proved again as it is compiled.
"""

import importlib
import os
import sys


def main() -> int:
    kit, repository = sys.argv[1:]
    sys.path.insert(0, os.path.join(kit, "bin"))
    crate = importlib.import_module("rtlib").Crate(os.getcwd(), repository, {})
    os.makedirs("out", exist_ok=True)
    return int(crate.compile([], f"out/lib{crate.name}.a"))


if __name__ == "__main__":
    sys.exit(main())
