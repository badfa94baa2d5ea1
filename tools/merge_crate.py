#!/usr/bin/env python3
"""Makes the modules of a helper crate modules of its one client.

    tools/merge_crate.py CLIENT HELPER    # from the top; nothing else may be uncommitted

Sources, definitions, proofs and edits move as they are; paths, imports and crates.txt follow, so `rt fmt` and `rt check` in
the client say the rest. It stops where two files would have one name, and prints the laws of the helper's lib.rt, which are
to be put in the client's by hand.
"""

import re
import subprocess
import sys
from pathlib import Path

CRATES = Path("crates")
PARTS = ("src", "specs", "proofs", "must-fail")


def git(*arguments: str) -> str:
    return subprocess.run(["git", *arguments], check=True, capture_output=True, text=True).stdout


def names_in(imports: str) -> list[str]:
    return [name.strip() for name in imports.replace("\n", " ").split(",") if name.strip()]


def exports(library: str) -> dict[str, str]:
    """The module of each name that the helper gives out."""
    found = {}
    for module, several, one in re.findall(r"(?m)^pub use (\w+)::(?:\{([^}]*)\}|(\w+));", library):
        for name in names_in(several or one):
            found[name] = module if module.startswith("rx_") else f"crate::{module}"
    return found


def move(client: str, helper: str) -> None:
    for part in PARTS:
        source, target = CRATES / helper / part, CRATES / client / part
        if not source.is_dir():
            continue
        target.mkdir(exist_ok=True)
        for file in sorted(source.iterdir()):
            if file.name in ("lib.rt", "Lib.antt"):
                continue
            if (target / file.name).exists():
                sys.exit(f"merge_crate: both have {part}/{file.name}")
            git("mv", str(file), str(target / file.name))
        if part in ("specs", "proofs"):
            listed = target / "Lib.antt"
            listed.write_text(listed.read_text().rstrip("\n") + "\n" + (source / "Lib.antt").read_text())


def add_modules(client: str, helper_library: str) -> None:
    path = CRATES / client / "src/lib.rt"
    text = path.read_text()
    modules = sorted(re.findall(r"(?m)^mod (\w+);", text + "\n" + helper_library))
    start = re.search(r"(?m)^mod \w+;\n|^#!\[tactic.*\n", text)
    if start is None:
        sys.exit(f"merge_crate: {path} has no module")
    place = start.start() if start.group().startswith("mod") else start.end()
    rest = re.sub(r"(?m)^mod \w+;\n", "", text[place:])
    path.write_text(text[:place] + "".join(f"mod {module};\n" for module in modules) + rest)


def follow(client: str, helper: str, where: dict[str, str]) -> None:
    """Paths and imports of all crates."""
    pattern = re.compile(rf"(?m)^use {helper}::(?:\{{([^}}]*)\}}|(\w+));")

    def imported(match: re.Match[str]) -> str:
        groups: dict[str, list[str]] = {}
        for name in names_in(match.group(1) or match.group(2)):
            groups.setdefault(where.get(name.split(" as ")[0], "crate"), []).append(name)
        return "\n".join(f"use {module}::{{{', '.join(names)}}};" for module, names in sorted(groups.items()))

    for file in git("ls-files", "crates").splitlines():
        path = Path(file)
        if path.suffix not in (".rt", ".antt") or not path.exists():
            continue
        text = path.read_text()
        new = text.replace(f"Rattle.{helper}.", f"Rattle.{client}.")
        if path.is_relative_to(CRATES / client):
            new = pattern.sub(imported, new)
        if new != text:
            path.write_text(new)


def list_crates(client: str, helper: str) -> None:
    path = Path("crates.txt")
    lines = path.read_text().splitlines()
    own = next(line for line in lines if line.startswith(f"{helper}:")).partition(":")[2].split()
    kept = []
    for line in lines:
        head, colon, rest = line.partition(":")
        if head == helper:
            continue
        if colon and not line.startswith("#"):
            names = [client if name == helper else name for name in rest.split()]
            if head.split()[0] == client:
                names = [name for name in [*names, *own] if name != client]
            line = f"{head}: {' '.join(dict.fromkeys(names))}".rstrip()
        kept.append(line)
    path.write_text("\n".join(kept) + "\n")


def main() -> None:
    if len(sys.argv) != 3:
        sys.exit((__doc__ or "").strip())
    client, helper = sys.argv[1:]
    library = (CRATES / helper / "src/lib.rt").read_text()
    move(client, helper)
    add_modules(client, library)
    git("rm", "-rq", str(CRATES / helper))
    subprocess.run(["rm", "-rf", str(CRATES / helper)], check=True)
    follow(client, helper, exports(library))
    list_crates(client, helper)
    git("add", "-A")
    laws = re.sub(r"(?m)^(//!|#!|mod |pub use ).*\n", "", library).strip()
    if laws:
        print(laws)


if __name__ == "__main__":
    main()
