"""The library as a file: its symbols, and installed, with the program, below a folder."""

from __future__ import annotations

import os
import re
import subprocess

from answers import HERE
from embed import header

PAGE, ADDRESS = os.path.join(HERE, "examples/product.html"), "http://shop.example/anvil"
FILES = {
    "bin/rdfax", "include/rdfax.h", "lib/librdfax.a", "lib/librdfax.so", "lib/librdfax.so.0", "lib/librdfax.so.VERSION", "lib/pkgconfig/rdfax.pc",
    "share/man/man1/rdfax.1", "share/man/man3/rdfax.3",
}
# what comes with them where the mender was made, and where lexbor was fetched for it
MENDER, LEXBOR = os.path.join(HERE, "mend/out/rdfax-mend"), os.path.join(HERE, "mend/out/lexbor")
FILES_OF_MENDER = {
    "bin/rdfax-mend", "include/rdfax_mend.h", "lib/librdfax_mend.a", "lib/librdfax_mend.so", "lib/librdfax_mend.so.0",
    "share/man/man1/rdfax-mend.1",
}
COPYRIGHT_OF_LEXBOR = "share/doc/rdfax-mend/lexbor-copyright"


def said(*words: str, **settings: str) -> str:
    return subprocess.run(words, env={**os.environ, **settings}, stdout=subprocess.PIPE, text=True, check=True).stdout


def calls_of_header() -> set[str]:
    return set(re.findall(r"^[a-z][\w *]*?\b(rdfax_\w+)\(", header.read("include/rdfax.h"), re.MULTILINE))


def symbols_hold(libraries: str) -> bool:
    """Whether exactly the calls of the header are seen from outside, and the shared library has its name and needs the C library alone."""
    static, shared = os.path.join(libraries, "librdfax.a"), os.path.join(libraries, "librdfax.so")
    listed = {kind: set(re.findall(r" [TW] (\w+)$", said("nm", *words), re.MULTILINE)) for kind, words in {"a": ["-g", static], "so": ["-D", shared]}.items()}
    dynamic = said("readelf", "-d", shared)
    names = re.findall(r"\((NEEDED|SONAME)\).*\[(.*)\]", dynamic)
    right = all(found == calls_of_header() for found in listed.values()) and names == [("NEEDED", "libc.so.6"), ("SONAME", "librdfax.so.0")]
    told = "are the header's calls alone, the shared one is librdfax.so.0 and needs libc.so.6 alone"
    print(f"symbols: of both libraries {told}" if right else f"symbols: WRONG: {listed}, {names}")
    return right


def files_below(folder: str) -> set[str]:
    version = header.version()
    return {os.path.relpath(os.path.join(at, name), folder).replace(version, "VERSION") for at, _, names in os.walk(folder) for name in names}


def works(folder: str, prefix: str) -> bool:
    """Whether the installed program and the example, linked by pkg-config, write the same; the example with either library."""
    wanted = said(os.path.join(prefix, "bin/rdfax"), "extract", "--format", "turtle", "--base", ADDRESS, PAGE)
    path = {"PKG_CONFIG_PATH": os.path.join(prefix, "lib/pkgconfig")}
    flags = said("pkg-config", "--cflags", "--libs", "rdfax", **path).split()
    source, found = os.path.join(HERE, "examples/embed/one.c"), []
    for kind, words in {"shared": flags, "static": ["-static", *flags]}.items():
        program = os.path.join(folder, kind)
        said("cc", "-o", program, source, *words)
        with open(PAGE, "rb") as page:
            settings = {**os.environ, "LD_LIBRARY_PATH": os.path.join(prefix, "lib")}
            found.append(subprocess.run([program, ADDRESS], stdin=page, stdout=subprocess.PIPE, text=True, env=settings, check=False).stdout)
    return found == [wanted, wanted] and said("pkg-config", "--modversion", "rdfax", **path).strip() == header.version()


def wanted_files() -> set[str]:
    if not os.path.exists(MENDER):
        return FILES
    return FILES | FILES_OF_MENDER | ({COPYRIGHT_OF_LEXBOR} if os.path.exists(LEXBOR) else set())


def install_holds(folder: str) -> bool:
    """Whether ./install copies all below a folder, where it is used, and with DESTDIR the same below that."""
    install, prefix, root = os.path.join(HERE, "install"), os.path.join(folder, "prefix"), os.path.join(folder, "root")
    said(install, prefix)
    said(install, "/usr", DESTDIR=root)
    right = files_below(prefix) == files_below(os.path.join(root, "usr")) == wanted_files() and works(folder, prefix)
    right = right and "\nlibdir=/usr/lib\n" in said("cat", os.path.join(root, "usr/lib/pkgconfig/rdfax.pc"))
    print(f"install: {'program and example, by pkg-config, shared and static, write the same; DESTDIR holds' if right else 'WRONG'}")
    return right
