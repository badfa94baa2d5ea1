"""How pip builds the package: a wheel of the modules, and of the shared objects that there are.

This is a build backend (PEP 517) that needs Python's standard library alone, so that `pip install ./python` works in a
fresh virtual environment without a network: such a one has no `wheel`, and from Python 3.12 on no setuptools either.

The library is the file that RDFAX_LIBRARY names, else the one that `./build` made; the mender's is the one that
RDFAX_MEND_LIBRARY names, else the one of `make -C mend`. A wheel without them is of the modules alone, and the package uses
the system's.
"""

from __future__ import annotations

import base64
import functools
import hashlib
import io
import os
import sysconfig
import tarfile
import tomllib
import zipfile
from collections.abc import Iterable, Iterator, Mapping
from pathlib import Path
from typing import Any

HERE = Path(__file__).resolve().parent
# The variable that names each shared object, and where it is else.
SHARED_OBJECTS = {"RDFAX_LIBRARY": "built/librdfax.so.0", "RDFAX_MEND_LIBRARY": "mend/out/librdfax_mend.so.0"}
# Files have one time, so that the same sources give the same wheel: the first that a zip file can tell.
EPOCH = (1980, 1, 1, 0, 0, 0)

Settings = Mapping[str, Any] | None
Files = Iterable[tuple[str, bytes]]


@functools.cache
def version() -> str:
    """The version, from the repository's one file, which an archive of sources has beside this module."""
    path = next(folder / "VERSION" for folder in (HERE, HERE.parent) if (folder / "VERSION").is_file())
    return path.read_text(encoding="ascii").strip()


@functools.cache
def _declared() -> dict[str, Any]:
    return tomllib.loads((HERE / "pyproject.toml").read_text(encoding="utf-8"))


def project() -> dict[str, Any]:
    """The table `project` of pyproject.toml."""
    table: dict[str, Any] = _declared()["project"]
    return table


def _shared_objects() -> list[tuple[str, bytes]]:
    """The shared objects that go into the wheel, as far as there are any, with the copyright of what is linked into one."""
    found = []
    for variable, made in SHARED_OBJECTS.items():
        path = Path(os.environ.get(variable) or HERE.parent / made)
        if path.is_file() or os.environ.get(variable):
            found.append((f"rdfax/{Path(made).name}", path.read_bytes()))
            found += [("rdfax/lexbor-copyright", notice.read_bytes()) for notice in path.parent.glob("lexbor/copyright")]
    return found


def metadata() -> str:
    """The file METADATA of a wheel, and PKG-INFO of an archive of sources."""
    return "\n".join([*_headers(), "", (HERE / project()["readme"]).read_text(encoding="utf-8")])


def _headers() -> Iterator[str]:
    yield from ("Metadata-Version: 2.1", f"Name: {project()['name']}", f"Version: {version()}", f"Summary: {project()['description']}")
    yield f"Requires-Python: {project()['requires-python']}"
    yield from (f"Classifier: {classifier}" for classifier in project()["classifiers"])
    for extra, requirements in project()["optional-dependencies"].items():
        yield f"Provides-Extra: {extra}"
        yield from (f'Requires-Dist: {requirement}; extra == "{extra}"' for requirement in requirements)
    yield "Description-Content-Type: text/markdown"


def entry_points() -> str:
    """The file entry_points.txt."""
    groups = [[f"[{group}]", *(f"{name} = {place}" for name, place in points.items())] for group, points in project()["entry-points"].items()]
    return "\n\n".join("\n".join(lines) for lines in groups) + "\n"


def _modules() -> Files:
    for path in sorted((HERE / "rdfax").rglob("*.py")):
        yield path.relative_to(HERE).as_posix(), path.read_bytes()
    yield from _package_data()
    yield "rdfax/py.typed", b""
    yield "rdfax/VERSION", f"{version()}\n".encode()


def _package_data() -> Files:
    """The files of the package that are no modules, and the repository's examples, which the page to look at offers."""
    for path in sorted(path for pattern in _declared()["tool"]["backend"]["package-data"] for path in HERE.glob(pattern)):
        yield path.relative_to(HERE).as_posix(), path.read_bytes()
    for path in sorted((HERE.parent / "examples").glob("*.html")):
        yield f"rdfax/serving/examples/{path.name}", path.read_bytes()


def _write_wheel(folder: str, tag: str, files: Files) -> str:
    """Writes a wheel of these files, and answers its name."""
    name, information = f"rdfax-{version()}-{tag}.whl", f"rdfax-{version()}.dist-info"
    pure = "true" if tag.endswith("-any") else "false"
    about = [
        (f"{information}/METADATA", metadata().encode()),
        (f"{information}/WHEEL", f"Wheel-Version: 1.0\nGenerator: rdfax\nRoot-Is-Purelib: {pure}\nTag: {tag}\n".encode()),
        (f"{information}/entry_points.txt", entry_points().encode()),
    ]
    record = ""
    with zipfile.ZipFile(Path(folder, name), "w") as wheel:
        for path, content in [*files, *about]:
            wheel.writestr(_entry(path), content)
            record += f"{path},sha256={_digest(content)},{len(content)}\n"
        wheel.writestr(_entry(f"{information}/RECORD"), f"{record}{information}/RECORD,,\n")
    return name


def _entry(path: str) -> zipfile.ZipInfo:
    entry = zipfile.ZipInfo(path, EPOCH)
    entry.compress_type, entry.external_attr = zipfile.ZIP_DEFLATED, 0o644 << 16
    return entry


def _digest(content: bytes) -> str:
    return base64.urlsafe_b64encode(hashlib.sha256(content).digest()).rstrip(b"=").decode()


def build_wheel(wheel_directory: str, config_settings: Settings = None, metadata_directory: str | None = None) -> str:
    """Writes the wheel: for any system, or for this one where a shared object is inside."""
    inside = _shared_objects()
    if not inside:
        return _write_wheel(wheel_directory, "py3-none-any", _modules())
    platform = sysconfig.get_platform().replace("-", "_").replace(".", "_")
    return _write_wheel(wheel_directory, f"py3-none-{platform}", [*_modules(), *inside])


def build_editable(wheel_directory: str, config_settings: Settings = None, metadata_directory: str | None = None) -> str:
    """Writes a wheel that names this folder, as `pip install --editable` asks for."""
    return _write_wheel(wheel_directory, "py3-none-any", [("rdfax.pth", f"{HERE}\n".encode())])


def build_sdist(sdist_directory: str, config_settings: Settings = None) -> str:
    """Writes the archive of sources, without a shared object."""
    top = f"rdfax-{version()}"
    own = [(name, (HERE / name).read_bytes()) for name in ("pyproject.toml", "backend.py", project()["readme"])]
    with tarfile.open(Path(sdist_directory, f"{top}.tar.gz"), "w:gz", format=tarfile.PAX_FORMAT) as archive:
        for name, content in [*own, *_modules(), ("VERSION", version().encode()), ("PKG-INFO", metadata().encode())]:
            entry = tarfile.TarInfo(f"{top}/{name}")
            entry.size = len(content)
            archive.addfile(entry, io.BytesIO(content))
    return f"{top}.tar.gz"
