"""The package as pip installs it, without a network: alone, with the library inside, and from an archive of sources."""

from __future__ import annotations

import base64
import hashlib
import json
import os
import shutil
import subprocess
import sys
import sysconfig
import venv
import zipfile
from pathlib import Path

import pytest

import rdfax

TOP = Path(__file__).resolve().parents[2]
VERSION = (TOP / "VERSION").read_text(encoding="ascii").strip()
LIBRARY = os.environ.get("RDFAX_LIBRARY", str(TOP / "built" / "librdfax.so.0"))
MENDER = TOP / "mend" / "out" / "librdfax_mend.so.0"
USE = """
import json, rdfax
print(json.dumps([rdfax.__version__, rdfax.__file__, rdfax.extract('<html><p property="schema:name">Anvil</p></html>', "http://h.example/d")]))
"""


@pytest.fixture
def python(tmp_path: Path) -> Path:
    venv.create(tmp_path / "environment", with_pip=True, symlinks=True)
    return tmp_path / "environment" / "bin" / "python"


def pip(python: Path, *words: str | Path, **settings: str) -> None:
    environment = {name: value for name, value in os.environ.items() if name != "RDFAX_LIBRARY"}
    proxies = {"PIP_INDEX_URL": "http://127.0.0.1:9/", "PIP_RETRIES": "0", "PIP_DISABLE_PIP_VERSION_CHECK": "1"}
    subprocess.run([python, "-m", "pip", "--quiet", *words], env={**environment, **proxies, **settings}, check=True)


def uses(python: Path, **settings: str) -> list[str]:
    environment = {name: value for name, value in os.environ.items() if name not in ("RDFAX_LIBRARY", "PYTHONPATH")}
    done = subprocess.run([python, "-I", "-c", USE], env={**environment, **settings}, capture_output=True, text=True, check=True)
    found: list[str] = json.loads(done.stdout)
    return found


def test_a_wheel_has_the_library_inside(python: Path, tmp_path: Path) -> None:
    pip(python, "wheel", "--no-deps", "--wheel-dir", tmp_path, TOP / "python", RDFAX_LIBRARY=LIBRARY)
    (wheel,) = tmp_path.glob("*.whl")
    platform = sysconfig.get_platform().replace("-", "_").replace(".", "_")
    assert wheel.name == f"rdfax-{VERSION}-py3-none-{platform}.whl"
    with zipfile.ZipFile(wheel) as files:
        assert files.testzip() is None
        assert files.read("rdfax/librdfax.so.0") == Path(LIBRARY).read_bytes()
        recorded = [line.rsplit(",", 2) for line in files.read(f"rdfax-{VERSION}.dist-info/RECORD").decode().splitlines()]
        assert [name for name, _, _ in recorded] == files.namelist()
        for name, digest, length in recorded[:-1]:
            content = files.read(name)
            assert digest == f"sha256={base64.urlsafe_b64encode(hashlib.sha256(content).digest()).rstrip(b'=').decode()}"
            assert int(length) == len(content)
    pip(python, "install", "--no-index", wheel)
    version, file, text = uses(python)
    assert version == VERSION == rdfax.__version__ and str(tmp_path) in file and "Anvil" in text
    subprocess.run([python, "-m", "pip", "check"], check=True, stdout=subprocess.DEVNULL)


def test_a_folder_is_installed(python: Path) -> None:
    pip(python, "install", TOP / "python")
    assert uses(python, RDFAX_LIBRARY=LIBRARY)[0] == VERSION


def test_a_folder_is_installed_to_be_edited(python: Path) -> None:
    pip(python, "install", "--editable", TOP / "python")
    version, file, _ = uses(python, RDFAX_LIBRARY=LIBRARY)
    assert version == VERSION and Path(file).is_relative_to(TOP)


def test_an_archive_of_sources_is_installed(python: Path, tmp_path: Path) -> None:
    script = f"import backend; print(backend.build_sdist({str(tmp_path)!r}))"
    environment = {**os.environ, "PYTHONPATH": str(TOP / "python")}
    name = subprocess.run([sys.executable, "-c", script], env=environment, capture_output=True, text=True, check=True).stdout.strip()
    pip(python, "install", tmp_path / name)
    assert uses(python, RDFAX_LIBRARY=LIBRARY)[0] == VERSION


def test_the_same_sources_give_the_same_wheel(python: Path, tmp_path: Path) -> None:
    for folder in ("one", "two"):
        copied = tmp_path / folder
        shutil.copytree(TOP / "python", copied / "python", ignore=shutil.ignore_patterns("tests", "__pycache__"))
        shutil.copy(TOP / "VERSION", copied)
        pip(python, "wheel", "--no-deps", "--wheel-dir", copied, copied / "python", RDFAX_LIBRARY=LIBRARY)
    one, two = (next((tmp_path / folder).glob("*.whl")).read_bytes() for folder in ("one", "two"))
    assert one == two


@pytest.mark.skipif(not MENDER.is_file(), reason="the mender isn't made")
def test_a_wheel_has_the_mender_inside(python: Path) -> None:
    pip(python, "install", TOP / "python", RDFAX_LIBRARY=LIBRARY)
    script = "import rdfax; print(rdfax.mend('<p>Anvil').page.decode())"
    environment = {name: value for name, value in os.environ.items() if name not in ("RDFAX_LIBRARY", "RDFAX_MEND_LIBRARY", "PYTHONPATH")}
    done = subprocess.run([python, "-I", "-c", script], env=environment, capture_output=True, text=True, check=True)
    assert done.stdout == "<html><head></head><body><p>Anvil</p></body></html>\n"
