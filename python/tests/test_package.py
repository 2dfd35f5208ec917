"""What the package is: its version, its program, its library's processor, its types."""

import os
import re
import shutil
import subprocess
import sys
import tarfile
import zipfile
from pathlib import Path

import numpy as np
import pytest

import sahvumbi
from sahvumbi import _library

PROJECT = Path(__file__).resolve().parents[1]
FLAGS = "flags\t\t: fpu " + " ".join(sorted(_library.NEEDED))


def ask(*words, **given):
    """Runs the program, and returns its status and what it printed."""
    command = [sys.executable, "-m", "sahvumbi", *words]
    ran = subprocess.run(command, capture_output=True, text=True, **given)
    return ran.returncode, ran.stdout, ran.stderr


def test_the_version():
    from importlib.metadata import version

    assert re.fullmatch(r"\d+\.\d+\.\d+", sahvumbi.__version__)
    assert version("sahvumbi") == sahvumbi.__version__


def test_the_program():
    status, said, _ = ask()
    assert status == 0 and said.startswith(f"sahvumbi {sahvumbi.__version__}, numpy ")
    status, said, _ = ask("America/New_York")
    assert status == 0
    first, *others = said.splitlines()
    assert re.fullmatch(r"\S+ E[SD]T \(offset -\d+ s(, daylight saving time)?\)", first)
    assert len(others) == 2 and all(" UTC: E" in line for line in others)
    status, said, wrong = ask("America/New_Yrok")
    assert (status, said) == (1, "") and "America/New_York" in wrong
    assert ask("--help")[0] == 0 and "usage" in ask("--help")[1]
    assert ask("--version") == (0, f"sahvumbi {sahvumbi.__version__}\n", "")
    if not _library.PATH.with_name("proof.json").exists():
        assert "rt lib in crates/zoned_ffi proves the library" in ask("--proof")[1]
    for words in (["one", "two"], ["--nothing"]):
        status, said, wrong = ask(*words)
        assert (status, said) == (2, "") and wrong.startswith("usage: python -m sahvumbi ")


def test_the_processor():
    _library.must_run_here("x86_64", f"processor\t: 0\n{FLAGS}\n\nflags : fpu")
    _library.must_run_here("x86_64", "")
    with pytest.raises(ImportError, match="this one lacks sse4_2$"):
        _library.must_run_here("x86_64", FLAGS.replace("sse4_2", "sse2"))
    with pytest.raises(ImportError, match="this is aarch64"):
        _library.must_run_here("aarch64", "")


def test_the_import_needs_numpy_alone():
    words = "import sahvumbi, sys; sahvumbi.Zone('Asia/Tokyo').to_local([0]); "
    words += "sys.exit(bool({'pandas', 'numpy.typing', 'pyarrow', 'cffi'} & set(sys.modules)))"
    subprocess.run([sys.executable, "-c", words], check=True)


@pytest.fixture(scope="module")
def project(tmp_path_factory):
    """A copy of the project, so that nothing is built beside its files."""
    folder = tmp_path_factory.mktemp("project") / "python"
    shutil.copytree(PROJECT, folder, ignore=shutil.ignore_patterns("build", "*.egg-info", "tests"))
    for name in ("LICENSE", "LICENSE-APACHE"):
        shutil.copy(PROJECT.parent / name, folder.parent)
    pytest.importorskip("wheel")
    if not (folder / "src/sahvumbi/libzoned_ffi.so").exists():
        pytest.skip("the library is not built")
    return folder


def built(project, *words):
    """Builds, and returns the file that is made."""
    out = project / "made"
    shutil.rmtree(out, ignore_errors=True)
    command = [sys.executable, "setup.py", "-q", *words, "-d", str(out)]
    ran = subprocess.run(command, cwd=project, capture_output=True, text=True)
    assert ran.returncode == 0, ran.stderr
    return next(out.iterdir())


def test_the_wheel(project):
    """What PyPI asks of it, and all that is in it."""
    wheel = built(project, "bdist_wheel")
    assert wheel.name == f"sahvumbi-{sahvumbi.__version__}-py3-none-manylinux2014_x86_64.whl"
    with zipfile.ZipFile(wheel) as files:
        names = files.namelist()
        metadata = files.read(next(name for name in names if name.endswith("METADATA"))).decode()
    assert {"License-File: LICENSE", "License-File: LICENSE-APACHE"} <= set(metadata.splitlines())
    # setuptools 77 and later has the name of PEP 639.
    assert re.search("^License(-Expression)?: MIT OR Apache-2.0$", metadata, re.MULTILINE)
    assert "\nAuthor: Sahvumbi maintainers\n" in metadata
    assert f"Version: {sahvumbi.__version__}" in metadata
    for name in ("sahvumbi/libzoned_ffi.so", "sahvumbi/py.typed", "sahvumbi/__main__.py"):
        assert name in names
    for name in ("LICENSE", "LICENSE-APACHE"):
        assert any(".dist-info/" in other and other.endswith(f"/{name}") for other in names)
    assert not any(name.startswith("tests") for name in names)


def test_the_wheel_with_numpy_alone(project, tmp_path):
    """As it is where nothing else is installed: -S leaves out the packages of this Python."""
    with zipfile.ZipFile(built(project, "bdist_wheel")) as files:
        files.extractall(tmp_path)
    (tmp_path / "numpy").symlink_to(Path(np.__file__).parent)
    words = """
import importlib.util, numpy, sahvumbi, sys
print(importlib.util.find_spec("pandas"), sahvumbi.__file__.startswith(sys.argv[1]))
twice = numpy.array(["2021-11-07T01:30"], "M8[ms]")
print(sahvumbi.Zone("America/New_York").localize(twice, fold="latest"))
"""
    command = [sys.executable, "-S", "-c", words, str(tmp_path)]
    where = {"PYTHONPATH": str(tmp_path)}
    ran = subprocess.run(command, cwd="/", env=where, capture_output=True, text=True)
    assert ran.stdout == "None True\n['2021-11-07T06:30:00.000']\n", ran.stderr


def test_the_sdist_has_no_library(project):
    with tarfile.open(built(project, "sdist")) as files:
        names = {Path(name).name for name in files.getnames()}
    assert {"LICENSE", "LICENSE-APACHE", "README.md", "setup.py", "zone.py", "py.typed"} <= names
    assert not any(name.endswith(".so") for name in names)


def test_the_sdist_takes_the_library_that_is_installed(project, tmp_path):
    with tarfile.open(built(project, "sdist")) as files:
        # Python 3.12 and later ask for a filter.
        files.extractall(tmp_path, **({"filter": "data"} if hasattr(tarfile, "data_filter") else {}))
    (folder,) = tmp_path.iterdir()
    command = [sys.executable, "setup.py", "-q", "bdist_wheel", "-d", str(tmp_path)]
    given = {"cwd": folder, "capture_output": True, "text": True}
    ran = subprocess.run(command, env={**os.environ, "ZONED_LIBRARY": "", "PATH": "/nowhere"}, **given)
    if not Path("/usr/local/lib/libzoned.so").exists():
        assert ran.returncode != 0 and "ZONED_LIBRARY names libzoned.so" in ran.stderr
    library = project / "src/sahvumbi/libzoned_ffi.so"
    ran = subprocess.run(command, env={**os.environ, "ZONED_LIBRARY": str(library)}, **given)
    assert ran.returncode == 0, ran.stderr
    with zipfile.ZipFile(next(tmp_path.glob("*.whl"))) as files:
        assert files.read("sahvumbi/libzoned_ffi.so") == library.read_bytes()
