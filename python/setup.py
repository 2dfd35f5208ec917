"""What pyproject.toml can't say: a wheel has the library, and is for the machines that run it."""

import os
import re
import shutil
import subprocess
import sys
from pathlib import Path

import setuptools

try:
    from setuptools.command.bdist_wheel import bdist_wheel
except ImportError:  # setuptools before 70.1
    from wheel.bdist_wheel import bdist_wheel

HERE = Path(__file__).resolve().parent
LIBRARY = HERE / "src/sahvumbi/libzoned_ffi.so"
MACHINE = "x86_64"
# The newest C library that manylinux2014 may need (PEP 599).
GLIBC = 2, 17
LICENSE = "MIT OR Apache-2.0"


class ForThisMachine(setuptools.Distribution):
    """The package has no module to compile, and yet is no package for every machine."""

    def has_ext_modules(self):
        return True


class ForEachPython(bdist_wheel):
    """The library is called by ctypes, so one wheel serves each Python 3."""

    def run(self):
        if not LIBRARY.exists():
            shutil.copyfile(installed_library(), LIBRARY)
        super().run()

    def get_tag(self):
        return "py3", "none", f"{family()}_{MACHINE}"


def installed_library():
    """Returns libzoned.so as it is installed on this machine. An sdist has no library of its own."""
    named = os.environ.get("ZONED_LIBRARY")
    if named:
        return Path(named)
    asked = ["pkg-config", "--variable=libdir", "zoned"]
    try:
        folder = subprocess.run(asked, capture_output=True, text=True, check=True).stdout.strip()
    except (OSError, subprocess.CalledProcessError):
        folder = "/usr/local/lib"
    found = Path(folder, "libzoned.so")
    if not found.exists():
        sys.exit(f"neither {LIBRARY} nor {found} exists: ZONED_LIBRARY names libzoned.so, which README says how to build")
    return found


def family():
    """Returns the kind of Linux that the library runs on, by the C library that it needs."""
    needed = re.findall(rb"GLIBC_(\d+)\.(\d+)", LIBRARY.read_bytes())
    newest = max((int(major), int(minor)) for major, minor in needed)
    return "manylinux2014" if newest <= GLIBC else "linux"


def license_of():
    """Returns the licence by the keyword of this setuptools: that of PEP 639 came with 77."""
    is_new = int(setuptools.__version__.partition(".")[0]) >= 77
    return {"license_expression" if is_new else "license": LICENSE}


for name in ("LICENSE", "LICENSE-APACHE"):
    if (HERE.parent / name).exists():
        shutil.copyfile(HERE.parent / name, HERE / name)
setuptools.setup(distclass=ForThisMachine, cmdclass={"bdist_wheel": ForEachPython}, **license_of())
