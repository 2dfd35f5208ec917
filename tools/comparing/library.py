"""The static library for C, loaded as a shared one."""

import ctypes
import subprocess
from ctypes import POINTER, c_char_p, c_size_t, c_uint32, c_void_p
from pathlib import Path

from kit import kit
from sources import TOP, needs

ARCHIVE = TOP / "crates/zoned_ffi/out/libzoned_ffi.a"
FILE, OK = 0, 0


class Handle(ctypes.Structure):
    _fields_ = [("zone", c_void_p)]


def loaded(archive, folder, questions):
    """The library with its calls for opening and closing a zone, and those questions: for each its arguments after the zone."""
    needs("gcc", Path(archive))
    shared = Path(folder) / "libzoned_ffi.so"
    whole = ["-Wl,--whole-archive", str(archive), "-Wl,--no-whole-archive"]
    subprocess.run(["gcc", "-shared", "-o", str(shared), *whole, str(kit() / "c/liblibc_c.a")], check=True)
    library, zone = ctypes.CDLL(str(shared)), POINTER(Handle)
    library.zoned_open.argtypes, library.zoned_open.restype = [c_uint32, c_char_p, c_size_t, zone], c_uint32
    library.zoned_close.argtypes, library.zoned_close.restype = [zone], None
    for name, arguments in questions.items():
        call = getattr(library, name)
        call.argtypes, call.restype = [zone, *arguments], c_uint32
    return library
