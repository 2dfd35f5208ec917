"""The package's table of the library against the plain declarations of the C header, as cffi reads them."""

import ctypes
import re
from pathlib import Path

import numpy as np
import pytest

from sahvumbi import _library, errors

cffi = pytest.importorskip("cffi")
HEADER = Path(__file__).parents[2] / "crates/zoned_ffi/include/zoned_ffi.h"
if not HEADER.exists():
    pytest.skip("the header is not here", allow_module_level=True)
TEXT = HEADER.read_text()
PLAIN = TEXT.partition("/* Plain declarations begin")[2].partition("*/")[2].partition("/* Plain declarations end")[0]
FFI = cffi.FFI()
FFI.cdef(PLAIN)
LIBRARY = FFI.dlopen(str(_library.PATH))
STRUCTS = {
    _library.Handle: "zoned_zone",
    _library.LocalType: "zoned_local_type",
    _library.Change: "zoned_change",
    _library.Span: "zoned_span",
    _library.WallClock: "zoned_wall_clock",
    _library.Resolved: "zoned_resolved",
    _library.Saving: "zoned_saving",
    _library.Day: "zoned_day",
}
DTYPES = {
    "zoned_local_type": _library.LOCAL_TYPE,
    "zoned_change": _library.CHANGE,
    "zoned_span": _library.SPAN,
    "zoned_wall_clock": _library.WALL_CLOCK,
    "zoned_resolved": _library.RESOLVED,
}
#: Types of C and of ctypes. A call takes the place of an answer as an address.
TYPES = {
    "int32_t": ctypes.c_int32,
    "int64_t": ctypes.c_int64,
    "uint32_t": ctypes.c_uint32,
    "size_t": ctypes.c_size_t,
}


@pytest.mark.parametrize("struct", STRUCTS)
def test_structs(struct):
    kind = FFI.typeof(f"struct {STRUCTS[struct]}")
    assert ctypes.sizeof(struct) == FFI.sizeof(kind)
    assert [name.rstrip("_") for name, _ in struct._fields_] == [name for name, _ in kind.fields]
    for (name, own), (_, field) in zip(struct._fields_, kind.fields):
        assert getattr(struct, name).offset == field.offset
        assert type_of(own) == field.type.cname.replace("struct ", "")


def type_of(kind):
    """The name that C has for a type of ctypes."""
    names = {own: name for name, own in TYPES.items()}
    if kind is ctypes.c_void_p:
        return "void *"
    if hasattr(kind, "_length_"):
        return f"char[{kind._length_}]"
    return STRUCTS.get(kind) or names[kind]


@pytest.mark.parametrize("name", DTYPES)
def test_types_of_numpy(name):
    kind, dtype = FFI.typeof(f"struct {name}"), DTYPES[name]
    assert dtype.itemsize == FFI.sizeof(kind)
    for (_, field), own in zip(kind.fields, dtype.names):
        own_type, offset = dtype.fields[own]
        assert (offset, own_type.itemsize) == (field.offset, FFI.sizeof(field.type))
        if field.type.kind == "primitive":
            assert own_type == np.dtype(field.type.cname.removesuffix("_t"))


@pytest.mark.parametrize("name", [*_library.CALLS, *_library.BRIEF_CALLS])
def test_calls(name):
    takes = {**_library.CALLS, **_library.BRIEF_CALLS}[name]
    kind = FFI.typeof(getattr(LIBRARY, name))
    assert kind.result.cname == "uint32_t" and len(takes) == len(kind.args)
    for own, argument in zip(takes, kind.args):
        if argument.kind == "pointer":
            assert own in (ctypes.c_void_p, ctypes.c_char_p)
        else:
            assert own is TYPES[argument.cname]


def test_numbers():
    found = {}
    for name in re.findall(r"enum (zoned_\w+)", PLAIN):
        found.update(FFI.typeof(f"enum {name}").relements)
    own = {name: value for name, value in vars(_library).items() if f"ZONED_{name}" in found}
    assert {"FILE", "GAP_END", "FOLD_LATEST", "NEVER", "IN_GAP", "NO_CHANGE", "WIDE_ZONE"} <= set(own)
    assert own == {name: found[f"ZONED_{name}"] for name in own}
    assert re.search(r"#define ZONED_NO_OFFSET INT32_MIN\n", TEXT) and _library.NO_OFFSET == -(2**31)


def test_words():
    """The words of an error are the library's, and each number of a zone or of a row has some."""
    text = FFI.new("char[128]")
    for number, words in errors.WORDS.items():
        if number != errors.NO_OFFSET:
            LIBRARY.zoned_error_text(number, text, 128)
            assert FFI.string(text).decode() == words
    faults = {number for name, number in FFI.typeof("enum zoned_number").relements.items() if 3 <= number < 31}
    assert faults | {41, 42, 43, 44} == set(errors.WORDS) - {errors.NO_OFFSET}
