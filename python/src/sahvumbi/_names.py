"""Zones by name: files of the tz database, or of the package `tzdata`."""

from __future__ import annotations

import difflib
import errno
import os
import stat
import struct
import zoneinfo
from importlib import resources
from typing import BinaryIO, Optional, Union

from .errors import ZoneNotFoundError, printable

HEADER = 44
# A footer is a TZ string between newlines. One of this length would have names of no use.
FOOTER = 1 << 16


def zones() -> list[str]:
    """Returns the names that `Zone` opens, in order.

    They are those of `zoneinfo.available_timezones`: of the folders of `zoneinfo.TZPATH`, and of
    the package `tzdata` if it is installed.

    >>> from sahvumbi import zones
    >>> "America/New_York" in zones()
    True
    """
    return sorted(zoneinfo.available_timezones())


def bytes_of_key(key: str) -> bytes:
    """Returns the TZif file of a name. Raises `ZoneNotFoundError` if no zone has the name."""
    if not isinstance(key, str):
        remedy = ": use Zone.from_zoneinfo" if isinstance(key, zoneinfo.ZoneInfo) else ""
        raise TypeError(f"the name of a zone is a str, and not {type(key).__name__}{remedy}")
    found = None
    if _is_name(key):
        found = _of_folders(key)
        if found is None:
            found = _of_tzdata(key)
    if found is None:
        raise ZoneNotFoundError(_not_found(key))
    return found


def zoneinfo_of(key: str) -> zoneinfo.ZoneInfo:
    """Returns the ZoneInfo of a name. Raises `ZoneNotFoundError` if no zone has the name."""
    try:
        return zoneinfo.ZoneInfo(key)
    except (LookupError, OSError, ValueError):
        raise ZoneNotFoundError(_not_found(key)) from None


def bytes_of_file(path: Union[str, os.PathLike[str]]) -> bytes:
    """Returns the bytes of a file, as many as its headers say that a TZif file has.

    Raises OSError if it can't be read, also if it is a pipe or a device: those are not waited for.
    """
    with open(path, "rb", opener=_opened) as file:
        status = os.fstat(file.fileno())
        if not stat.S_ISREG(status.st_mode):
            raise OSError(errno.EINVAL, "not a regular file", os.fspath(path))
        return _bytes_of_zone(file, status.st_size)


def _opened(path: str, flags: int) -> int:
    return os.open(path, flags | os.O_NONBLOCK)


def _bytes_of_zone(file: BinaryIO, size: int) -> bytes:
    """Returns the blocks of a TZif file (RFC 8536, section 3), and what may be its footer.

    A header may say any number: what is read takes no more memory than the file has bytes."""
    data = file.read(HEADER)
    if len(data) < HEADER or data[:4] != b"TZif":
        return data
    data += file.read(min(size, _block(data, 4)))
    if data[4] == 0:
        return data + file.read(1)
    header = file.read(HEADER)
    if len(header) == HEADER:
        header += file.read(min(size, _block(header, 8)))
    return data + header + file.read(FOOTER)


def _block(header: bytes, size: int) -> int:
    """Returns the length of the block that follows a header, with times of `size` bytes."""
    utc, standard, leap, times, types, names = struct.unpack(">6L", header[20:HEADER])
    length: int = times * (size + 1) + types * 6 + names + leap * (size + 4) + standard + utc
    return length


def _is_name(key: str) -> bool:
    """Returns whether a name is a relative path that leads to no other folder."""
    parts = key.split("/")
    return key.isprintable() and not {"", ".", ".."} & set(parts) and "\\" not in key


def _of_folders(key: str) -> Optional[bytes]:
    for folder in zoneinfo.TZPATH:
        path = os.path.join(folder, key)
        if os.path.isfile(path):
            return bytes_of_file(path)
    return None


def _of_tzdata(key: str) -> Optional[bytes]:
    *folders, name = key.split("/")
    try:
        folder = resources.files(".".join(["tzdata", "zoneinfo", *folders]))
        return folder.joinpath(name).read_bytes()
    except (ImportError, OSError, ValueError):
        return None


def _not_found(key: str) -> str:
    shown = f"no zone has the name {printable(key)!r}"
    if os.path.isabs(key):
        return f"{shown}: Zone.from_file opens a path"
    if "," in key:
        return f"{shown}: Zone.from_text reads a TZ string"
    folders, names = ", ".join(zoneinfo.TZPATH) or "TZPATH", zones()
    if not names:
        return f"{shown}: no tz database is in {folders}, and pip install tzdata brings one"
    near = difflib.get_close_matches(key[:40], names, 1, cutoff=0.8)
    hint = f"; is it {near[0]!r}?" if near else ""
    return f"{shown} in {folders}, the package tzdata{hint}"
