"""Zones by name, of the tz database and of the package tzdata; files that are none."""

import importlib.util
import os
import pickle
import struct
import sys
import threading
import time
import weakref
import zoneinfo
from pathlib import Path
from zoneinfo import ZoneInfo

import numpy as np
import pytest
from definitions import tzif

import sahvumbi
from sahvumbi import Zone, _names
from sahvumbi.errors import WIDTH, printable

DATABASE = Path("/usr/share/zoneinfo")
NEW_YORK = Zone("America/New_York")


@pytest.fixture
def folders():
    """Sets the folders of zoneinfo for a test."""
    yield lambda *paths: zoneinfo.reset_tzpath([str(path) for path in paths])
    zoneinfo.reset_tzpath()


SECONDS = np.arange(-(2**32), 2**32, 10**7)


# Names


def test_a_zone_by_name():
    zone = Zone("America/New_York")
    assert zone.key == "America/New_York" and repr(zone) == "Zone('America/New_York')"
    assert zone == Zone.from_file(DATABASE / zone.key) and hash(zone) == hash(NEW_YORK)
    assert Zone.from_text("EST5").key is None and Zone.from_file(DATABASE / zone.key).key is None
    assert eval(repr(Zone.from_text("EST5")), {"Zone": Zone}) == Zone.from_text("EST5")


def test_each_name():
    names = sahvumbi.zones()
    assert names == sorted(zoneinfo.available_timezones()) and len(names) > 400
    for name in names:
        assert Zone(name).key == name


def test_names_follow_the_path_of_zoneinfo(tmp_path, folders):
    (tmp_path / "Here").mkdir()
    (tmp_path / "Here/Now").write_bytes(tzif([], [(3_600, False, "NOW")]))
    with pytest.raises(sahvumbi.ZoneNotFoundError):
        Zone("Here/Now")
    folders(tmp_path / "none", tmp_path, *zoneinfo.TZPATH)
    assert Zone("Here/Now").offsets([0]).tolist() == [3_600]
    assert "Here/Now" in sahvumbi.zones()
    assert Zone("America/New_York") == NEW_YORK


def test_names_of_the_package_tzdata(tmp_path, monkeypatch, folders):
    """Where no folder has the name, as on a machine without a tz database."""
    folder = tmp_path / "tzdata/zoneinfo/America"
    folder.mkdir(parents=True)
    for package in (folder.parent, folder):
        (package / "__init__.py").touch()
    (tmp_path / "tzdata/__init__.py").write_text("__version__ = '2025.2'\n")
    (folder / "New_York").write_bytes((DATABASE / "America/New_York").read_bytes())
    (tmp_path / "tzdata/zones").write_text("America/New_York\n")
    folders()
    monkeypatch.syspath_prepend(tmp_path)
    forget_tzdata()
    assert Zone("America/New_York") == NEW_YORK
    assert sahvumbi.zones() == ["America/New_York"]
    for name in ("America", "America/Nowhere", "Nowhere/None", "America.New_York"):
        with pytest.raises(sahvumbi.ZoneNotFoundError):
            Zone(name)
    forget_tzdata()


def test_no_tz_database(folders):
    """As in a container that has no /usr/share/zoneinfo, nor the package."""
    folders()
    forget_tzdata()
    if importlib.util.find_spec("tzdata"):
        pytest.skip("the package tzdata is installed")
    assert sahvumbi.zones() == []
    with pytest.raises(sahvumbi.ZoneNotFoundError, match="no tz database is in TZPATH"):
        Zone("America/New_York")
    assert Zone.from_text("EST5").offsets([0]).tolist() == [-18_000]


def forget_tzdata():
    for name in [name for name in sys.modules if name.split(".")[0] == "tzdata"]:
        del sys.modules[name]


@pytest.mark.parametrize(
    "name, words",
    [
        ("America/New_Yrok", "is it 'America/New_York'"),
        ("EDT", "no zone has the name 'EDT' in /usr/share/zoneinfo"),
        ("/usr/share/zoneinfo/Asia/Kolkata", "from_file opens a path"),
        ("EST5EDT,M3.2.0,M11.1.0", "from_text reads a TZ string"),
        ("", "no zone has the name ''"),
        ("America", "no zone has the name 'America'"),
        ("../zoneinfo/Asia/Kolkata", "no zone"),
        ("Asia/../Asia/Kolkata", "no zone"),
        ("Asia//Kolkata", "no zone"),
        ("./Asia/Kolkata", "no zone"),
        ("Asia/Kolkata/", "no zone"),
        ("Asia\\Kolkata", "no zone"),
        ("Asia/Kolkata\0", "no zone"),
        ("\ud800", "no zone"),
        ("a" * 10**6, "no zone"),
    ],
)
def test_names_that_no_zone_has(name, words):
    with pytest.raises(zoneinfo.ZoneInfoNotFoundError) as raised:
        Zone(name)
    text = str(raised.value)
    assert words in text and text.isprintable() and len(text) < 1_000
    assert "is it" not in text or name != "EDT"
    assert isinstance(raised.value, sahvumbi.ZoneNotFoundError)
    assert isinstance(raised.value, KeyError)
    assert str(pickle.loads(pickle.dumps(raised.value))) == text


@pytest.mark.parametrize("name", [None, 5, b"America/New_York", Path("America/New_York")])
def test_names_are_texts(name):
    with pytest.raises(TypeError, match="the name of a zone is a str"):
        Zone(name)


def test_a_zoneinfo():
    assert Zone.from_zoneinfo(ZoneInfo("America/New_York")) == NEW_YORK
    assert Zone.from_zoneinfo(ZoneInfo("America/New_York")).key == "America/New_York"
    with (DATABASE / "America/New_York").open("rb") as file:
        nameless = ZoneInfo.from_file(file)
    with pytest.raises(ValueError, match="has no key"):
        Zone.from_zoneinfo(nameless)
    with pytest.raises(TypeError, match="takes a ZoneInfo, and not str"):
        Zone.from_zoneinfo("America/New_York")


# Objects


class Named(Zone):
    """A subclass."""


def test_what_a_pickle_keeps():
    utc = Named.from_bytes(tzif([], [(0, False, "UTC")]))
    for zone in (NEW_YORK, Named("Asia/Kolkata"), Zone.from_text("EST5"), utc):
        again = pickle.loads(pickle.dumps(zone))
        assert again == zone and type(again) is type(zone)
        assert (again.key, repr(again)) == (zone.key, repr(zone))
        np.testing.assert_array_equal(again.to_local(SECONDS), zone.to_local(SECONDS))


def test_a_pickle_needs_no_database(folders):
    data = pickle.dumps(NEW_YORK)
    folders()
    assert pickle.loads(data) == NEW_YORK


def test_weak_references():
    zone = Zone("Asia/Kolkata")
    weak = weakref.ref(zone)
    assert weak() is zone
    del zone
    assert weak() is None
    with pytest.raises(AttributeError):
        NEW_YORK.other = 1
    with pytest.raises(AttributeError):
        NEW_YORK.key = "Asia/Kolkata"


def test_dask_knows_a_zone_again():
    tokenize = pytest.importorskip("dask.base").tokenize
    assert tokenize(NEW_YORK) == tokenize(Zone("America/New_York"))
    assert tokenize(NEW_YORK) == tokenize(Zone.from_file(DATABASE / "America/New_York"))
    assert tokenize(NEW_YORK) != tokenize(Zone("Asia/Kolkata"))
    assert tokenize(NEW_YORK.to_local) == tokenize(Zone("America/New_York").to_local)


# Files


def test_a_pipe_is_not_waited_for(tmp_path):
    os.mkfifo(tmp_path / "pipe")
    raised = []

    def read():
        try:
            Zone.from_file(tmp_path / "pipe")
        except OSError as error:
            raised.append(error)

    thread = threading.Thread(target=read, daemon=True)
    thread.start()
    thread.join(10)
    assert len(raised) == 1 and "not a regular file" in str(raised[0])
    with pytest.raises(OSError, match="not a regular file"):
        Zone.from_file("/dev/null")
    with pytest.raises(IsADirectoryError) as of_folder:
        Zone.from_file(tmp_path)
    assert of_folder.value.filename == str(tmp_path)


def test_no_more_is_read_than_a_file_has(tmp_path):
    """A file of 4 GB with the head of a zone, and one with none."""
    data = (DATABASE / "America/New_York").read_bytes()
    for head in (data, b"", data[:4] + b"\0" + data[5:]):
        with (tmp_path / "large").open("wb") as file:
            file.write(head)
            file.truncate(2**32)
        assert len(_names.bytes_of_file(tmp_path / "large")) <= len(data) + _names.FOOTER
        with pytest.raises(sahvumbi.ZoneRefusedError) as raised:
            Zone.from_file(tmp_path / "large")
        assert raised.value.number == 5


def test_a_header_may_say_any_number(tmp_path):
    """Of 146 GB that this one says none is there."""
    data = b"TZif2" + bytes(15) + b"\xff" * 24
    (tmp_path / "head").write_bytes(data)
    for read in (lambda: Zone.from_bytes(data), lambda: Zone.from_file(tmp_path / "head")):
        with pytest.raises(sahvumbi.ZoneRefusedError) as raised:
            read()
        assert raised.value.number == 7


def test_each_file_is_read_whole():
    paths = [path for path in DATABASE.rglob("*") if path.is_file()]
    paths = [path for path in paths if path.read_bytes()[:4] == b"TZif"]
    assert len(paths) > 400
    for path in paths:
        assert _names.bytes_of_file(path) == path.read_bytes()


@pytest.mark.parametrize("count", [0, 3, 43, 44, 60, 200, -1])
def test_files_that_end_early(tmp_path, count):
    data = (DATABASE / "America/New_York").read_bytes()[:count]
    (tmp_path / "short").write_bytes(data)
    assert _names.bytes_of_file(tmp_path / "short") == data
    with pytest.raises(sahvumbi.ZoneRefusedError) as of_bytes:
        Zone.from_bytes(data)
    with pytest.raises(sahvumbi.ZoneRefusedError) as of_file:
        Zone.from_file(tmp_path / "short")
    assert of_file.value.number == of_bytes.value.number


@pytest.mark.parametrize(
    "text, position",
    [("EST5EDT,M3.2.0,M13.1.0", 16), (" EST5EDT", 8), ("UTC", 3), ("UTC0\u00e9", 4), ("   ", 3)],
)
def test_a_fault_of_a_text_has_a_position(text, position):
    with pytest.raises(sahvumbi.ZoneRefusedError, match=f"at offset {position}$") as raised:
        Zone.from_text(text)
    assert raised.value.position == position
    assert pickle.loads(pickle.dumps(raised.value)).position == position


# Counted by RFC 8536, section 3.1: four bytes, the version, and six counts of four bytes from the byte 20 on, the fifth of them
# that of the types.
@pytest.mark.parametrize(
    "data, position",
    [(b"TZif", 4), (b"TZiX", 0), (b"TZif4", 4), (b"TZif" + bytes(40), 36)],
)
def test_a_fault_of_a_file_has_a_position(data, position):
    with pytest.raises(sahvumbi.ZoneRefusedError, match=f"at offset {position}$") as raised:
        Zone.from_bytes(data)
    assert raised.value.position == position


@pytest.mark.parametrize("data", [5, "TZif", None, [84, 90]])
def test_bytes_are_bytes(data):
    with pytest.raises(TypeError):
        Zone.from_bytes(data)


# Texts of errors


@pytest.mark.parametrize("text", ["\ud800", "a\0b\nc", "x" * 10**6, "\x1b[2J", "é" * 200])
def test_errors_are_printable_and_short(text):
    with pytest.raises(sahvumbi.ZoneRefusedError) as raised:
        Zone.from_text(text)
    for shown in (str(raised.value), raised.value.what):
        assert shown.isprintable() and len(shown) < 4 * WIDTH + 100
        shown.encode()
    assert str(pickle.loads(pickle.dumps(raised.value))) == str(raised.value)


def test_labels_and_values_are_short():
    error = sahvumbi.GapError(0, 10**10_000, 21, None, "x" * 10**5)
    assert len(str(error)) < 400 and str(error).isprintable()
    with pytest.raises(sahvumbi.OutOfRangeError) as raised:
        NEW_YORK.changes(10**10_000, 0)
    assert str(raised.value).startswith("from_: an integer of 33220 bits: it does not fit int64")


def test_what_is_printed():
    assert printable("Europe/Paris") == "Europe/Paris"
    assert printable("a" * WIDTH) == "a" * WIDTH
    assert printable("begin" + "a" * WIDTH + "end").startswith("begin")
    assert printable("begin" + "a" * WIDTH + "end").endswith("end")
    assert len(printable("a" * 1_000)) <= WIDTH


@pytest.mark.skipif(sys.version_info < (3, 10), reason="Python 3.9 names no class")
def test_errors_of_python_name_the_class():
    for ask in (Zone, Zone.from_file, lambda: NEW_YORK.floor([0]), lambda: NEW_YORK.to_local()):
        with pytest.raises(TypeError, match=r"^Zone\.\w+\(\) missing 1 required positional argument"):
            ask()


def test_a_text_is_a_text():
    for text in (b"EST5", None, 5):
        with pytest.raises(TypeError, match="a TZ string is a str"):
            Zone.from_text(text)


def test_a_file_of_late_transitions_and_many_leap_seconds():
    """100,000 leap seconds and as many transitions later than second 2^62 are read in a tenth of a second, in 2 MB. A reader that goes
    over the leap seconds for each of the transitions takes a hundred times as long."""
    count = 100_000
    leaps = b"".join(struct.pack(">qi", 78_796_800 + 2_419_200 * place, (place + 1) % 2) for place in range(count))
    times = b"".join(struct.pack(">q", 2**62 + place) for place in range(count))
    indexes = bytes((place + 1) % 2 for place in range(count))
    types = struct.pack(">iBB", 0, 0, 0) + struct.pack(">iBB", 3600, 0, 0)
    front = b"TZif2" + bytes(15)
    first = front + struct.pack(">6I", 0, 0, 0, 0, 1, 4) + types[:6] + b"UTC\0"
    second = front + struct.pack(">6I", 0, 0, count, count, 2, 4) + times + indexes + types + b"UTC\0" + leaps
    began = time.process_time()
    zone = Zone.from_bytes(first + second + b"\n\n")
    assert time.process_time() - began < 5
    assert zone.offsets(np.array([2**62 - 1, 2**62, 2**62 + 1])).astype(int).tolist() == [0, 3600, 0]
