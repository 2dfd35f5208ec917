"""Two folders of zones, compared. What zones show comes from zoneinfo, which reads the same files."""

import shutil
from datetime import datetime, timedelta, timezone
from pathlib import Path
from zoneinfo import TZPATH, ZoneInfo

import numpy as np
import pandas as pd
import pytest

from sahvumbi import OutOfRangeError, Zone, ZoneNotFoundError, compare

FROM, TO = np.datetime64("2021-01-01"), np.datetime64("2023-01-01")


def file_of(name):
    return next(path for path in (Path(folder, name) for folder in TZPATH) if path.is_file())


@pytest.fixture(scope="module")
def folders(tmp_path_factory):
    """Area/One and Area/Two begin to follow Denver; Three gets another name; Four and Five are alone."""
    old, new = (tmp_path_factory.mktemp(name) for name in ("old", "new"))
    zones = {
        old: {"Area/One": "Phoenix", "Area/Two": "Phoenix", "Same": "Denver", "Three": "Chicago", "Four": "Denver"},
        new: {"Area/One": "Denver", "Area/Two": "Denver", "Same": "Denver", "Three": "New_York", "Five": "Denver"},
    }
    for folder, names in zones.items():
        for name, city in names.items():
            (folder / name).parent.mkdir(exist_ok=True)
            shutil.copy(file_of(f"America/{city}"), folder / name)
        for name in ("right", "posix"):
            (folder / name).mkdir()
            shutil.copy(file_of("Asia/Tokyo" if folder == old else "Asia/Seoul"), folder / name / "Zone")
        (folder / "zone.tab").write_text("no zone")
        (folder / "Broken").write_bytes(b"TZif")
    return old, new


def test_the_summary(folders):
    old, new = folders
    found = compare(old, new, FROM, TO)
    # Denver has daylight saving time, from the second Sunday of March to the first one of November.
    assert str(found).splitlines() == [
        "Area/One, Area/Two",
        "  2021-03-14 09:00:00 to 2021-11-07 08:00:00 UTC: clocks are 60 min ahead, -07:00 std MST becomes -06:00 dst MDT, and 1 more",
        "Three",
        "  2021-01-01 00:00:00 to 2021-03-14 07:00:00 UTC: clocks are 60 min ahead, -06:00 std CST becomes -05:00 std EST, and 2 more",
        "  2021-03-14 07:00:00 to 2021-03-14 08:00:00 UTC: clocks are 120 min ahead, -06:00 std CST becomes -04:00 dst EDT, and 1 more",
        "  2021-03-14 08:00:00 to 2021-11-07 06:00:00 UTC: clocks are 60 min ahead, -05:00 dst CDT becomes -04:00 dst EDT, and 1 more",
        "  2021-11-07 06:00:00 to 2021-11-07 07:00:00 UTC: no clock moves, -05:00 dst CDT becomes -05:00 std EST, and 1 more",
        f"only in {old}: Four",
        f"only in {new}: Five",
        f"Broken: {found.rejected['Broken']}",
        f"zones that differ: 3 of 4; only in {old}: 1; only in {new}: 1",
    ]
    assert "MST becomes" in found._repr_html_() and repr(found) == str(found)
    assert bool(found) and not compare(old, old)


def test_each_stretch_is_as_zoneinfo_has_it(folders):
    frame = compare(*folders, FROM, TO).to_frame()
    assert list(frame["zone"].unique()) == ["Area/One", "Area/Two", "Three"]
    for folder, side in zip(folders, ("old", "new")):
        for row in frame.itertuples():
            with open(Path(folder, row.zone), "rb") as file:
                zone = ZoneInfo.from_file(file)
            for instant in (row.from_, row.until - pd.Timedelta("1s")):
                shown = instant.to_pydatetime().astimezone(zone)
                assert shown.utcoffset() == getattr(row, f"offset_{side}").to_pytimedelta()
                assert shown.tzname() == getattr(row, f"name_{side}")
                assert bool(shown.dst()) == getattr(row, f"is_dst_{side}")
    assert compare(folders[0], folders[0]).to_frame().empty


def test_stored_times_that_move(folders):
    found = compare(*folders, FROM, TO)
    times = pd.Series(pd.to_datetime(["2021-07-01 12:00", "2021-01-01 12:00", None, "2021-07-01 12:00"]), index=list("abcd"))
    moved = found.moved(times, "Area/One")
    assert moved.row.tolist() == [0, 3] and moved.label.tolist() == ["a", "d"]
    assert (moved.new - moved.old).astype("m8[h]").tolist() == [timedelta(hours=-1)] * 2
    noon = datetime(2021, 7, 1, 12, tzinfo=ZoneInfo("America/Denver")).astimezone(timezone.utc)
    assert moved.to_frame()["new"]["a"].to_pydatetime() == noon
    moved = found.moved(times, ["Same", "Three", "Three", "Area/Two"])
    assert moved.row.tolist() == [1, 3]
    categories = pd.Categorical(["Same", "Three", "Three", "Area/Two"])
    assert found.moved(times, categories).row.tolist() == [1, 3]
    for name in ("Four", "Five", "Nowhere"):
        with pytest.raises(ZoneNotFoundError, match=name):
            found.moved(times, name)


def test_folders_that_cannot_be_read(folders):
    with pytest.raises(FileNotFoundError):
        compare(folders[0], folders[1] / "nowhere")
    with pytest.raises(NotADirectoryError):
        compare(folders[0] / "Same", folders[1])


def test_ends_are_checked_first(folders):
    with pytest.raises(ValueError, match="to is NaT"):
        compare(*folders, FROM, np.datetime64("NaT", "s"))
    with pytest.raises(OutOfRangeError):
        compare(*folders, 0, 2**63)
    assert not compare(*folders, TO, FROM).groups


def test_the_database_of_this_machine_is_as_itself():
    folder = next(folder for folder in TZPATH if Path(folder).is_dir())
    found = compare(folder, folder)
    assert not found and "Europe/Paris" in found.both
    assert Zone.from_file(Path(folder, "Europe/Paris")).offsets([0]).tolist() == [3_600]
