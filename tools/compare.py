#!/usr/bin/env python3
"""Compares the library and its programs with other readers of a tz database. It is run by hand, except peers.

usage: tools/compare.py zoneinfo [ZONEQ [FOLDER]]    zoneq's answers with Python's zoneinfo
       tools/compare.py changes [FOLDER [ARCHIVE]]   clock changes of the C library, both ways, with zdump
       tools/compare.py dumps [ZONEDUMP [FOLDER]]    zonedump's table and its --zdump with zdump
       tools/compare.py files [FOLDER [SLIM]]        written TZif files with the files that were read
       tools/compare.py strings [FOLDER]             written TZ strings with those in footers
       tools/compare.py days [FOLDER [ARCHIVE]]      starts of days, by the C library, with zoneinfo
       tools/compare.py saving [FOLDER [ARCHIVE]]    amounts of daylight saving time with SAVE of tzdata.zi
       tools/compare.py differences OLD NEW [ZONEDUMP]  zonedump --diff of two databases with zoneinfo
       tools/compare.py faults [COUNT [SEED]]        errors of mutated TZ strings and files and their places with readers of its own
       tools/compare.py peers                        zoneq's answers with rows of other projects' tests; the gate runs it
       tools/compare.py plans [--random N] [--zones N] [--years FIRST LAST]  fires of plans with croniter, dateutil's rrule and zoneinfo
       tools/compare.py lengths [--pairs N] [--zones N]  lengths in months and days with brute force over zoneinfo, and dateutil

ZONEQ and ZONEDUMP are the built programs (crates/zoneq/out/zoneq), ARCHIVE is the static library
(crates/zoned_ffi/out/libzoned_ffi.a), FOLDER the database (/usr/share/zoneinfo), SLIM one that `zic -b slim` compiled.
tools/comparing has a module for each word, whose head says what it compares. The exit status is 1 if anything differs that
has no known reason.
"""

import sys

from comparing import changes, days, differences, dumps, faults, lengths, peers, plans, saving, with_zoneinfo, written_files, written_strings

COMPARISONS = {
    "zoneinfo": with_zoneinfo.main, "changes": changes.main, "dumps": dumps.main, "files": written_files.main,
    "strings": written_strings.main, "days": days.main, "saving": saving.main, "differences": differences.main, "peers": peers.main,
    "plans": plans.main, "lengths": lengths.main, "faults": faults.main,
}

if __name__ == "__main__":
    word, *given = sys.argv[1:] or [""]
    sys.exit(COMPARISONS[word](*given) if word in COMPARISONS else __doc__)
