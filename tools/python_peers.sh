#!/usr/bin/env bash
# Runs other projects' tests, unmodified, over the Python package: CPython's of zoneinfo, pandas' about zones, and dateutil's.
#
# usage: tools/python_peers.sh [DATEUTIL]
#
# By hand, after tools/python_tests.sh, which builds python/src/sahvumbi/libzoned_ffi.so. It needs Debian's libpython3-testsuite
# and python3-pandas; DATEUTIL is the folder of the tests in dateutil's source (apt-get source python3-dateutil). docs/TESTING.md has
# what was found, and the heads of python/peers/ say what answers. The status is that of the first tests in which something fails.
set -euo pipefail
cd "$(dirname "$0")/.."
[ -f python/src/sahvumbi/libzoned_ffi.so ] || { echo 'tools/python_tests.sh builds the library that this needs' >&2; exit 1; }
dateutil=${1:+$(realpath "$1")}
export PYTHONDONTWRITEBYTECODE=1 PYTHONPATH=$PWD/python/src:$PWD/python/peers
# What pandas' tests have about zones.
PANDAS=(indexes/datetimes arrays/test_datetimes.py scalar/timestamp series/methods/test_tz_localize.py
  frame/methods/test_tz_localize.py frame/methods/test_tz_convert.py tslibs series/accessors/test_dt_accessor.py
  tseries/offsets/test_dst.py resample/test_datetime_index.py groupby/test_timegrouper.py indexing/test_datetime.py)

# peer PLUGIN TEST ..: runs tests with that plugin of pytest.
peer() {
  /usr/bin/python3 -m pytest -q -p "$1" -p no:cacheprovider -W ignore "${@:2}" </dev/null
}

/usr/bin/python3 python/peers/cpython_zoneinfo.py </dev/null
cd "$(/usr/bin/python3 -c 'import os, pandas; print(os.path.dirname(pandas.__file__))' </dev/null)"
peer pandas_zones --confcutdir=. "${PANDAS[@]/#/tests/}"
[ -z "$dateutil" ] || peer dateutil_zones "$dateutil/test_tz.py"
