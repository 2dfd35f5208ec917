#!/usr/bin/env bash
# Tries the Python package with the packages of a later Debian: of trixie Python 3.13, numpy 2.2 and pandas 2.2, of sid newer ones, and
# pyarrow.
#
# usage: tools/python_tests_next.sh [trixie|sid] [FOLDER]
#
# By hand, as root, after tools/python_tests.sh, which builds python/src/sahvumbi/libzoned_ffi.so. The release is unpacked once, by
# mmdebstrap and from Debian's mirror, into FOLDER (/var/cache/sahvumbi-trixie, 500 MB) and kept there. In it the package is
# installed and tested as in tools/python_tests.sh, from a copy; where there is mypy, it checks the types. If the release can't be
# unpacked, nothing is tried: a line says so, and the status is 0.
set -euo pipefail
cd "$(dirname "$0")/.."
MIRROR=${MIRROR:-http://deb.debian.org/debian}
PACKAGES=python3,python3-venv,python3-pip,python3-setuptools,python3-wheel,python3-numpy,python3-pandas,python3-pytest
PACKAGES+=,python3-hypothesis,python3-cffi,tzdata,tzdata-legacy
LIBRARY=python/src/sahvumbi/libzoned_ffi.so
suite=${1:-trixie}
root=${2:-/var/cache/sahvumbi-$suite}

skip() {
  printf 'tools/python_tests_next.sh: skipped: %s\n' "$1"
  exit 0
}

case $suite in
  trixie) PACKAGES+=,python3-dask,mypy ;;
  sid) PACKAGES+=,python3-pyarrow,mypy ;;
  *) sed -n 's/^# usage: /usage: /p' "$0" >&2; exit 2 ;;
esac
[ -f "$LIBRARY" ] || { echo "$LIBRARY is missing: tools/python_tests.sh builds it" >&2; exit 1; }
[ "$(id -u)" -eq 0 ] || skip 'it needs root, to enter a folder of packages'
if [ ! -d "$root" ]; then
  command -v mmdebstrap >/dev/null || skip 'it needs mmdebstrap: apt-get install mmdebstrap'
  rm -rf "$root.part"
  # A mirror may be a copy of an earlier day.
  mmdebstrap --quiet --variant=apt --aptopt='Acquire::Check-Valid-Until "false"' --include="$PACKAGES" "$suite" "$root.part" "$MIRROR" </dev/null ||
    skip "mmdebstrap could not unpack $suite from $MIRROR"
  mv "$root.part" "$root"
fi

copy=$(mktemp -d "$root/tmp/sahvumbi.XXXXXX")
trap 'rm -rf "$copy"' EXIT
mkdir -p "$copy/docs" "$copy/crates/zoned_ffi"
cp -R python LICENSE LICENSE-APACHE "$copy"
cp docs/PYTHON.md "$copy/docs"
cp -R crates/zoned_ffi/include "$copy/crates/zoned_ffi"
rm -rf "$copy/python/build"

# The tests read /proc, which is mounted for these commands only.
unshare --mount sh -euc 'mount -t proc proc "$1/proc"; exec chroot "$1" sh -euc "$2" sh "$3"' sh "$root" '
cd "$1"
export HOME="$1" PYTHONDONTWRITEBYTECODE=1
python3 -m venv --system-site-packages venv
venv/bin/pip install -q --no-index --no-build-isolation --no-deps ./python
venv/bin/python -m sahvumbi
venv/bin/python -c "import pandas; print(\"pandas\", pandas.__version__)"
venv/bin/python -m pytest -q -p no:cacheprovider python/tests
venv/bin/python -m pytest -q -p no:cacheprovider --doctest-modules --pyargs sahvumbi
if command -v mypy >/dev/null; then cd python; mypy --cache-dir /dev/null; mypy --cache-dir /dev/null tests/typed.py; fi
' "/tmp/${copy##*/}"
