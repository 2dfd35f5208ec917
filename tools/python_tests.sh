#!/usr/bin/env bash
# Builds and installs the Python package of python/, and tries it.
#
# usage: tools/python_tests.sh [--missing]
#
# It needs crates/zoned_ffi/out/libzoned_ffi.a, which `rt lib` builds in crates/zoned_ffi, gcc, and
# Debian's packages below, for Debian's own python3. What of them is missing is installed by
# apt-get, as root; --missing lists it, and ends. Nothing else is fetched. It tries, in two minutes
# or less,
#
# - the lines of python/README.md that install the library and the package, in an environment of its
#   own;
# - the tests of python/tests, by pytest and hypothesis, with the same examples in each run;
# - the examples in docstrings, and with them the blocks of Python in docs/PYTHON.md
#   and python/README.md;
# - the types of the package and of its answers, by mypy;
# - examples/at_scale.py on 100,000 rows, with one of its workers ended midway.
set -euo pipefail
cd "$(dirname "$0")/.."
PACKAGES=(gcc binutils libc6-dev tzdata python3 python3-venv python3-pip python3-setuptools python3-wheel python3-cffi
  python3-numpy python3-pandas python3-pytest python3-hypothesis python3-dask python3-distributed mypy)
ARCHIVE=crates/zoned_ffi/out/libzoned_ffi.a

fail() {
  printf 'tools/python_tests.sh: %s\n' "$1" >&2
  exit 1
}

# Runs a command quietly; where it fails, prints the end of what it said.
quietly() {
  "$@" </dev/null >"$room/log" 2>&1 || {
    tail -n 20 "$room/log" >&2
    fail "this failed: $*"
  }
}

is_installed() {
  [ "$(dpkg-query -W -f '${db:Status-Status}' "$1" 2>/dev/null)" = installed ]
}

missing_packages() {
  local package
  for package in "${PACKAGES[@]}"; do
    is_installed "$package" || echo "$package"
  done
}

install_packages() {
  command -v apt-get >/dev/null || fail "needs Debian's packages: ${PACKAGES[*]}"
  local missing
  mapfile -t missing < <(missing_packages)
  [ ${#missing[@]} -eq 0 ] && return
  [ "$(id -u)" -eq 0 ] || fail "as root: apt-get install ${missing[*]}"
  echo "installing ${missing[*]}"
  export DEBIAN_FRONTEND=noninteractive
  quietly apt-get -q update
  quietly apt-get -q -y install --no-install-recommends "${missing[@]}"
}

case $* in
  '') ;;
  --missing) missing_packages; exit ;;
  *) fail 'takes no argument but --missing' ;;
esac
room=$(mktemp -d)
trap 'rm -rf "$room"' EXIT
install_packages
[ -f "$ARCHIVE" ] || fail "$ARCHIVE is missing: (cd crates/zoned_ffi && rt lib)"

# The lines of python/README.md, with an environment that is thrown away.
line() {
  local found
  found=$(grep -m 1 "^$1" python/README.md) || fail "python/README.md has no line: $1"
  sed "s|\.venv|$room/venv|" <<<"$found"
}
for start in 'DESTDIR=' 'cp python' '/usr/bin/python3 -m venv' '\.venv/bin/pip install'; do
  found=$(line "$start")
  quietly bash -c "$found"
done

export PYTHONDONTWRITEBYTECODE=1
python() {
  "$room/venv/bin/python" "$@" </dev/null
}
where=$(cd "$room" && python -c 'import sahvumbi; print(sahvumbi.__file__)')
case $where in
  "$room"/venv/*) ;;
  *) fail "the package is taken from $where" ;;
esac
python -m pytest -q -p no:cacheprovider python/tests
python -m pytest -q -p no:cacheprovider --doctest-modules --pyargs sahvumbi
(cd python && quietly /usr/bin/mypy --python-version 3.9 --cache-dir "$room/mypy")
(cd python && quietly /usr/bin/mypy --python-version 3.9 --cache-dir "$room/mypy" tests/typed.py)
timeout 600 "$room/venv/bin/python" examples/at_scale.py --rows 100000 --partition 5000 \
  --workers 1,2 --kill --folder "$room/at_scale" </dev/null || fail 'examples/at_scale.py failed'
