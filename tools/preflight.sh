#!/usr/bin/env bash
# Lists what the gate needs and this machine lacks, and how to install it. The gate runs it first.
#
# usage: tools/preflight.sh
#
# It takes a second or less, and prints nothing if nothing is missing. The status is 1 if the gate can't install what is missing: as
# root on Debian, tools/python_tests.sh installs its own packages.
set -euo pipefail
cd "$(dirname "$0")/.."
missing=() packages=()

# needs NAME PACKAGE COMMAND ..: NAME is missing, and is in that Debian package, unless the command succeeds.
needs() {
    if ! "${@:3}" >/dev/null 2>&1; then
        missing+=("$1")
        packages+=("$2")
    fi
}

needs rt '' command -v rt
needs gcc gcc gcc --version
needs 'the headers of C' libc6-dev test -f /usr/include/stdio.h
needs g++ g++ g++ --version
needs rustc rustc rustc --version
needs binutils binutils command -v objcopy
needs 'python3 (3.9 or later)' python3 python3 -c 'import sys; sys.exit(sys.version_info < (3, 9))'
needs 'the tz database' tzdata test -f /usr/share/zoneinfo/America/New_York
mapfile -t of_python < <(tools/python_tests.sh --missing)
if [ ${#of_python[@]} -gt 0 ]; then
    if [ "$(id -u)" -eq 0 ] && command -v apt-get >/dev/null; then
        echo "tools/python_tests.sh will install ${of_python[*]}"
    else
        missing+=("Debian's packages for tools/python_tests.sh")
    fi
fi
[ ${#missing[@]} -gt 0 ] || exit 0
{
    printf 'missing: %s\n' "${missing[@]}"
    case " ${missing[*]} " in *' rt '*) echo 'install the Rattle kit, whose command is rt' ;; esac
    mapfile -t packages < <(printf '%s\n' "${packages[@]}" "${of_python[@]}" | sed '/^$/d' | sort -u)
    [ ${#packages[@]} -eq 0 ] || echo "as root: apt-get install ${packages[*]}"
} >&2
exit 1
