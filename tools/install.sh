#!/bin/sh
# Installs the library for C: libzoned.a and libzoned.so, which need the C library only, the headers, zoned.pc for pkg-config,
# zonedConfig.cmake for CMake, the man page zoned(3), the licences and the examples; and the programs zonedump and zoneq, if they are
# built, with their man pages and completions. It prints what it has installed.
#
# usage: [PREFIX=/usr/local] [DESTDIR=] [LIBDIR=lib] [INCLUDEDIR=include] [BINDIR=bin] [MANDIR=share/man] [DOCDIR=share/doc/zoned] tools/install.sh [--uninstall | --manual]
#
# A folder is below PREFIX unless it begins with /: LIBDIR=lib/x86_64-linux-gnu is Debian's. --uninstall removes what the script
# installs under the same settings. --manual only prints the page zoned(3): tools/install.sh --manual | man -l -
#
# It needs crates/zoned_ffi/out/libzoned_ffi.a, which `rt lib` builds in crates/zoned_ffi, the kit's c/liblibc_c.a, a C compiler
# and binutils. ARCHIVE and HEAP name other files in place of the two archives: HEAP one that defines rattle_alloc,
# rattle_realloc and rattle_dealloc. CC, CFLAGS, LD, NM, AR and OBJCOPY name other tools.
#
# Without DESTDIR it makes the library known to the loader: it runs ldconfig, as root, if the loader reads LIBDIR. Otherwise the last
# line that it prints is the command to type.
set -eu
case "$*" in
'') action=put ;;
--uninstall) action=take ;;
--manual) action=print ;;
*) sed -n 's/^# usage: /usage: /p' "$0" >&2; exit 2 ;;
esac
top=$(CDPATH='' cd -- "$(dirname -- "$0")/.." && pwd)
crate=$top/crates/zoned_ffi
header=$crate/include/zoned_ffi.h
prefix=${PREFIX:-/usr/local}
version=$(sed -n 's/^#define ZONED_VERSION "\(.*\)"$/\1/p' "$header")
# Until 1.0 each second number is an interface of its own.
case $version in 0.*) abi=${version%.*} ;; *) abi=${version%%.*} ;; esac

# whole FOLDER: its path in the installed system.
whole() { case $1 in /*) echo "$1" ;; *) echo "$prefix/$1" ;; esac }
libdir=$(whole "${LIBDIR:-lib}") includedir=$(whole "${INCLUDEDIR:-include}") bindir=$(whole "${BINDIR:-bin}")
mandir=$(whole "${MANDIR:-share/man}") docdir=$(whole "${DOCDIR:-share/doc/zoned}") data=$prefix/share
work=$(mktemp -d)
trap 'rm -rf "$work"' EXIT

# needs PROGRAM HOW: ends unless there is that program.
needs() { command -v "$1" >/dev/null || { echo "install.sh needs $1$2" >&2; exit 1; }; }

# Writes the man page, which has a section for each call, from the comments of the headers.
manual() {
    awk -f "$crate/install/man_page.awk" "$crate/include/zoned.h" "$header" >"$work/sections"
    sed "/^@CALLS@\$/{
r $work/sections
d
}; s|@VERSION@|$version|; s|@DOCDIR@|$docdir|" "$crate/install/zoned.3" >"$work/zoned.3"
}
if [ "$action" = print ]; then
    manual
    cat "$work/zoned.3"
    exit
fi

# calls_of ARCHIVE: the calls that it defines.
calls_of() {
    "${NM:-nm}" -g --defined-only "$1" | awk 'NF == 3 && $3 ~ /^zoned_/ { print $3 }'
}

# Builds both libraries in $work.
build() {
    archive=${ARCHIVE:-$crate/out/libzoned_ffi.a}
    [ -n "${HEAP:-}" ] || needs rt ', the command of the Rattle kit'
    needs "${CC:-cc}" ': apt-get install gcc'
    for tool in "${NM:-nm}" "${LD:-ld}" "${AR:-ar}" "${OBJCOPY:-objcopy}"; do needs "$tool" ': apt-get install binutils'; done
    [ -f "$archive" ] || { echo "install.sh needs ${archive#"$top/"}: (cd crates/zoned_ffi && rt lib)" >&2; exit 1; }
    heap=${HEAP:-$(dirname "$(rt doc)")/c/liblibc_c.a}
    # One object of the archive and its heap, and one of the C code for names, whose only global names are the calls of the headers.
    for name in close names; do
        # shellcheck disable=SC2086 # CFLAGS are words.
        "${CC:-cc}" -O2 -fPIC ${CFLAGS:-} -c -o "$work/$name.o" "$crate/install/$name.c"
    done
    "${LD:-ld}" -r -o "$work/proved.o" --whole-archive "$archive" "$heap"
    "${OBJCOPY:-objcopy}" --redefine-sym zoned_close=zoned_close_zone "$work/proved.o"
    "${LD:-ld}" -r -o "$work/all.o" "$work/proved.o" "$work/close.o"
    calls_of "$archive" >"$work/calls"
    "${OBJCOPY:-objcopy}" --keep-global-symbols="$work/calls" "$work/all.o" "$work/zoned.o"
    "${AR:-ar}" rcsD "$work/libzoned.a" "$work/zoned.o" "$work/names.o"
    {
        printf 'ZONED_%s {\nglobal:\n' "$abi"
        calls_of "$work/libzoned.a" | sed 's/$/;/'
        printf 'local: *;\n};\n'
    } >"$work/map"
    "${CC:-cc}" -shared -nostartfiles -o "$work/libzoned.so" "$work/zoned.o" "$work/names.o" -lc "-Wl,-soname,libzoned.so.$abi" \
        "-Wl,--version-script=$work/map" -Wl,-z,defs,-z,relro,-z,now,-z,noexecstack
}

# put MODE FILE FOLDER NAME: installs a file. take MODE FILE FOLDER NAME: removes it, and its folder if that is then empty.
put() {
    mkdir -p "${DESTDIR:-}$3"
    install -m "$1" "$2" "${DESTDIR:-}$3/$4"
    shown "$3/$4"
}
take() {
    [ -e "${DESTDIR:-}$3/$4" ] || [ -h "${DESTDIR:-}$3/$4" ] || return 0
    rm -f "${DESTDIR:-}$3/$4"
    shown "$3/$4"
    rmdir "${DESTDIR:-}$3" 2>/dev/null || true
}
shown() { case $1 in "$prefix"/*) echo "  ${1#"$prefix/"}" ;; *) echo "  $1" ;; esac }

# write MODE FILE FOLDER NAME: the same, with the version and the folders written in.
write() {
    sed "s|@VERSION@|$version|g; s|@ABI@|$abi|g; s|@PREFIX@|$from$(up "$libdir/pkgconfig")|g; s|@UP@|$(up "$libdir/cmake/zoned")|g
        s|@LIBDIR@|$(below "$variable" "$libdir")|g; s|@INCLUDEDIR@|$(below "$variable" "$includedir")|g" "$2" >"$work/text"
    "$action" "$1" "$work/text" "$3" "$4"
}

# link FILE FOLDER NAME: a link to a file of the same folder.
link() {
    if [ "$action" = take ]; then
        take 0 "$1" "$2" "$3"
    else
        ln -sf "$1" "${DESTDIR:-}$2/$3"
        shown "$2/$3"
    fi
}

if [ "$action" = put ]; then
    build
    echo "installing zoned $version in ${DESTDIR:-}$prefix:"
else
    echo "removing zoned $version from ${DESTDIR:-}$prefix:"
fi

# zoned.pc and zonedConfig.cmake find the prefix from where they lie, if the libraries lie below it, so that the tree may be moved.
# below NAME FOLDER: the folder by the variable of the prefix.
below() { case $2 in "$prefix"/*) echo "\${$1}/${2#"$prefix/"}" ;; *) echo "$2" ;; esac }
# up FOLDER: from that folder to the prefix.
up() { case $1 in "$prefix"/*) echo "${1#"$prefix/"}" | sed 's|[^/][^/]*|..|g' ;; *) echo "$prefix" ;; esac }
variable=prefix
# shellcheck disable=SC2016 # pkg-config knows this variable.
case $libdir in "$prefix"/*) from='${pcfiledir}/' ;; *) from= ;; esac
"$action" 644 "$work/libzoned.a" "$libdir" libzoned.a
"$action" 755 "$work/libzoned.so" "$libdir" "libzoned.so.$version"
link "libzoned.so.$version" "$libdir" "libzoned.so.$abi"
link "libzoned.so.$abi" "$libdir" libzoned.so
for name in zoned.h zoned.hpp zoned_ffi.h; do write 644 "$crate/include/$name" "$includedir" "$name"; done
write 644 "$crate/install/zoned.pc" "$libdir/pkgconfig" zoned.pc
variable=zoned_PREFIX
write 644 "$crate/install/zonedConfig.cmake" "$libdir/cmake/zoned" zonedConfig.cmake
write 644 "$crate/install/zonedConfigVersion.cmake" "$libdir/cmake/zoned" zonedConfigVersion.cmake
manual
"$action" 644 "$work/zoned.3" "$mandir/man3" zoned.3
sed -n 's/^\.SS \(zoned_.*\)/\1/p' "$work/sections" | tr -d ' ' | tr , '\n' >"$work/pages"
while read -r name; do
    echo '.so man3/zoned.3' >"$work/so"
    "$action" 644 "$work/so" "$mandir/man3" "$name.3"
done <"$work/pages"
for path in "$top"/examples/*.c "$top"/examples/*.cc "$top"/examples/zones.py; do "$action" 644 "$path" "$docdir/examples" "${path##*/}"; done
for name in LICENSE LICENSE-APACHE; do "$action" 644 "$top/$name" "$docdir" "$name"; done
for name in zonedump zoneq; do
    program=$top/crates/$name/out/$name
    if [ "$action" = put ] && [ ! -f "$program" ]; then
        missing="${missing:+$missing and }$name"
        continue
    fi
    "$action" 755 "$program" "$bindir" "$name"
    write 644 "$crate/install/$name.1" "$mandir/man1" "$name.1"
done
if [ "$action" = take ] || [ -f "$top/crates/zonedump/out/zonedump" ]; then
    "$action" 644 "$crate/install/zonedump.bash" "$data/bash-completion/completions" zonedump
    "$action" 644 "$crate/install/zonedump.zsh" "$data/zsh/site-functions" _zonedump
    "$action" 644 "$crate/install/zonedump.fish" "$data/fish/vendor_completions.d" zonedump.fish
fi
[ -z "${missing:-}" ] || echo "without $missing, which rt run builds in crates/"

[ -z "${DESTDIR:-}" ] || exit 0
PATH=$PATH:/usr/sbin:/sbin

# Whether the loader reads that folder.
is_read() {
    ldconfig -v -N -X 2>/dev/null | sed -n 's|^\(/[^:]*\):.*|\1|p' | while read -r folder; do
        [ ! "$folder" -ef "$1" ] || echo "$folder"
    done | grep -q .
}

if ! is_read "$libdir"; then
    [ "$action" = take ] ||
        echo "before you build or start a program: export LD_LIBRARY_PATH=$libdir PKG_CONFIG_PATH=$libdir/pkgconfig"
elif [ "$(id -u)" -eq 0 ]; then
    ldconfig
else
    echo 'before you start a program, as root: ldconfig'
fi
