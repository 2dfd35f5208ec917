#!/usr/bin/env bash
# Adds the library to another repository of Rattle: copies its crates, and adds their lines to crates.txt there.
#
# usage: tools/vendor.sh DEST [CRATE ..]
#
# DEST is the top of that repository, a folder that exists. It gets the crates that CRATE names, or `zoned` if none does, and all
# libraries of this repository that they use: the folders src, specs and proofs, which take the place of older copies. A crate's
# line is added at the end of DEST/crates.txt, in the order of this repository, unless one of that name is there already. Then each
# crate of yours names `zoned`, or what it uses, on its own line.
#
# Prints the crates that were copied. The status is 1 if DEST isn't a folder, or no crate here has that name.
set -euo pipefail
fail() { echo "vendor.sh: $*" >&2; exit 1; }
[ $# -ge 1 ] || fail 'name the top of a repository: tools/vendor.sh DEST [CRATE ..]'
[ -d "$1" ] || fail "$1 is not a folder"
dest=$(cd "$1" && pwd)
shift
cd "$(dirname "$0")/.."
[ $# -gt 0 ] || set -- zoned
lines=$(sed 's/#.*//' crates.txt)

# The line of a crate, without the word `staticlib`.
line_of() { grep -E "^$1( [a-z]+)?:" <<<"$lines" || true; }

wanted=" $* " before=''
while [ "$wanted" != "$before" ]; do
    before=$wanted
    for name in $wanted; do
        for used in $(line_of "$name" | cut -d: -f2); do
            [[ -z $(line_of "$used") || $wanted == *" $used "* ]] || wanted+="$used "
        done
    done
done
for name in "$@"; do
    [ -n "$(line_of "$name")" ] || fail "there is no crate $name"
done
touch "$dest/crates.txt"
mkdir -p "$dest/crates"
while IFS= read -r line; do
    name=${line%%[: ]*}
    [[ -n $name && $wanted == *" $name "* ]] || continue
    for folder in src specs proofs; do
        rm -rf "$dest/crates/$name/$folder"
        [ ! -d "crates/$name/$folder" ] || { mkdir -p "$dest/crates/$name" && cp -R "crates/$name/$folder" "$dest/crates/$name/"; }
    done
    grep -qE "^$name( [a-z]+)?:" "$dest/crates.txt" || echo "$line" >>"$dest/crates.txt"
    echo "$name"
done <<<"$lines"
