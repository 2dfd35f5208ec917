#!/bin/sh
# Times lookups of this library, what it does with instants and its programs, compared with other libraries and programs, and
# writes the tables into bench/results/, with the date as its name. `bench/write_speed.py` puts them into the documents then.
#
# usage: bench/run.sh [PART ..]     of sahvumbi work columns cctz hinnant standard java go glibc cpython pandas chrono lines dumps calls kept misses (else all)
#
# First `rt lib` in crates/zoned_ffi builds the archive, and `rt run` in crates/zoneq, crates/zonedump and crates/bench_instants
# the programs. Debian has the peers:
#   apt-get install g++ pkg-config libabsl-dev libhowardhinnant-date-dev openjdk-17-jdk-headless golang-go mawk python3 tzdata valgrind \
#     cargo librust-chrono-dev librust-chrono-tz-dev clang-22 libc++-22-dev python3-pandas
# A part that lacks something is left out. All times are the processor's. `misses` counts in a simulation, by valgrind. The columns of
# go and pandas are those that `columns` wrote, so it comes before them.
#
#   BENCH_DIR   where inputs, programs and figures are kept (else sahvumbi-bench in the folder for temporary files)
#   KEEP=1      keep the figures of earlier runs too: of each figure the least of all runs counts
#   PYTHON      the Python that is timed (else python3)
#   PANDAS      the Python that has pandas (else Debian's, /usr/bin/python3)
#   ARCHIVE     the library that is timed (else the one that `rt lib` built)
#   RESULTS     the file of the tables (else bench/results/DATE.md)
set -u
here=$(cd "$(dirname "$0")" && pwd)
folder=${BENCH_DIR:-${TMPDIR:-/tmp}/sahvumbi-bench}
kit=$(dirname "$(rt doc)")
archive=${ARCHIVE:-$here/../crates/zoned_ffi/out/libzoned_ffi.a}
results=${RESULTS:-$here/results/$(date -u +%Y-%m-%d).md}
parts=${*:-sahvumbi work columns cctz hinnant standard java go glibc cpython pandas chrono lines dumps calls kept misses}
python=${PYTHON:-python3} pandas=${PANDAS:-/usr/bin/python3}
# As `rt lib` compiles the library.
processor=x86-64-v2
compile="${CXX:-g++} -std=c++17 -O2 -march=$processor"
# The zones of C++20, which g++ 12 lacks, and which libc++ calls experimental.
standard="${CLANG:-clang++-22} -std=c++20 -stdlib=libc++ -fexperimental-library -O2 -march=$processor -DSTANDARD_ZONES"
absl=$(pkg-config --cflags --libs absl_time 2> /dev/null)
crates=/usr/share/cargo/registry
inputs=$folder/inputs outputs=$folder/outputs

mkdir -p "$outputs/growth" "$outputs/work" "$outputs/columns"
{ [ -f "$inputs/names" ] && [ -f "$inputs/stamps_at" ]; } || python3 "$here/make_inputs.py" "$inputs" || exit 1
[ -n "${KEEP:-}" ] || for part in . growth work columns; do : > "$outputs/$part/figures"; done
# What else runs, by the mean of the minute before.
cut -d ' ' -f 1 /proc/loadavg > "$outputs/load"

# Builds a driver in C++, and links what else is named.
build() {
    name=$1
    shift
    # shellcheck disable=SC2086
    $compile -o "$folder/$name" "$here/drivers/$name.cc" "$@"
}

# The drivers of chrono and chrono-tz, over the crates that Debian has. chrono's reader of TZif files is no public part of the crate,
# so its files become a module of the driver that times it.
build_chrono() {
    reader=$(echo "$crates"/chrono-0.4.*/src/offset/local/tz_info)
    mkdir -p "$folder/chrono/src" && rm -rf "$folder/chrono/src/tz_info" && cp -r "$reader" "$folder/chrono/src/" || return 1
    cp "$here/drivers/read_chrono_text.rs" "$folder/chrono/src/tz_info/text.rs"
    echo 'pub(crate) mod text;' >> "$folder/chrono/src/tz_info/mod.rs"
    for driver in chrono read_chrono work_chrono timed; do cp "$here/drivers/$driver.rs" "$folder/chrono/src/"; done
    cp "$here/drivers/chrono.toml" "$folder/chrono/Cargo.toml"
    (cd "$folder/chrono" && RUSTFLAGS="-C target-cpu=$processor" cargo build --quiet --release --offline --config 'source.crates-io.replace-with="debian"' \
        --config "source.debian.directory=\"$crates\"")
}

# Go's driver, compiled for the same processors.
build_go() {
    (cd "$here/drivers/go" && GO111MODULE=off GOAMD64=v2 go build -o "$folder/go_times" ./*.go)
}

run() {
    echo "running $*" >&2
    "$@" "$inputs" "$outputs" >> "$outputs/figures"
}

# The same, and then over the zones that grow.
run_both() {
    run "$@" && "$@" "$inputs/growth" "$outputs/growth" >> "$outputs/growth/figures"
}

# The columns of instants, which `columns` writes into this folder.
run_columns() {
    echo "running $*" >&2
    "$@" >> "$outputs/columns/figures"
}

# What is done with instants, by the program that is named.
run_work() {
    echo "running $*" >&2
    "$@" "$inputs" "$outputs/work" >> "$outputs/work/figures"
}

# The same by java.time: a process for each question, since the compiler is best at one call at a time.
run_java_work() {
    javac -cp "$folder" -d "$folder" "$here/drivers/Work.java" || return 1
    echo "running java Work" >&2
    for question in fields_at fields from_fields month_later day_later at_nine five_minutes whole_day difference order sort \
        print elsewhere resolve in_gap daily; do
        java -Xmx4g -cp "$folder" Work "$inputs" "$outputs/work" $question >> "$outputs/work/figures" || return 1
    done
}

for part in $parts; do
    case $part in
        # shellcheck disable=SC2086
        sahvumbi)
            build sahvumbi "$archive" "$kit/c/liblibc_c.a" && run_both "$folder/sahvumbi"
            ;;
        work)
            gcc -shared -fPIC -O2 -o "$folder/processor_clock.so" "$here/drivers/processor_clock.c" &&
                PROCESSOR_CLOCK=$folder/processor_clock.so run_work python3 "$here/time_work.py"
            ;;
        cctz)
            build cctz $absl && run_both "$folder/cctz" && build work_cctz $absl && run_work "$folder/work_cctz"
            ;;
        hinnant)
            build hinnant -ldate-tz -lpthread && run "$folder/hinnant" &&
                build work_hinnant -ldate-tz -lpthread && run_work "$folder/work_hinnant"
            ;;
        standard)
            # shellcheck disable=SC2086
            $standard -o "$folder/standard" "$here/drivers/hinnant.cc" && run "$folder/standard" &&
                $standard -o "$folder/columns_standard" "$here/drivers/columns.cc" "$archive" "$kit/c/liblibc_c.a" &&
                run_columns "$folder/columns_standard"
            ;;
        java)
            javac -d "$folder" "$here/drivers/Zones.java" && run_both java -Xmx4g -cp "$folder" Zones && run_java_work
            ;;
        go)
            build_go && run_both "$folder/go_times" zones && run_work "$folder/go_times" work &&
                run_columns "$folder/go_times" columns "$outputs/columns"
            ;;
        glibc) build glibc && run_both "$folder/glibc" ;;
        cpython) run_both "$python" "$here/drivers/cpython.py" && run_work "$python" "$here/drivers/work_cpython.py" ;;
        pandas) run_columns "$pandas" "$here/drivers/columns_pandas.py" "$outputs/columns" ;;
        chrono)
            build_chrono && run "$folder/chrono/target/release/chrono" && run "$folder/chrono/target/release/read_chrono" &&
                run_work "$folder/chrono/target/release/work_chrono"
            ;;
        lines) run python3 "$here/time_lines.py" ;;
        dumps) run python3 "$here/time_dumps.py" ;;
        calls)
            build calls "$archive" "$kit/c/liblibc_c.a" && echo "running calls" >&2 &&
                "$folder/calls" "$inputs" > "$outputs/calls.md"
            ;;
        columns)
            # shellcheck disable=SC2086
            build columns "$archive" "$kit/c/liblibc_c.a" $absl -ldate-tz -lpthread &&
                run_columns "$folder/columns" "$outputs/columns"
            ;;
        kept)
            echo "running time_instants.py" >&2 &&
                python3 "$here/time_instants.py" "$inputs/zones/New_York" > "$outputs/kept.md"
            ;;
        misses)
            build ask "$archive" "$kit/c/liblibc_c.a" && echo "running count_misses.py" >&2 &&
                python3 "$here/count_misses.py" "$folder/ask" "$inputs" > "$outputs/misses.md"
            ;;
        *) false ;;
    esac || echo "$part is left out" >&2
done
{
    python3 "$here/print_tables.py" "$inputs" "$outputs" &&
        for part in calls kept misses; do [ ! -f "$outputs/$part.md" ] || cat "$outputs/$part.md"; done
} > "$outputs/tables.md" || exit 1
cp "$outputs/tables.md" "$results"
echo "the tables are in $results" >&2
