#!/usr/bin/env python3
"""Tries the installed library for C: tools/install.sh into an empty folder, and programs over what it puts there.

usage: tools/try_install.py [RELEASE]

RELEASE is a folder of Debian's packages, as mmdebstrap unpacks them, with g++ or clang and libc++: its compilers are tried with
zoned.hpp too, by chroot and as root. It needs crates/zoned_ffi/out/libzoned_ffi.a, which `rt lib` builds in crates/zoned_ffi, gcc, g++ and binutils; pkg-config and
CMake are used if they are installed. It tries that

- libzoned.a and libzoned.so define the calls of the headers and nothing else, and need few functions of the C library: the object of
  the proved calls six;
- libzoned.so has the SONAME of the header's version;
- examples/zones.c and zones.cc are built over each library, with pkg-config and with CMake, zones.py loads the shared one, and all
  print the same lines;
- a program that has a function rattle_alloc of its own keeps it to itself;
- what zoned.hpp answers one time at a time and in columns is what its definition says (tools/try_hpp.cc), as C++17, 20 and 23, by
  g++ and, if it is installed, by clang with libc++;
- install.sh lists what it installs, in folders of other names too, and --uninstall leaves nothing; a program starts after what it
  says or does about the loader's cache, and a tree that was moved is still found by pkg-config;
- zones are opened by name as tools/try_names.c says, and no name leads out of a folder;
- the man page has a section for each call of the headers;
- the library for 64-bit ARM gives the same lines under qemu, if `tools/build_archive.py --target aarch64-unknown-linux-gnu` has
  built it. This needs Debian's gcc-aarch64-linux-gnu, libc6-dev-arm64-cross and qemu-user.

It takes a few seconds. The gate runs it, without the last point. Ends with status 1 if anything differs.
"""

import os
import re
import shutil
import subprocess
import sys
import tempfile
from pathlib import Path

from sources import TOP, needs

PREFIX = "/usr/local"
HEADER = TOP / "crates/zoned_ffi/include/zoned_ffi.h"
HEADERS = [HEADER, HEADER.with_name("zoned.h")]
ARCHIVE = TOP / "crates/zoned_ffi/out/libzoned_ffi.a"
EXAMPLES = TOP / "examples"
HPP = TOP / "tools/try_hpp.cc"
ARM, ARM_ARCHIVE, ARM_HEAP = "aarch64-linux-gnu", TOP / "crates/zoned_ffi/out/libzoned_ffi-aarch64.a", TOP / "crates/zoned_ffi/install/heap.c"
NAMES = TOP / "tools/try_names.c"
NEEDED = {"malloc", "realloc", "free", "memcpy", "memmove", "memset"}
# What the C code for zones by name needs, and what a compiler that hardens it adds.
NEEDED_BY_NAMES = {"__errno_location", "close", "lseek", "memcmp", "open", "read", "secure_getenv", "strcspn", "strlen"}
HARDENED = {"__read_chk", "__memcpy_chk", "__open_2", "__stack_chk_fail"}
ASKED = ["/usr/share/zoneinfo/America/New_York", "1615705200", "1615689000", "1636248600"]
STANDARDS = ["c++17", "c++20", "c++2b"]
WARNINGS = ["-O2", "-Wall", "-Wextra", "-Werror"]
OWN_HEAP = """
#include <zoned.h>
int calls;
struct tried { _Bool ok; void *p; };
struct tried rattle_alloc(size_t size, size_t align) { (void)size, (void)align; calls++; return (struct tried){0, 0}; }
int main(void) {
    struct zoned_zone zone = {0};
    int opened = zoned_open(ZONED_TEXT, "EST5EDT,M3.2.0,M11.1.0", 22, &zone) == ZONED_OK;
    zoned_close(&zone);
    zoned_close(NULL);
    return !opened || calls != 0;
}
"""
CMAKE = """
cmake_minimum_required(VERSION 3.10)
project(tried C CXX)
set(CMAKE_CXX_STANDARD 17)
find_package(zoned {version} REQUIRED)
add_executable(by_cmake {examples}/zones.c)
target_link_libraries(by_cmake zoned::zoned)
add_executable(by_cmake_static {examples}/zones.cc)
target_link_libraries(by_cmake_static zoned::static)
"""


def run(*words, **more):
    ended = subprocess.run([str(word) for word in words], capture_output=True, text=True, **more)
    if ended.returncode:
        raise SystemExit(f"{' '.join(map(str, words))} ends with {ended.returncode}: {ended.stdout}{ended.stderr}")
    return ended.stdout


def declared():
    text = re.sub(r"/\*.*?\*/", "", "".join(header.read_text() for header in HEADERS), flags=re.S)
    return set(re.findall(r"^(?!ZONED_INLINE)(?:\w+ )*\**(zoned_\w+)\(", text, re.M))


def version():
    return re.search(r'^#define ZONED_VERSION "(.*)"$', HEADER.read_text(), re.M)[1]


def interface():
    first, second, _ = version().split(".")
    return f"{first}.{second}" if first == "0" else first


def names(library, *flags):
    """The names that the library defines, and those that it needs."""
    rows = [line.split() for line in run("nm", "-g", *flags, library).splitlines()]
    rows = [[row[-1].split("@")[0], row[-2]] for row in rows if len(row) >= 2]
    return {name for name, kind in rows if kind not in "UA"}, {name for name, kind in rows if kind == "U"}


def complaints_of_calls(lib):
    for library, flags in ((lib / "libzoned.a", []), (lib / "libzoned.so", ["-D"])):
        defined, needed = names(library, *flags)
        if defined != declared():
            yield f"{library.name} and the header differ in {sorted(defined ^ declared())}"
        if needed - declared() - HARDENED != NEEDED | NEEDED_BY_NAMES:
            yield f"{library.name} needs {sorted(needed)}"
    (lib / "alone").mkdir()
    run("ar", "x", lib / "libzoned.a", "zoned.o", cwd=lib / "alone")
    if (needed := names(lib / "alone/zoned.o")[1]) != NEEDED:
        yield f"the object of the proved calls needs {sorted(needed)}"
    shutil.rmtree(lib / "alone")
    if f"Library soname: [libzoned.so.{interface()}]" not in run("readelf", "-d", lib / "libzoned.so"):
        yield "libzoned.so has another SONAME"


def programs(root, room):
    """Builds the examples in each way. Returns what starts them."""
    include, lib = root / f"{PREFIX[1:]}/include", root / f"{PREFIX[1:]}/lib"
    shared = ["-L", lib, "-lzoned", f"-Wl,-rpath,{lib}"]
    run("gcc", *WARNINGS, "-I", include, "-o", room / "shared", EXAMPLES / "zones.c", *shared)
    run("gcc", *WARNINGS, "-I", include, "-o", room / "static", EXAMPLES / "zones.c", lib / "libzoned.a")
    run("g++", *WARNINGS, "-std=c++17", "-I", include, "-o", room / "cpp", EXAMPLES / "zones.cc", *shared)
    made = ["shared", "static", "cpp"]
    if shutil.which("pkg-config"):
        sysroot = {**os.environ, "PKG_CONFIG_PATH": str(lib / "pkgconfig"), "PKG_CONFIG_SYSROOT_DIR": str(root)}
        flags = run("pkg-config", "--cflags", "--libs", f"zoned >= {version()}", env=sysroot).split()
        run("gcc", *WARNINGS, "-o", room / "by_pkg_config", EXAMPLES / "zones.c", *flags, f"-Wl,-rpath,{lib}")
        made.append("by_pkg_config")
    if shutil.which("cmake"):
        (room / "CMakeLists.txt").write_text(CMAKE.format(version=version(), examples=EXAMPLES))
        run("cmake", f"-Dzoned_DIR={lib}/cmake/zoned", "-S", room, "-B", room / "cmake")
        run("cmake", "--build", room / "cmake")
        made += ["cmake/by_cmake", "cmake/by_cmake_static"]
    return [*([room / name] for name in made), [sys.executable, EXAMPLES / "zones.py", lib / "libzoned.so"]]


def complaints_of_programs(root, room):
    made = programs(root, room)
    wanted = run(*made[0], *ASKED)
    if "instant 1615705200: -14400 EDT dst" not in wanted.splitlines():
        yield f"{made[0][-1]} prints {wanted}"
    for words in made[1:]:
        if run(*words, *ASKED) != wanted:
            yield f"{words[-1]} prints other lines than {made[0][-1]}"
    lib = root / f"{PREFIX[1:]}/lib"
    (room / "own_heap.c").write_text(OWN_HEAP)
    shared = ["-L", lib, "-lzoned", f"-Wl,-rpath,{lib}"]
    for name, library in (("own_heap", shared), ("own_heap_static", [lib / "libzoned.a"])):
        run("gcc", *WARNINGS, "-rdynamic", "-I", lib.parent / "include", "-o", room / name, room / "own_heap.c", *library)
        run(room / name)
    print(f"{len(made)} programs over the installed library")


def complaints_of_cpp(root, room, release):
    """What try_hpp.cc finds amiss with zoned.hpp, by each compiler of this machine and of an unpacked release."""
    with tempfile.TemporaryDirectory(dir=release / "tmp" if release else room) as folder:
        place = Path(folder) / "hpp"
        shutil.copytree(root / f"{PREFIX[1:]}/include", place)
        shutil.copy(root / f"{PREFIX[1:]}/lib/libzoned.a", place)
        shutil.copy(HPP, place)
        yield from complaints_of_compilers([], Path("/"), place)
        if release:
            yield from complaints_of_compilers(["chroot", release], release, Path("/") / place.relative_to(release))


def complaints_of_compilers(start, top, place):
    """What the program of that folder finds with each compiler below `top`."""
    found = [["g++", "-fsanitize=undefined", "-fno-sanitize-recover=all"]] if (top / "usr/bin/g++").exists() else []
    for path in sorted((top / "usr/bin").glob("clang++-*")):
        version = path.name.partition("-")[2]
        # An older clang can't read a later libc++.
        if (top / f"usr/lib/llvm-{version}/include/c++/v1/chrono").exists():
            found.append([path.name, "-stdlib=libc++"])
            if int(version) >= 19:
                found.append([*found[-1], "-fexperimental-library"])
    for compiler in found:
        for standard in STANDARDS:
            words = [*start, *compiler, *WARNINGS, "-Wshadow", f"-std={standard}", "-I", place]
            run(*words, "-o", place / "tried", place / HPP.name, place / "libzoned.a")
            tried = subprocess.run([*start, place / "tried"], capture_output=True, text=True)
            if tried.returncode:
                yield f"{HPP.name} by {compiler[0]} as {standard}: {tried.stdout}{tried.stderr}"
    print(f"zoned.hpp by {len(found)} compilers below {top}, each as {len(STANDARDS)} standards")


def complaints_of_loader(room):
    """What keeps a program from starting after an installation without DESTDIR. The loader's folders and its cache are those of the
    test: the machine's aren't touched."""
    ldconfig = shutil.which("ldconfig", path=f"{os.environ['PATH']}:/usr/sbin:/sbin")
    prefix, folders, cache = room / "prefix", room / "ld.so.conf", room / "ld.so.cache"
    where = {"DESTDIR": "", "PREFIX": str(prefix), "PATH": f"{room}/bin:{os.environ['PATH']}"}

    def last_line(user):
        for name, text in (("id", f"echo {user}"), ("ldconfig", f'exec {ldconfig} -X -f {folders} -C {cache} "$@"')):
            (room / "bin" / name).write_text(f"#!/bin/sh\n{text}\n")
            (room / "bin" / name).chmod(0o755)
        lines = run(TOP / "tools/install.sh", env={**os.environ, **where}).splitlines()
        return "".join(lines[-1:]), sorted(listed(lines) ^ files_below(prefix))

    (room / "bin").mkdir()
    folders.write_text("")
    said, differ = last_line(0)
    if differ:
        yield f"install.sh lists other files than it installs: {differ}"
    has_pkg_config = shutil.which("pkg-config")
    flags = "$(pkg-config --cflags --libs zoned)" if has_pkg_config else f"-I {prefix}/include -L {prefix}/lib -lzoned"
    program = f"gcc -o {room}/started {EXAMPLES}/zones.c {flags} && {room}/started {' '.join(ASKED)}"
    line = said.partition(": ")[2]
    ran = subprocess.run(["sh", "-c", f"{line}\n{program}"], capture_output=True, text=True)
    if not line.startswith("export ") or ran.returncode:
        yield f"after `{said}` a program ends with {ran.returncode}: {ran.stderr}"
    folders.write_text(f"{prefix}/lib\n")
    last_line(0)
    if f"=> {prefix}/lib/libzoned.so.{interface()}\n" not in run(ldconfig, "-C", cache, "-p"):
        yield "install.sh, run by root, doesn't put the library into the loader's cache"
    if not (said := last_line(1000)[0]).endswith("as root: ldconfig"):
        yield f"install.sh, not run by root, doesn't say that root must run ldconfig: {said}"


def listed(lines):
    return {line.strip() for line in lines if line.startswith("  ")}


def files_below(folder):
    return {str(path.relative_to(folder)) for path in folder.rglob("*") if not path.is_dir()}


def complaints_of_folders(room):
    """What differs if the folders have other names, as in Debian; after the tree was moved; and after it is removed."""
    root, folders = room / "debian", {"LIBDIR": "lib/x86_64-linux-gnu", "DOCDIR": "/usr/share/doc/libzoned-dev", "MANDIR": "man"}
    settings = {**os.environ, "DESTDIR": str(root), "PREFIX": "/usr", **folders}
    told = listed(run(TOP / "tools/install.sh", env=settings).splitlines())
    if files_below(root / "usr") != told:
        yield "install.sh lists other files than it installs in folders of other names"
    for name in ("lib/x86_64-linux-gnu/libzoned.so", "share/doc/libzoned-dev/LICENSE", "man/man3/zoned.3", "include/zoned.h"):
        if not (root / "usr" / name).exists():
            yield f"install.sh doesn't install {name}"
    moved = room / "moved"
    (root / "usr").rename(moved)
    lib = moved / "lib/x86_64-linux-gnu"
    if shutil.which("pkg-config"):
        flags = run("pkg-config", "--cflags", "--libs", "zoned", env={**os.environ, "PKG_CONFIG_PATH": str(lib / "pkgconfig")}).split()
        run("gcc", "-o", room / "by_moved", EXAMPLES / "zones.c", *flags, f"-Wl,-rpath,{lib}")
    moved.rename(root / "usr")
    run(TOP / "tools/install.sh", "--uninstall", env=settings)
    left = [*files_below(root), *(path for path in root.rglob("*zoned*"))]
    if left:
        yield f"--uninstall leaves {left}"


def complaints_of_names(root, room):
    """What try_names.c finds amiss with zones by name, and with numbers in words."""
    flags = [*WARNINGS, "-fsanitize=address,undefined", "-fno-sanitize-recover=all", "-I", root / f"{PREFIX[1:]}/include"]
    run("gcc", *flags, "-o", room / "names", NAMES, root / f"{PREFIX[1:]}/lib/libzoned.a")
    tried = subprocess.run([room / "names", room / "folders"], capture_output=True, text=True)
    if tried.returncode:
        yield f"{NAMES.name}: {tried.stdout}{tried.stderr}"


def complaints_of_man_page(root):
    pages = root / f"{PREFIX[1:]}/share/man/man3"
    sections = {name for line in re.findall(r"^\.SS (zoned_.*)", (pages / "zoned.3").read_text(), re.M) for name in line.split(", ")}
    for call in sorted(declared() ^ sections):
        yield f"the man page and the header differ in {call}"
    for call in sorted(sections):
        if not (pages / f"{call}.3").exists():
            yield f"there is no man page {call}(3)"


def installed(root, **more):
    """Installs below that folder. Returns the folder of the libraries."""
    run(TOP / "tools/install.sh", env={**os.environ, "DESTDIR": str(root), "PREFIX": PREFIX, **more})
    return root / f"{PREFIX[1:]}/lib"


def complaints_of_arm(room):
    run(f"{ARM}-gcc", *WARNINGS, "-fPIC", "-c", "-o", room / "heap.o", ARM_HEAP)
    run(f"{ARM}-ar", "rcsD", room / "heap.a", room / "heap.o")
    crossed = {name.upper(): f"{ARM}-{name}" for name in ("ld", "nm", "ar", "objcopy")}
    lib = installed(room / "arm", ARCHIVE=str(ARM_ARCHIVE), HEAP=str(room / "heap.a"), CC=f"{ARM}-gcc", **crossed)
    include = lib.parent / "include"
    run(f"{ARM}-gcc", *WARNINGS, "-I", include, "-o", room / "for_arm", EXAMPLES / "zones.c", "-L", lib, "-lzoned", f"-Wl,-rpath,{lib}")
    run(f"{ARM}-gcc", *WARNINGS, "-static", "-I", include, "-o", room / "for_arm_static", EXAMPLES / "zones.c", lib / "libzoned.a")
    wanted = run(room / "shared", *ASKED)
    for program in ("for_arm", "for_arm_static"):
        if run("qemu-aarch64", "-L", f"/usr/{ARM}", room / program, *ASKED) != wanted:
            yield f"{program} prints other lines than on this processor"
    print("2 programs for 64-bit ARM")


def main():
    release = Path(sys.argv[1]).resolve() if len(sys.argv) == 2 else None
    needs("rt", "gcc", "g++", "nm", ARCHIVE)
    with tempfile.TemporaryDirectory() as folder:
        root, room = Path(folder) / "root", Path(folder) / "room"
        room.mkdir()
        lib = installed(root)
        found = [*complaints_of_calls(lib), *complaints_of_programs(root, room), *complaints_of_man_page(root)]
        found += [*complaints_of_cpp(root, room, release), *complaints_of_loader(room), *complaints_of_folders(room)]
        found += complaints_of_names(root, room)
        if ARM_ARCHIVE.exists():
            found += complaints_of_arm(room)
    for complaint in found:
        print(complaint)
    print(f"the installed library: {len(found)} differences")
    sys.exit(bool(found))


if __name__ == "__main__":
    main()
