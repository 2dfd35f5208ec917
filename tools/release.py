#!/usr/bin/env python3
"""Makes the files of a release from what the gate has proved and built, and tries each of them in a folder of its own.

usage: tools/release.py [--proof FILE] [--root ROOT] [--earlier LOG] .. LOG FOLDER

LOG is the output of a whole `.ci/run` or `rt ci` of this commit, in which all passed. A crate that it took from an earlier run on this
machine, which proved the same files over the same libraries, needs that run's output too: `--earlier`, which may be given several
times. All planted bugs and wrong definitions must have a record in docs/TESTING.md that is no older than they are. In FOLDER it makes

- libzoned-VERSION-linux-x86_64.tar.xz: the C library, both programs, man pages and examples; and one for 64-bit ARM, without the
  programs, if Debian's gcc-aarch64-linux-gnu is installed;
- Debian packages: libzoned0.4, libzoned-dev and zonedump;
- the Python wheel;
- sahvumbi-VERSION.tar.xz: the source files of the commit;
- proof.json: what was proved. For each crate the verdict, the number of functions, after how many minutes of the run it was proved, and
  the SHA-256 of its source, definitions and proofs; the commit, the kit and its logic. `zonedump --version` prints it too, and so does
  `python -m sahvumbi --proof` of the wheel;
- SHA256SUMS.

--proof only writes proof.json to FILE. With --root the archive and the packages are installed in copies of ROOT, a clean system without
the kit, as `debootstrap --variant=minbase bookworm ROOT` makes it, and tried in them by chroot, as root. Packages are checked by lintian if
that is installed, and the archive for 64-bit ARM runs a program if qemu-aarch64-static is. It needs what tools/install.sh and tools/python_tests.sh need, and dpkg-deb and xz. A file has the
same bytes each time, except for the wheel: times are those of the commit, and owners are root.
"""

from __future__ import annotations

import argparse
import gzip
import hashlib
import json
import os
import re
import shutil
import subprocess
import sys
import tempfile
from contextlib import contextmanager
from dataclasses import dataclass
from pathlib import Path

from edits import ALL, BUGS_TRIED, DEFINITIONS_TRIED, PLANTED_BUGS, WRONG_DEFINITIONS, all_blocks, blocks, rows
from sources import TOP, crates, needs

HEADER = TOP / "crates/zoned_ffi/include/zoned_ffi.h"
ARCHIVES = TOP / "crates/zoned_ffi/out"
ARM = "aarch64-linux-gnu"
MAINTAINER = "Sahvumbi maintainers <maintainers@users.noreply.sahvumbi.example>"
# The Debian packages: what each is, what it needs, and the paths that go into it.
PACKAGES = {
    "libzoned{abi}": ("libs", "time zones for C, proved (shared library)", "libc6", ["{lib}/libzoned.so.*"]),
    "libzoned-dev": (
        "libdevel", "time zones for C, proved (development files)", "libzoned{abi} (= {version})",
        ["usr/include", "{lib}/libzoned.a", "{lib}/libzoned.so", "{lib}/pkgconfig", "{lib}/cmake", "usr/share/man/man3"],
    ),
    "zonedump": (
        "utils", "lists, compares, draws and writes time zones", "libc6",
        ["usr/bin", "usr/share/man/man1", "usr/share/zoned", "usr/share/bash-completion", "usr/share/zsh", "usr/share/fish"],
    ),
}
PROGRAM = """#include <zoned.h>
#include <stdio.h>
int main(void) {
    const char text[] = "EST5EDT,M3.2.0,M11.1.0";
    struct zoned_zone zone = {0};
    int32_t offset;
    if (zoned_open(ZONED_TEXT, text, sizeof text - 1, &zone) == ZONED_OK && zoned_zone_offset(&zone, 1615705200, &offset) == ZONED_OK)
        printf("%d\\n", offset);
    zoned_close(&zone);
}
"""
# New York's offset after its clocks went forward in 2021, in seconds.
OFFSET = "-14400\n"


def run(*command, **how):
    """Runs a command; its output. Ends the script if it fails."""
    ran = subprocess.run(command, capture_output=True, text=True, cwd=how.pop("cwd", TOP), **how)
    if ran.returncode:
        sys.exit(f"this failed: {' '.join(map(str, command))}\n{ran.stdout}{ran.stderr}")
    return ran.stdout


def version():
    return re.search(r'(?m)^#define ZONED_VERSION "(.*)"$', HEADER.read_text())[1]


# The record of the proof


def checksum(crate):
    """The SHA-256 of a crate's files of src/, specs/ and proofs/: of each path and its bytes, in order."""
    paths = run("git", "ls-files", "-z", *(f"crates/{crate}/{folder}" for folder in ("src", "specs", "proofs"))).split("\0")
    digest = hashlib.sha256()
    for path in filter(None, paths):
        digest.update(path.encode() + b"\0" + (TOP / path).read_bytes() + b"\0")
    return digest.hexdigest()


def proofs_in(log):
    """What that run proved: for each crate the verdict, the number of functions, and after how many minutes."""
    found, last, count = {}, None, None
    for line in log.read_text(errors="replace").splitlines():
        proved = re.match(r"logic=proved functions=(\d+) ", line)
        named = re.match(r"rt: (\w+) proved$", line)
        after = re.match(r"\(after (\d+) minutes\)$", line)
        if proved:
            count = int(proved[1])
        elif named:
            last, count = {"verdict": "proved", "functions": count, "minutes": None}, None
            found[named[1]] = last
        elif after and last:
            last["minutes"] = int(after[1])
    return found


def record(log, earlier):
    """What the run proved, or kept of the earlier ones. Ends the script if that isn't everything."""
    text = log.read_text(errors="replace")
    passed = re.findall(r"(?m)^(\d+) passed, (\d+) failed$", text)
    if not passed or passed[-1][1] != "0":
        sys.exit(f"{log} isn't the output of a run in which all passed")
    before = {crate: proof for other in earlier for crate, proof in proofs_in(other).items()}
    kept = {crate: before[crate] for crate in re.findall(r"(?m)^rt: (\w+) is kept: .* proved the same files", text) if crate in before}
    found = kept | proofs_in(log)
    missing = [crate for crate in crates() if crate not in found]
    if missing:
        sys.exit(f"{log} has no proof of {', '.join(missing)}: pass the output of the run that proved it with --earlier, or run the gate with --anew")
    kit, logic = re.fullmatch(r"(\S+) logic (\S+)", run("rt", "version").strip()).groups()
    return {
        "version": version(),
        "commit": run("git", "rev-parse", "HEAD").strip(),
        "kit": kit,
        "logic": logic,
        "crates": {crate: {**found[crate], "sha256": checksum(crate)} for crate in crates()},
    }


def written(record):
    """The record as JSON, with a line for each crate."""
    crate_lines = ",\n".join(f'  "{crate}": {json.dumps(values)}' for crate, values in record["crates"].items())
    head = json.dumps({name: value for name, value in record.items() if name != "crates"}, indent=1).removesuffix("\n}")
    return f'{head},\n "crates": {{\n{crate_lines}\n }}\n}}\n'


# The record of planted bugs and wrong definitions


def unrecorded():
    """The crates with a planted bug that was not tried, or that have changed since; and wrong definitions likewise."""
    due = {}
    for crate in crates():
        if blocks(PLANTED_BUGS, crate):
            parts = [f"crates/{crate}/{part}" for part in ("src", "specs", "proofs", PLANTED_BUGS)]
            due[f"`{crate}`"] = (BUGS_TRIED, len(blocks(PLANTED_BUGS, crate)), parts)
    due[ALL] = (DEFINITIONS_TRIED, len(all_blocks(WRONG_DEFINITIONS)), ["crates/*/specs", f"crates/*/{WRONG_DEFINITIONS}", "crates/tests_pins"])
    for key, (name, count, paths) in due.items():
        day, tried, *verdicts = rows(name).get(key, ("never", "0"))
        if int(tried) != count or sum(map(int, verdicts)) != count or day < run("git", "log", "-1", "--format=%cs", "--", *paths).strip():
            yield f"{name}, {key}: {tried} of {count} on {day}"


# Archives


def moment():
    """The commit's time, for the times of files."""
    return run("git", "log", "-1", "--format=%ct").strip()


def packed(folder, out):
    """Packs a folder, with the same bytes each time."""
    same = ["--sort=name", "--owner=0", "--group=0", "--numeric-owner", f"--mtime=@{moment()}"]
    run("tar", "-cJf", out, *same, folder.name, cwd=folder.parent)


def installed(root, **settings):
    """Installs the library below a root, with Debian's folders or those of a tarball."""
    run("tools/install.sh", env={**os.environ, "DESTDIR": str(root), **settings})


def with_record(prefix, proof):
    """Puts the record of the proof where zonedump looks for it."""
    (prefix / "share/zoned").mkdir(parents=True, exist_ok=True)
    (prefix / "share/zoned/proof.json").write_text(proof)


def tarball(release):
    """The archive for this processor, tried: a program is built against it in another folder, and in a clean system."""
    tree = release.room / f"libzoned-{version()}-linux-x86_64"
    installed(tree, PREFIX="/")
    with_record(tree, release.proof)
    add_licences(tree)
    tried_in(release.room, tree / "include", tree / "lib")
    tried_programs([tree / "bin/zonedump"], release.proof)
    made = release.folder / f"{tree.name}.tar.xz"
    packed(tree, made)
    if release.root:
        with release.system() as root:
            run("tar", "-xJf", made, "--strip-components=1", "--no-same-owner", "-C", root / "usr/local")
            run("chroot", root, "ldconfig")
            tried_as_installed(release, root, "usr/local/bin")


def tried_programs(zonedump, proof):
    """Asks the program for a year's changes, and for its version."""
    printed = run(*zonedump, "--from", "2021", "--to", "2021", "--text", "EST5EDT,M3.2.0,M11.1.0")
    if "2021-03-14 07:00:00 UTC" not in printed:
        sys.exit("zonedump of the release answers otherwise")
    if not run(*zonedump, "--version").endswith(f")\n{proof}"):
        sys.exit("zonedump of the release prints another record of the proof")


def tried_as_installed(release, root, folder):
    """Tries zonedump and a program with the shared library in a clean system."""
    tried_programs(["chroot", root, f"/{folder}/zonedump"], release.proof)
    shutil.copy(release.room / "shared", root / "shared")
    if run("chroot", root, "/shared") != OFFSET:
        sys.exit(f"a program with the library in {folder} answers otherwise")


def tried_in(room, include, lib):
    """Builds and runs a program with these headers and this library, static and shared."""
    source = room / "tried.c"
    source.write_text(PROGRAM)
    for name, words in (("static", [lib / "libzoned.a"]), ("shared", [f"-L{lib}", "-lzoned", f"-Wl,-rpath,{lib}"])):
        run("gcc", f"-I{include}", "-o", room / name, source, *words)
        if run(room / name) != OFFSET:
            sys.exit(f"a program with the {name} library of the release answers otherwise")


def tarball_for_arm(release):
    """The archive for 64-bit ARM, with the heap of crates/zoned_ffi/install."""
    room = release.room
    if not shutil.which(f"{ARM}-gcc"):
        print(f"{ARM}-gcc isn't installed: no archive for 64-bit ARM")
        return
    run("tools/build_archive.py", "--target", "aarch64-unknown-linux-gnu")
    run(f"{ARM}-gcc", "-O2", "-fPIC", "-c", "-o", room / "heap.o", TOP / "crates/zoned_ffi/install/heap.c")
    run(f"{ARM}-ar", "rcsD", room / "heap.a", room / "heap.o")
    tree = room / f"libzoned-{version()}-linux-aarch64"
    tools = {name: f"{ARM}-{name.lower()}" for name in ("LD", "NM", "AR", "OBJCOPY")}
    installed(tree, PREFIX="/", ARCHIVE=str(ARCHIVES / "libzoned_ffi-aarch64.a"), HEAP=str(room / "heap.a"), CC=f"{ARM}-gcc", **tools)
    shutil.rmtree(tree / "bin", ignore_errors=True)
    with_record(tree, release.proof)
    add_licences(tree)
    run(f"{ARM}-gcc", f"-I{tree}/include", "-static", "-o", room / "arm", room / "tried.c", tree / "lib/libzoned.a")
    if not shutil.which("qemu-aarch64-static"):
        print("qemu-aarch64-static isn't installed: the archive for 64-bit ARM is built and not run")
    elif run("qemu-aarch64-static", room / "arm") != OFFSET:
        sys.exit("a program with the library for 64-bit ARM answers otherwise")
    packed(tree, release.folder / f"{tree.name}.tar.xz")


def add_licences(tree):
    for name in ("LICENSE", "LICENSE-APACHE", "CHANGELOG.md"):
        shutil.copy(TOP / name, tree / name)


# Debian


def debian_packages(release):
    """Three packages, checked by lintian, unpacked into a folder and installed in a clean system, and tried there."""
    folder, room = release.folder, release.room
    root, lib = room / "debian", "usr/lib/x86_64-linux-gnu"
    installed(root, PREFIX="/usr", LIBDIR=f"/{lib}")
    with_record(root / "usr", release.proof)
    abi = os.readlink(root / lib / "libzoned.so").removeprefix("libzoned.so.")
    for program in ("zonedump", "zoneq"):
        (root / "usr/bin").mkdir(exist_ok=True)
        shutil.copy(TOP / f"crates/{program}/out/{program}", root / "usr/bin" / program)
    run("strip", root / "usr/bin/zonedump", root / "usr/bin/zoneq", root / lib / f"libzoned.so.{version()}")
    system, made = room / "system", []
    for name, (section, what, depends, paths) in PACKAGES.items():
        name, depends = name.format(abi=abi), depends.format(abi=abi, version=version())
        tree = room / name
        tree.mkdir()
        for path in [path for pattern in paths for path in root.glob(pattern.format(lib=lib))]:
            run("cp", "-a", "--parents", path.relative_to(root), tree, cwd=root)
        documented(tree / "usr/share/doc" / name)
        for page in (tree / "usr/share").glob("man/man*/*"):
            packed_page = page.with_name(f"{page.name}.gz")
            packed_page.write_bytes(gzip.compress(page.read_bytes(), 9, mtime=0))
            page.unlink()
        (tree / "DEBIAN").mkdir()
        size = sum(path.stat().st_size for path in tree.rglob("*") if path.is_file() and not path.is_symlink()) // 1024 + 1
        (tree / "DEBIAN/control").write_text(
            f"Package: {name}\nVersion: {version()}\nArchitecture: amd64\nMaintainer: {MAINTAINER}\nSection: {section}\nPriority: optional\n"
            f"Depends: {depends}\nInstalled-Size: {size}\nDescription: {what}\n"
            " Offsets, wall clocks and clock changes of TZif files and TZ strings.\n Each function is proved to meet its contract.\n"
        )
        if section == "libs":
            (tree / "DEBIAN/shlibs").write_text(f"libzoned {abi} {name} (>= {version()})\n")
            (tree / "DEBIAN/triggers").write_text("activate-noawait ldconfig\n")
        run("chmod", "-R", "u+rwX,go+rX,go-w", tree)
        for library in (tree / lib).glob("libzoned.so.*.*.*"):
            library.chmod(0o644)
        package = folder / f"{name}_{version()}_amd64.deb"
        run("dpkg-deb", "--build", "--root-owner-group", tree, package, env={**os.environ, "SOURCE_DATE_EPOCH": moment()})
        run("dpkg-deb", "-x", package, system)
        made.append(package)
    if shutil.which("lintian"):
        print(run("lintian", "--allow-root", "--fail-on", "error", "--suppress-tags", "bad-distribution-in-changes-file", *made), end="")
    tried_in(room, system / "usr/include", system / lib)
    tried_programs([system / "usr/bin/zonedump"], release.proof)
    if release.root:
        with release.system() as clean:
            for package in made:
                shutil.copy(package, clean)
            run("chroot", clean, "dpkg", "-i", *(f"/{package.name}" for package in made))
            tried_as_installed(release, clean, "usr/bin")


def documented(folder):
    """The licence and the changelog, as Debian wants them."""
    folder.mkdir(parents=True)
    licence = (TOP / "LICENSE").read_text()
    words = "\n".join(f" {line}" if line.strip() else " ." for line in licence.splitlines())
    (folder / "copyright").write_text(
        "Format: https://www.debian.org/doc/packaging-manuals/copyright-format/1.0/\n\n"
        f"Files: *\nCopyright: 2026 Sahvumbi maintainers\nLicense: MIT or Apache-2.0\n{words}\n .\n"
        " On Debian systems the Apache License 2.0 is in /usr/share/common-licenses/Apache-2.0.\n"
    )
    when = run("git", "log", "-1", "--format=%cD").strip()
    entry = f"zoned ({version()}) unstable; urgency=medium\n\n  * See CHANGELOG.md of the sources.\n\n -- {MAINTAINER}  {when}\n"
    (folder / "changelog.gz").write_bytes(gzip.compress(entry.encode(), 9, mtime=0))


# Python, and the sources


def wheel(release):
    """The wheel, installed into an environment of its own and asked."""
    folder, room, proof = release.folder, release.room, release.proof
    copy = room / "python"
    shutil.copytree(TOP / "python", copy, ignore=shutil.ignore_patterns("build", "*.egg-info", "__pycache__"))
    for name in ("LICENSE", "LICENSE-APACHE"):
        shutil.copy(TOP / name, copy / name)
    installed(room / "for_python", PREFIX="/usr")
    shutil.copy(room / "for_python/usr/lib/libzoned.so", copy / "src/sahvumbi/libzoned_ffi.so")
    (copy / "src/sahvumbi/proof.json").write_text(proof)
    python = "/usr/bin/python3"
    run(python, "-m", "pip", "wheel", "--no-index", "--no-build-isolation", "--no-deps", "-w", folder, copy)
    run(python, "-m", "venv", "--system-site-packages", room / "environment")
    made = next(folder.glob("sahvumbi-*.whl"))
    run(room / "environment/bin/pip", "install", "--no-index", "--no-deps", made)
    asked = "from sahvumbi import Zone; print(Zone.from_text('EST5EDT,M3.2.0,M11.1.0').offsets([1615705200])[0])"
    if run(room / "environment/bin/python", "-c", asked, cwd=room) != OFFSET:
        sys.exit("the wheel answers otherwise")
    if json.loads(run(room / "environment/bin/python", "-m", "sahvumbi", "--proof", cwd=room)) != json.loads(proof):
        sys.exit("the wheel has another record of the proof")


def sources(release):
    name = f"sahvumbi-{version()}"
    plain = release.room / f"{name}.tar"
    run("git", "archive", f"--prefix={name}/", "-o", plain, "HEAD")
    run("xz", "-9", "-T1", plain)
    shutil.move(f"{plain}.xz", release.folder / f"{name}.tar.xz")


@dataclass
class Release:
    """The folder of the files, one to work in, the record of the proof, and a clean system or None."""

    folder: Path
    room: Path
    proof: str
    root: Path | None

    @contextmanager
    def system(self):
        """A copy of the clean system, with /proc, through which a program finds its own folder."""
        with tempfile.TemporaryDirectory(dir=self.room) as place:
            copy = Path(place) / "root"
            run("cp", "-a", self.root, copy)
            run("mount", "-t", "proc", "proc", copy / "proc")
            try:
                yield copy
            finally:
                run("umount", copy / "proc")


def main():
    parser = argparse.ArgumentParser(description=__doc__, formatter_class=argparse.RawDescriptionHelpFormatter)
    parser.add_argument("--proof", type=Path, metavar="FILE")
    parser.add_argument("--root", type=Path)
    parser.add_argument("--earlier", type=Path, metavar="LOG", action="append", default=[])
    parser.add_argument("log", type=Path)
    parser.add_argument("folder", type=Path, nargs="?")
    asked = parser.parse_args()
    proof = written(record(asked.log, asked.earlier))
    if asked.proof:
        asked.proof.write_text(proof)
        return
    if not asked.folder:
        parser.error("FOLDER is missing")
    missing = list(unrecorded())
    if missing:
        sys.exit(f"no record of a full run, tools/try_edits.py --record and tools/try_definitions.py: {'; '.join(missing)}")
    programs = [TOP / f"crates/{program}/out/{program}" for program in ("zonedump", "zoneq")]
    needs("rt", "gcc", "dpkg-deb", "xz", "/usr/bin/python3", ARCHIVES / "libzoned_ffi.a", *programs)
    folder = asked.folder.absolute()
    folder.mkdir(parents=True, exist_ok=True)
    (folder / "proof.json").write_text(proof)
    with tempfile.TemporaryDirectory() as place:
        release = Release(folder, Path(place), proof, asked.root and asked.root.absolute())
        for step in (tarball, tarball_for_arm, debian_packages, sources, wheel):
            step(release)
    files = sorted(path for path in folder.iterdir() if path.name != "SHA256SUMS")
    sums = "".join(f"{hashlib.sha256(path.read_bytes()).hexdigest()}  {path.name}\n" for path in files)
    (folder / "SHA256SUMS").write_text(sums)
    print(sums, end="")


if __name__ == "__main__":
    main()
