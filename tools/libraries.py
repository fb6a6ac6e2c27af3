"""The libraries for C, and what they are made of: tools/library, tools/install, tools/c-examples, bench/compare and
examples/interop/exchange ask here.

The static library, libdds_c.a, is kept in out/library/SUM, by the sum of its sources: src, specs and proofs of dds_c and of
each crate below it, crates.txt, and the kit's version. The shared one, libcinchwalnut.so, is linked of it."""
import hashlib
import os
import pathlib
import re
import shutil
import subprocess
import sys
import tempfile
from typing import Optional

ROOT = pathlib.Path(__file__).resolve().parent.parent
CRATE, INCLUDE, KEPT = ROOT / "crates/dds_c", ROOT / "include", ROOT / "out/library"
STATIC, SHARED = "libdds_c.a", "libcinchwalnut.so"


def stop(why: str):
    sys.exit(f"{pathlib.Path(sys.argv[0]).name}: {why}")


def kit() -> pathlib.Path:
    found = shutil.which("rt")
    if not found:
        stop("rt is not on the PATH")
    return pathlib.Path(found).resolve().parent.parent


def heap() -> pathlib.Path:
    """What gives the library a heap, over malloc, realloc and free."""
    return kit() / "c/liblibc_c.a"


def crates() -> dict[str, list[str]]:
    """What each crate of crates.txt uses."""
    found = {}
    for line in (ROOT / "crates.txt").read_text().splitlines():
        head, colon, below = line.partition("#")[0].partition(":")
        if head.strip():
            found[head.split()[0]] = below.split()
    return found


def built(crate: str) -> pathlib.Path:
    return ROOT / f"crates/{crate}/out/rlib/{crate}.rlib"


def own_below(all_crates: dict[str, list[str]], crate: str) -> set[str]:
    """The crates of this repository below a crate."""
    direct = {it for it in all_crates[crate] if it in all_crates}
    return direct.union(*(own_below(all_crates, it) for it in direct))


def sum_of_sources() -> str:
    all_crates = crates()
    found = hashlib.sha256((kit() / "KIT-ID").read_bytes())
    for crate in sorted({"dds_c", *own_below(all_crates, "dds_c")}):
        found.update(f"\0{crate}: {' '.join(all_crates[crate])}\0".encode())
        for part in ("src", "specs", "proofs"):
            for file in sorted(it for it in (ROOT / "crates" / crate / part).rglob("*") if it.is_file()):
                octets = file.read_bytes()
                found.update(f"\0{file.relative_to(ROOT)}\0{len(octets)}\0".encode() + octets)
    return found.hexdigest()[:16]


def build_words(all_crates: dict[str, list[str]], below: set[str], to: pathlib.Path) -> list[str]:
    """The command that proves and builds the library over those that stand below it."""
    at = kit()
    externs = [f"{it}={built(it) if it in all_crates else at / 'rlibs' / f'{it}.rlib'}" for it in ["std", *all_crates["dds_c"]]]
    places = [at / "rlibs", *[built(it).parent for it in sorted(below)]]
    words = [str(at / "bin/rattle"), "build", "--crate-name", "dds_c", "src/lib.rt", "--crate-type", "staticlib"]
    words += [word for it in externs for word in ("--extern", it)] + [word for it in places for word in ("-L", f"dependency={it}")]
    words += ["--antt-project", f"{at}/rattle/logic/antt-project.json", "--logic-built", f"{at}/logic_built", "--links", "dds_c="]
    return [*words, "--toolchain", f"{at}/toolchain", "--jobs", str(min(4, os.cpu_count() or 1)), "-o", str(to)]


def build(to: pathlib.Path) -> None:
    """Proves and builds the library: over the libraries that `rt ci` left, where these are there, by the compiler alone; else
    by `rt lib`, which looks after those that it stamped, and builds those that are not there."""
    all_crates = crates()
    below = own_below(all_crates, "dds_c")
    are_there = all((built(it) / "format").exists() for it in below)
    are_stamped = all((built(it).parent / "stamp").exists() for it in below)
    is_over_those = are_there and not are_stamped
    words = build_words(all_crates, below, to) if is_over_those else ["rt", "lib"]
    how_long = "some five minutes" if are_there else "90 minutes, or less where parts are built,"
    print(f"the library for C is proved and built: {how_long} of one processor", file=sys.stderr, flush=True)
    ran = subprocess.run(words, cwd=CRATE, capture_output=True, text=True)
    if ran.returncode:
        stop(f"the library did not build\n{ran.stdout[-2000:]}{ran.stderr[-2000:]}")
    if not is_over_those:
        shutil.copyfile(CRATE / "out" / STATIC, to)


def kept() -> pathlib.Path:
    """Where the library of these sources is, or will be."""
    return KEPT / sum_of_sources() / STATIC


def library() -> pathlib.Path:
    """The proved library, which is built where it is not kept."""
    at = kept()
    if at.exists():
        return at
    at.parent.mkdir(parents=True, exist_ok=True)
    with tempfile.TemporaryDirectory(dir=at.parent) as room:
        made = pathlib.Path(room) / STATIC
        build(made)
        if at != kept():
            stop("the sources changed meanwhile: the library is not kept")
        made.replace(at)
    return at


def declared() -> set[str]:
    """The calls of the header, which the shared library exports."""
    return set(re.findall(r"^\w+ (cw_\w+)\(", (INCLUDE / "cinchwalnut.h").read_text(), re.M))


def shared_object(room: pathlib.Path, compiler: str, lib: pathlib.Path) -> str:
    """Links the shared library in a folder; answers what the compiler says, which is nothing where it linked."""
    exports = room / "exports.map"
    exports.write_text(f"{{ global: {'; '.join(sorted(declared()))}; local: *; }};\n")
    words = [compiler, "-shared", "-o", room / SHARED, f"-Wl,-soname,{SHARED}", "-Wl,--whole-archive", lib, "-Wl,--no-whole-archive", heap()]
    words += [f"-Wl,--version-script={exports}", "-Wl,-z,text", "-Wl,--no-undefined"]
    ran = subprocess.run([str(it) for it in words], stdout=subprocess.PIPE, stderr=subprocess.STDOUT, text=True)
    return ran.stdout + (f"exit status {ran.returncode}\n" if ran.returncode else "")


def shared(lib: pathlib.Path) -> Optional[pathlib.Path]:
    """The shared library beside the static one, linked anew; none where there is no compiler."""
    compiler = shutil.which("cc")
    if not compiler:
        return None
    with tempfile.TemporaryDirectory(dir=lib.parent) as room:
        if said := shared_object(pathlib.Path(room), compiler, lib):
            stop(f"the shared library did not link\n{said}")
        (pathlib.Path(room) / SHARED).replace(lib.parent / SHARED)
    return lib.parent / SHARED
