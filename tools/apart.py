#!/usr/bin/env python3
"""apart.py FOLDER [WORD..]: proves and builds a program that lies apart from the crates of the gate, and runs it with these words.

FOLDER has `crate.txt`, the one line that crates.txt would have of it, and the files of its src/ and proofs/, each with the
suffix `.txt`: the gate allows no file of such a name outside crates/. Where it has `modules.txt`, this names files of other
folders that it has as modules too, each by its path from the top of the repository. The libraries that it uses are proved and
built in crates/*/out where they are not there, which takes as long as their proofs; the program itself in a copy of the
repository, in which it is one of the crates. It stays in FOLDER/out, and is built again where a source changed. RT_JOBS says
how many processors the proofs may use. bench/run and bench/udp/run build by this too."""
import dataclasses
import hashlib
import os
import pathlib
import shutil
import subprocess
import sys
import tempfile

TOP = pathlib.Path(__file__).resolve().parent.parent
SUFFIX = ".txt"
PARTS = ("src", "proofs")


@dataclasses.dataclass(frozen=True)
class Program:
    """A program that lies apart: its folder, and files of other folders that it has as modules."""

    folder: pathlib.Path
    shared: tuple[pathlib.Path, ...] = ()

    def line(self) -> str:
        return (self.folder / "crate.txt").read_text().strip()

    def name(self) -> str:
        return self.line().split()[0].rstrip(":")

    def built(self) -> pathlib.Path:
        return self.folder / "out" / self.name()

    def files(self) -> dict[str, pathlib.Path]:
        """Its files, by their places in the crate."""
        own = [it for part in PARTS for it in sorted((self.folder / part).rglob(f"*{SUFFIX}"))]
        places = {str(it.relative_to(self.folder).with_suffix("")): it for it in own}
        return places | {f"src/{it.stem}": it for it in self.shared}


def program_at(folder: pathlib.Path) -> Program:
    """The program of a folder, with the files that its `modules.txt` names."""
    named = folder / "modules.txt"
    return Program(folder, tuple(TOP / it for it in named.read_text().split()) if named.exists() else ())


def jobs_said() -> list[str]:
    """How many jobs `rt` may use, where RT_JOBS says it."""
    return ["--jobs", os.environ["RT_JOBS"]] if "RT_JOBS" in os.environ else []


def dependencies(line: str) -> list[str]:
    return line.partition(":")[2].split()


def lines_below(line: str) -> dict[str, str]:
    """The lines of crates.txt of the repository's crates below one with this line, the lowest first."""
    said = [it.split("#")[0].strip() for it in (TOP / "crates.txt").read_text().splitlines()]
    of = {it.partition(":")[0].split()[0]: it for it in said if it}
    found: dict[str, str] = {}
    for name in dependencies(line):
        if name in of:
            found |= lines_below(of[name]) | {name: of[name]}
    return found


def digest(program: Program, lines: dict[str, str]) -> str:
    """What the built program follows from."""
    version = subprocess.run(["rt", "version"], check=True, stdout=subprocess.PIPE).stdout
    folders = [TOP / "crates" / it / part for it in lines for part in ("src", "specs", "proofs")]
    below = sorted(it for folder in folders for it in folder.rglob("*") if it.is_file())
    said = hashlib.sha256(version + "\n".join([*lines.values(), program.line()]).encode())
    for file in [*below, *program.files().values()]:
        said.update(f"{file.relative_to(TOP)}\n".encode() + file.read_bytes())
    return said.hexdigest()


def build_in(copy: pathlib.Path, program: Program, lines: dict[str, str], jobs: list[str]) -> None:
    """Builds the program in a copy of its libraries, in which it is one of the crates."""
    shutil.copy(TOP / "HANDLES", copy / "HANDLES")
    (copy / "crates.txt").write_text("\n".join([*lines.values(), program.line()]) + "\n")
    for name in lines:
        for part in ("src", "specs", "proofs", "out/rlib"):
            if (TOP / "crates" / name / part).is_dir():
                shutil.copytree(TOP / "crates" / name / part, copy / "crates" / name / part)
    crate = copy / "crates" / program.name()
    for place, file in program.files().items():
        (crate / place).parent.mkdir(parents=True, exist_ok=True)
        shutil.copy(file, crate / place)
    subprocess.run(["rt", "run", *jobs], cwd=crate, check=True, stdout=sys.stderr)
    shutil.copy(crate / "out" / program.name(), program.built())


def build(program: Program, jobs: list[str]) -> pathlib.Path:
    """Builds the program, where it is not there as the sources say, by so many jobs of `rt`, and says where it is."""
    program.built().parent.mkdir(exist_ok=True)
    lines, stamp = lines_below(program.line()), program.folder / "out/built"
    wanted = digest(program, lines)
    if program.built().exists() and stamp.exists() and stamp.read_text() == wanted:
        return program.built()
    print(f"{program.name()}: the libraries and the program are proved and built", file=sys.stderr)
    # Those that others of them use are built with these.
    tops = [name for name in lines if not any(name in dependencies(it) for it in lines.values())]
    for name in tops:
        subprocess.run(["rt", "lib", *jobs], cwd=TOP / "crates" / name, check=True, stdout=sys.stderr)
    with tempfile.TemporaryDirectory(prefix="apart-") as room:
        build_in(pathlib.Path(room), program, lines, jobs)
    stamp.write_text(wanted)
    return program.built()


def main(words: list[str]) -> int:
    if not words or words[0].startswith("-"):
        print(__doc__)
        return 2
    built = build(program_at(pathlib.Path(words[0]).resolve()), jobs_said())
    return subprocess.run([built, *words[1:]]).returncode


if __name__ == "__main__":
    sys.exit(main(sys.argv[1:]))
