"""Scripts and sessions on the programs: the built ones where they are there, else what `rt try` makes of the sources, which
proves nothing."""
from __future__ import annotations

import pathlib
import re
import subprocess
import sys
import tempfile
from collections.abc import Sequence
from typing import NamedTuple

from .config import Fault

TOP = pathlib.Path(__file__).resolve().parents[2]
SECONDS = 120  # for a run of a program
# The crate of each program, and its words, by the kind of what it is given.
PROGRAMS = {"sim": ("dds_peer", ["sim"]), "pipe": ("dds_pipe", [])}
FAULT = re.compile(r"line \d+: .*|input too long|input failed|output failed|memory")


class Ran(NamedTuple):
    output: str
    errors: str
    status: int


def built(kind: str) -> pathlib.Path:
    """Where the gate leaves the program of this kind."""
    crate, _ = PROGRAMS[kind]
    return TOP / "crates" / crate / "out" / crate


def run_program(program: pathlib.Path, kind: str, text: bytes) -> Ran:
    try:
        ran = subprocess.run([program, *PROGRAMS[kind][1]], input=text, capture_output=True, timeout=SECONDS)
    except subprocess.TimeoutExpired:
        raise Fault(f"draw: {program} did not end within {SECONDS} seconds") from None
    except OSError as fault:
        raise Fault(f"draw: {program}: {fault.strerror}", 2) from None
    return Ran(ran.stdout.decode(), ran.stderr.decode().rstrip("\n"), ran.returncode)


def run_unproved(kind: str, texts: Sequence[bytes]) -> list[Ran]:
    """What the program prints as `rt try` makes it; both of its streams come as one."""
    crate, words = PROGRAMS[kind]
    print(f"draw: {crate} is not built, so `rt try` runs it unproved: a minute or two", file=sys.stderr)
    with tempfile.TemporaryDirectory() as folder:
        for number, text in enumerate(texts):
            (pathlib.Path(folder) / f"{number:04}").write_bytes(text)
        command = ["rt", "try", "--cases", folder, *(["--", *words] if words else [])]
        try:
            ran = subprocess.run(command, cwd=TOP / "crates" / crate, stdout=subprocess.PIPE, stderr=subprocess.STDOUT)
        except FileNotFoundError:
            raise Fault(f"draw: there is no {built(kind).relative_to(TOP)}, and no `rt` to run its sources", 2) from None
    found = [answer_of(ran.stdout, number) for number in range(len(texts))]
    if None in found:
        raise Fault(f"draw: `rt try` gave no answer\n{ran.stdout.decode(errors='replace')[-2000:]}", 2)
    return [it for it in found if it]


def answer_of(printed: bytes, number: int) -> Ran | None:
    """What `rt try` says of one of its cases: what it printed, and how it ended."""
    end = re.search(rb"^case=%04d run=ended status=(\d+).*$" % number, printed, re.M)
    if end is None:
        return None
    lines = printed[: end.start()].partition(b"== %04d\n" % number)[2].decode().split("\n")[:-1]
    errors = lines.pop() if int(end[1]) and lines and FAULT.fullmatch(lines[-1]) else ""
    return Ran("".join(f"{it}\n" for it in lines), errors, int(end[1]))


def run(kind: str, texts: Sequence[bytes], program: pathlib.Path | None = None) -> list[Ran]:
    """Runs of the program that is named, or of the built one, or of the sources."""
    own = program or built(kind)
    return [run_program(own, kind, it) for it in texts] if program or own.exists() else run_unproved(kind, texts)
