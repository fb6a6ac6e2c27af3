"""What is to be drawn, read from files: its kind, and the run that it is."""
from __future__ import annotations

import pathlib
import sys
from collections.abc import Sequence

from . import running, scripts, sessions
from .config import Fault
from .events import Run


def read_file(path: pathlib.Path) -> bytes:
    try:
        return sys.stdin.buffer.read() if str(path) == "-" else path.read_bytes()
    except OSError as fault:
        raise Fault(f"draw: {path}: {fault.strerror}", 2) from None


def read_page(path: pathlib.Path) -> str:
    """A page that this tool has made."""
    text = read_file(path).decode(errors="replace")
    if '<script type="application/json" id="run">' not in text:
        raise Fault(f"draw: {path}: no picture", 2)
    return text


def kind_of(path: pathlib.Path, text: bytes) -> str:
    """sim, pipe or recording: by the suffix, else by what stands in it."""
    if path.suffix == ".sim":
        return "sim"
    if sessions.is_recording(text.decode(errors="replace")):
        return "recording"
    return "pipe" if path.suffix == ".pipe" or sessions.is_session(text.decode(errors="replace")) else "sim"


def run_of(paths: list[pathlib.Path], program: pathlib.Path | None = None) -> Run:
    """The run of a script, of a session or of recordings."""
    texts = {path: read_file(path) for path in paths}
    kinds = {path: kind_of(path, text) for path, text in texts.items()}
    if len(paths) > 1 and set(kinds.values()) != {"recording"}:
        wrong = next(path for path, kind in kinds.items() if kind != "recording")
        raise Fault(f"draw: {wrong} is no recording, and only recordings are woven", 2)

    def ask(kind: str, asked: Sequence[bytes]) -> list[running.Ran]:
        return running.run(kind, asked, program)

    first = paths[0]
    if kinds[first] == "sim":
        return scripts.run_of_script(texts[first], ask)
    if kinds[first] == "pipe":
        return sessions.run_of_sessions([sessions.ask_session(first.name, texts[first], ask)])
    read = [sessions.read_recordings(it.name, text.decode(errors="replace")) for it, text in texts.items()]
    return sessions.run_of_sessions([it for one in read for it in one])
