#!/usr/bin/env python3
"""What an edit of must-fail/ or mutants/ makes of its crate's files, and whether that can be read. tools/unedited asks here.
Run alone, it tests itself on the edits of a small crate, which stand below.

An edit has a first line `# ` that says what the wrong body does, then `file:`, and a pair of `old:` and `new:`, or several:
each applies to what those before it made, and each `old:` text stands in its file exactly once. What comes of an edit is read
by the formatter, which parses a file in milliseconds: code, clauses and definitions. It resolves no name and proves nothing,
so an edit that can be read may still be one that does not compile."""
import dataclasses
import os
import pathlib
import re
import subprocess
import sys
import tempfile
from collections.abc import Iterable
from typing import TypeVar

from libraries import kit

PARTS = ("src/", "specs/")
# What the formatter says of a file that it can't read: the file's number, and why.
SAID = re.compile(r"^(\d+)\.(?:rt|antt): (?:it does not parse: )?(.*)$", re.M)
# What no formatter reads: where it says nothing of this, nothing was read.
UNREADABLE = ("src/lib.rt", "fn (")

Text = tuple[str, str]
# What an edit is told by: its path, or in the test its text.
Name = TypeVar("Name")


def bare(file: str, line: str) -> str:
    """A line of a file without its comment and white space."""
    return "".join(line.partition("//" if file.endswith(".rt") else "--")[0].split())


@dataclasses.dataclass
class Edited:
    """What an edit makes of its crate: the files that it changes, as it leaves them; of each text that it replaces the file
    and the line, which counts from 0; whether it changes more than comments; and what keeps it from being applied."""

    texts: dict[str, str] = dataclasses.field(default_factory=dict)
    places: list[tuple[str, int]] = dataclasses.field(default_factory=list)
    faults: list[str] = dataclasses.field(default_factory=list)
    has_changed: bool = False

    def replace(self, folder: pathlib.Path, file: str, old: str, new: str) -> None:
        """Replaces the one place of a text in a file, or says why it can't."""
        path = folder / file
        if not file.startswith(PARTS) or os.path.normpath(file) != file or not path.is_file():
            self.faults.append(f"there is no {file or 'file:'} in src/ or specs/")
            return
        text = self.texts.get(file) or path.read_text()
        count = text.count(old)
        if not old or count != 1:
            self.faults.append(f"an old: text stands {count} times in {file}" if old else "a new: has no old:")
            return
        at = text.index(old)
        self.places.append((file, text.count("\n", 0, at)))
        line = text[text.rfind("\n", 0, at) + 1 :].partition("\n")[0]
        self.has_changed |= bare(file, line) != bare(file, line.replace(old, new))
        self.texts[file] = text.replace(old, new)


def edited(edit: str, folder: pathlib.Path) -> Edited:
    """What an edit of this text makes of the crate in this folder."""
    made, file, old = Edited(), "", ""
    if not edit.startswith("# "):
        made.faults.append("no first line says what the wrong body does")
    for line in edit.split("\n"):
        if line.startswith("file: "):
            file = line.removeprefix("file: ").strip()
        elif line.startswith("old: ") and not old:
            old = line.removeprefix("old: ")
        elif line.startswith("new:"):
            made.replace(folder, file, old, line.removeprefix("new:").removeprefix(" "))
            old = ""
        elif line and not line.startswith("#"):
            made.faults.append(f"a line is none of an edit: {line}")
    if old:
        made.faults.append("an old: has no new:")
    elif not made.faults and not made.has_changed:
        made.faults.append("it changes nothing, or comments alone")
    return made


def unread(texts: Iterable[Text]) -> dict[int, str]:
    """Which of these texts the formatter can't read, each given with its file's name, by their places; and why."""
    texts = [*texts, UNREADABLE]
    with tempfile.TemporaryDirectory(prefix="edits-") as room:
        files = [f"{at}{pathlib.Path(file).suffix}" for at, (file, _) in enumerate(texts)]
        for file, (_, text) in zip(files, texts):
            (pathlib.Path(room) / file).write_text(text)
        words = [str(kit() / "bin/rattle"), "fmt", "--check", *files]
        ran = subprocess.run(words, cwd=room, stdout=subprocess.PIPE, stderr=subprocess.STDOUT, text=True)
    found = {int(at): why for at, why in SAID.findall(ran.stdout)}
    if ran.returncode != 1 or not found.pop(len(texts) - 1, ""):
        sys.exit(f"edits: the formatter failed, so nothing was read: {ran.stdout[-2000:]}")
    return found


def faults_of(edits: dict[Name, Edited]) -> list[tuple[Name, str]]:
    """What is wrong with each of these edits: why it can't be applied, or else why what comes of it can't be read."""
    texts = [(edit, file, text) for edit, made in edits.items() if not made.faults for file, text in made.texts.items()]
    why = unread((file, text) for _, file, text in texts)
    unreadable = [(texts[at][0], f"{texts[at][1]} can't be read with it: {said}") for at, said in why.items()]
    return [(edit, it) for edit, made in edits.items() for it in made.faults] + unreadable


SOURCE = """//! A crate.

/// Adds one.
pub fn add(a: u8) -> u8
    requires room { a < 255 }
    ensures ok { result ≡ a + 1 }
{
    a + 1
}
"""
SPEC = """-- one more
abbrev pub more : ℕ → ℕ
more n = n + 1
"""
# Edits that can be applied and read, and what each makes of its file, in part.
RIGHT = {
    "file: src/lib.rt\nold:     a + 1\nnew:     a + 2\n": "    a + 2\n",
    "file: src/lib.rt\nold:     a + 1\nnew:     a + 2\nold: a + 2\nnew: a + 3\n": "    a + 3\n",
    "file: src/lib.rt\nold:  ≡ a + 1\nnew:\n": "{ result }\n",
    "file: src/lib.rt\nold:     a + 1\nnew:     a\nfile: specs/More.antt\nold: n + 1\nnew: n\n": "more n = n\n",
}
# Those that can't, and what is said of each, in part.
WRONG = {
    "file: src/lib.rt\nold: a + 1\nnew: a + 2\n": "stands 2 times in src/lib.rt",
    "file: src/lib.rt\nold:     a + 7\nnew:     a + 2\n": "stands 0 times in src/lib.rt",
    "file: src/lib.rt\nold:     a + 1\nnew:     a + 2\nold:     a + 1\nnew:     a\n": "stands 0 times",
    "file: src/gone.rt\nold:     a + 1\nnew:     a + 2\n": "there is no src/gone.rt",
    "file: ../small/src/lib.rt\nold:     a + 1\nnew:     a + 2\n": "there is no ../small/src/lib.rt",
    "old:     a + 1\nnew:     a + 2\n": "there is no file:",
    "file: src/lib.rt\nnew:     a + 2\n": "a new: has no old:",
    "file: src/lib.rt\nold:     a + 1\n": "an old: has no new:",
    "file: src/lib.rt\nold:     a + 1\nnew:     a + 2\n    + 3\n": "none of an edit:     + 3",
    "file: src/lib.rt\nold:     a + 1\nold: Adds\nnew: Takes\n": "none of an edit: old: Adds",
    "file: src/lib.rt\nold:     a + 1\nnew:     a + 1\n": "it changes nothing",
    "file: src/lib.rt\nold: Adds one.\nnew: Adds two.\n": "it changes nothing",
    "file: src/lib.rt\n": "it changes nothing",
    "file: src/lib.rt\nold:     a + 1\nnew:     let b = a + ; b\n": "src/lib.rt can't be read with it: at 8",
    "file: src/lib.rt\nold:     a + 1\nnew:     if a > 1 { a\n": "src/lib.rt can't be read with it: at 8",
    "file: src/lib.rt\nold: { a < 255 }\nnew: { (a < 255 }\n": "src/lib.rt can't be read with it: at 5",
    "file: specs/More.antt\nold: n + 1\nnew: (n + 1\n": "specs/More.antt can't be read with it: ",
}


def main() -> int:
    with tempfile.TemporaryDirectory(prefix="edits-") as room:
        folder = pathlib.Path(room)
        for file, text in {"src/lib.rt": SOURCE, "specs/More.antt": SPEC}.items():
            (folder / file).parent.mkdir()
            (folder / file).write_text(text)
        made = {it: edited(f"# It.\n{it}", folder) for it in [*RIGHT, *WRONG]}
        said = dict(faults_of(made))
        unsaid = edited(next(iter(RIGHT)), folder).faults
    right = {it: it not in said and any(part in text for text in made[it].texts.values()) for it, part in RIGHT.items()}
    right |= {it: part in said.get(it, "") for it, part in WRONG.items()}
    right["the places"] = made[[*RIGHT][3]].places == [("src/lib.rt", 7), ("specs/More.antt", 2)]
    right["no first line"] = unsaid == ["no first line says what the wrong body does"]
    for it in (it for it in right if not right[it]):
        print(f"edits: wrong, and what is said is {said.get(it, 'nothing')}:\n{it}")
    count = sum(right.values())
    print(f"edits: {count} right, {len(right) - count} wrong")
    return 0 if count == len(right) else 1


if __name__ == "__main__":
    sys.exit(main())
