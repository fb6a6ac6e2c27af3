#!/usr/bin/env python3
"""What a crate's sources have: what its root file exports, and the functions and constants of a file. tools/believed,
tools/unedited, tools/cited and tools/c-examples ask here. Run alone, it tests itself on the sources of a small crate,
which stand below."""
import dataclasses
import pathlib
import re
import sys
from collections.abc import Iterator

# Crates that are parts of another one, which alone calls what they export: their contracts are inner ones.
INNER = {"dds_ends": "dds_core"}
# A name that the root brings out of a module, or several, over one line or more.
USE = re.compile(r"^pub use (?:\w+::)*(?:\{([^}]*)\}|(\w+))(?: as (\w+))?;", re.M)
MODULE = re.compile(r"^pub mod (\w+);", re.M)
OWN = re.compile(r'^pub (?:const |extern "C" )?(?:fn|struct|enum|trait) (\w+)', re.M)
# The parameters of an impl or of a type, with those within them.
GENERIC = r"(?:<(?:[^<>]|<(?:[^<>]|<[^<>]*>)*>)*>)?"
IMPL = re.compile(rf"impl{GENERIC} (?:(?:\w+::)*(\w+){GENERIC} for )?(\w+)")
TRAIT = re.compile(r"(?:pub )?trait (\w+)")
ITEM = re.compile(r'( *)(pub )?(?:pub\(\w+\) )?(?:(?:const |extern "C" )?(fn) (\w+)|const (\w+))')


@dataclasses.dataclass(frozen=True)
class Exports:
    """The names of what is exported, and the modules of which each public function is."""

    names: frozenset[str]
    modules: frozenset[str]

    def has(self, name: str, owner: str | None = None, trait: str | None = None, module: str = "") -> bool:
        """Whether a function is exported: by its type or trait, where it has one, else by its own name or its module."""
        return bool({owner, trait} & self.names) if owner else name in self.names or module in self.modules


@dataclasses.dataclass(frozen=True)
class Item:
    """A function or a constant of a file: the type whose it is, or the trait that declares it; the trait that its type
    meets by it; its name, its lines, and their text, which ends with its body where it has one."""

    owner: str | None
    trait: str | None
    name: str
    lines: range
    text: str
    is_function: bool
    is_public: bool
    is_declared: bool

    @property
    def indent(self) -> str:
        return re.match(" *", self.text)[0]

    @property
    def path(self) -> str:
        """Its name, behind that of its type or trait where it has one."""
        return f"{self.owner}::{self.name}" if self.owner else self.name

    def clauses(self) -> list[str]:
        """Its `requires` and `ensures`, without comments."""
        head = self.text.split("\n" + self.indent + "{")[0]
        return re.split(r"^\s+(?=(?:requires|ensures)\b)", re.sub("//.*", "", head), flags=re.M)[1:]


def exports_of(root: str) -> Exports:
    """What a root file of this text exports."""
    names = set(OWN.findall(root))
    for several, one, alias in USE.findall(root):
        for name in several.split(",") if several else [f"{one} as {alias}" if alias else one]:
            own, _, other = name.strip().partition(" as ")
            names |= {it for it in (own, other) if it}
    return Exports(frozenset(names), frozenset(MODULE.findall(root)))


def end_of(lines: list[str], at: int, indent: str, is_function: bool, is_declared: bool) -> int:
    """The line with which an item ends that begins at this one: with its body, or with a semicolon where it has none."""
    ends = [f"{indent}}}", f"{indent}{{}}"]
    for it in range(at, len(lines)):
        if is_function and (lines[it] in ends or it == at and lines[it].endswith("}")):
            return it
        if (is_declared or not is_function) and lines[it].endswith(";"):
            return it
    raise ValueError(f"an item has no end: {lines[at]}")


def items_of(source: str) -> Iterator[Item]:
    """The functions and constants of a file of this text, those that a trait declares among them."""
    lines = source.split("\n")
    owner = trait = None
    is_declared = False
    for at, line in enumerate(lines):
        if found := IMPL.match(line):
            trait, owner = found.groups()
        elif found := TRAIT.match(line):
            owner, is_declared = found[1], True
        elif line == "}":
            owner, trait, is_declared = None, None, False
        if found := ITEM.match(line):
            indent, public, function, name, constant = found.groups()
            last = end_of(lines, at, indent, bool(function), is_declared)
            text = "\n".join(lines[at : last + 1])
            yield Item(owner, trait, name or constant, range(at, last + 1), text, bool(function), bool(public), is_declared)


def root_of(crate: pathlib.Path) -> pathlib.Path:
    """The root file of a crate: of a library, or of a program."""
    return next(it for it in [crate / "src/lib.rt", crate / "src/main.rt"] if it.exists())


SMALL = """//! A crate.
mod one;
pub mod laws;
mod two;
pub use one::One;
pub use two::{
    Two, make as made, TwoOfThem,
};
pub use other::deep::Third;
pub fn own() {}
pub extern "C" fn own_for_c() {}
fn inner() {}
"""
TWO = """//! A file.
const FIRST: u8 = 1;

pub trait Asks<T> {
    ghost asked: { Self → Type 0 };

    fn ask(&self) -> bool
        // Both.
        ensures both { asked self.now } // requires nothing
        ensures one { asked self.now };

    fn twice(&self) -> bool {
        self.ask() && self.ask()
    }
}

impl<T: Asks<Vec<u8>>> Two<T> {
    pub const LAST: [u8; 2] = [
        1, 2,
    ];

    pub(crate) fn push(&mut self, more: u8) -> Result<(), Code>
        requires room { self.old < 2 }
        ensures ok {
          self.new ≡ self.old + 1 }
    {
        requires_nothing(more)
    }
}

impl<T> fmt::Display for Two<T> {
    fn fmt(&self) -> bool { true }
}

pub fn make() {}
"""


def main() -> int:
    found = exports_of(SMALL)
    wanted = {"One", "Two", "make", "made", "TwoOfThem", "Third", "own", "own_for_c"}
    items = {it.path: it for it in items_of(TWO)}
    right = [
        found.names == wanted,
        found.modules == {"laws"},
        found.has("push", owner="Two"),
        found.has("push", owner="Inner", trait="One"),
        not found.has("push", owner="Inner"),
        found.has("own"),
        found.has("some_law", module="laws"),
        not found.has("inner", module="two"),
        list(items) == ["FIRST", "Asks::ask", "Asks::twice", "Two::LAST", "Two::push", "Two::fmt", "make"],
        [it.lines for it in items.values()][:4] == [range(1, 2), range(6, 10), range(11, 14), range(17, 20)],
        [it.is_declared for it in items.values()] == [False, True, True, False, False, False, False],
        [it.is_public for it in items.values()] == [False, False, False, True, False, False, True],
        [it.is_function for it in items.values()] == [False, True, True, False, True, True, True],
        items["Two::fmt"].trait == "Display" and items["Two::push"].trait is None,
        [it.split() for it in items["Asks::ask"].clauses()][1:] == ["ensures one { asked self.now };".split()],
        items["Two::push"].clauses()[1].split() == "ensures ok { self.new ≡ self.old + 1 }".split(),
        items["Two::push"].indent == "    " and items["make"].text == "pub fn make() {}",
        not items["Two::fmt"].clauses() and not items["make"].clauses(),
    ]
    print(f"exports: {sum(right)} right, {len(right) - sum(right)} wrong")
    return 0 if all(right) else 1


if __name__ == "__main__":
    sys.exit(main())
