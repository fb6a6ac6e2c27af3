"""Configurations, as the set-up of a script or of a session says them, and which ends of one are matched."""
from __future__ import annotations

import dataclasses
import functools
import re

PREFIX, ENTITY = re.compile("[0-9a-fA-F]{24}"), re.compile("[0-9a-fA-F]{8}")
OPTION = re.compile(r"shared|exclusive|besteffort|all|noauto|(?:last|max|instances|arrivals|strength|topic|values)=-?\d+|lease=\d+(?:s|ms|us)?")
PARTS = {"s": 1, "ms": 1_000, "us": 1_000_000}  # of a second


def units(said: str) -> int:
    """A time in units of 2^-32 second: so many, or as 5s, 500ms and 20us, rounded down."""
    number = said.rstrip("smu")
    return (int(number) << 32) // PARTS[said[len(number) :]] if said != number else int(number)


class Fault(Exception):
    """What ends a drawing: a text for standard error, and an exit status."""

    def __init__(self, text: str, status: int = 1):
        super().__init__(text)
        self.text, self.status = text, status


@dataclasses.dataclass(frozen=True)
class End:
    """A writer or a reader, by its peer and its number there, both counted from 1."""

    peer: int
    kind: str  # w or r
    number: int
    entity: bytes
    options: tuple[str, ...]

    @property
    def name(self) -> str:
        return f"{self.kind}{self.number}"

    @property
    def path(self) -> str:
        """Its name behind that of its peer, as a report has it."""
        return f"{self.peer}.{self.name}"

    @functools.cached_property
    def values(self) -> dict[str, str]:
        """Its options by their names: of those that are given twice the last one counts."""
        return {name: value for name, _, value in (it.partition("=") for it in self.options)}

    def value(self, name: str, missing: int) -> int:
        return int(self.values.get(name, missing))

    @property
    def topic(self) -> int:
        return self.value("topic", 0)

    @property
    def strength(self) -> int:
        return self.value("strength", 0)

    @property
    def lease(self) -> int | None:
        """In units of 2^-32 second; none where it never ends."""
        return units(self.values["lease"]) if "lease" in self.values else None

    def last_of(self, *names: str) -> str | None:
        """Which of these options was said last, or none."""
        said = [it.partition("=")[0] for it in self.options if it.partition("=")[0] in names]
        return said[-1] if said else None

    @property
    def is_exclusive(self) -> bool:
        return self.last_of("shared", "exclusive") == "exclusive"

    @property
    def is_best_effort(self) -> bool:
        return "besteffort" in self.values

    @property
    def depth(self) -> int | None:
        """How many samples of an instance are kept; none for all."""
        return None if self.last_of("all", "last") == "all" else self.value("last", 1)


@dataclasses.dataclass(frozen=True)
class Config:
    """Peers by their GUID prefixes, and all their writers and readers, in the order of the set-up."""

    prefixes: tuple[bytes, ...]
    ends: tuple[End, ...]

    @property
    def peers(self) -> range:
        return range(1, len(self.prefixes) + 1)

    def of(self, peer: int, kind: str = "") -> list[End]:
        """The ends of a peer, the writers first."""
        found = [it for it in self.ends if it.peer == peer and kind in ("", it.kind)]
        return sorted(found, key=lambda it: it.kind != "w")

    def end(self, path: str) -> End | None:
        """The end of a path as 1.w1, or none."""
        return next((it for it in self.ends if it.path == path), None)

    def peer_of(self, prefix: bytes) -> int | None:
        return self.prefixes.index(prefix) + 1 if prefix in self.prefixes else None

    def matched(self, end: End) -> list[End]:
        """The ends that one is matched with, by peer and then by number: a publication handle counts a reader's from 1."""
        found = [it for it in self.ends if it.kind != end.kind and it.topic == end.topic]
        return sorted(found, key=lambda it: (it.peer, it.number))

    def guid(self, end: End) -> bytes:
        return self.prefixes[end.peer - 1] + end.entity


class Setup:
    """A configuration that is read line by line."""

    def __init__(self) -> None:
        self.prefixes: list[bytes] = []
        self.ends: list[End] = []

    def take(self, words: list[str]) -> bool:
        """Whether a line belongs to a set-up; it is then taken up. In a script a peer and an end have no octets."""
        if words == ["peer", "later"]:
            raise Fault("draw: a network to which peers come later can't be drawn")
        if words == ["peer"]:
            self.prefixes.append((len(self.prefixes) + 1).to_bytes(12, "big"))
        elif words[0] == "peer" and len(words) == 2 and PREFIX.fullmatch(words[1]):
            self.prefixes.append(bytes.fromhex(words[1]))
        elif words[0] in ("writer", "reader") and self.prefixes:
            return self.add(words[0][0], words[1:])
        else:
            return False
        return True

    def add(self, kind: str, words: list[str]) -> bool:
        peer = len(self.prefixes)
        number = 1 + sum(1 for it in self.ends if it.peer == peer and it.kind == kind)
        entity = number.to_bytes(3, "big") + (b"\x02" if kind == "w" else b"\x07")
        if words and ENTITY.fullmatch(words[0]):
            entity, words = bytes.fromhex(words[0]), words[1:]
        self.ends.append(End(peer, kind, number, entity, tuple(words)))
        return all(OPTION.fullmatch(it) for it in words)

    def config(self) -> Config:
        return Config(tuple(self.prefixes), tuple(self.ends))
