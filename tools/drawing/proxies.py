"""What a reader knows of a matched writer, as docs/MODEL.md has it ("What a reader has heard of"): its place there, what it
holds, what it misses, and what was lost for good. It follows the packets that came, and the places that replies report."""
from __future__ import annotations

import dataclasses
from typing import NamedTuple

import datagrams as dg

from .wire import runs_of

WINDOW = 256
MOST_SHOWN = 24  # numbers in a text


class Change(NamedTuple):
    """What a DATA says of a writer's change."""

    kind: str  # write, dispose, unregister, or dispose and unregister
    key: bytes
    value: bytes
    moment: int
    strength: int | None


def change_of(said: dg.Said) -> Change:
    return Change(*said.rest, said.strength)


def shown(numbers: list[int]) -> str:
    text = runs_of(numbers[:MOST_SHOWN])
    return f"{text} and more" if len(numbers) > MOST_SHOWN else text


def text_of_runs(runs: list[tuple[int, int]]) -> str:
    return ", ".join(str(first) if first == last else f"{first}-{last}" for first, last in runs)


@dataclasses.dataclass
class Proxy:
    """One reader's knowledge of one writer. Numbers are those of the writer's changes, from 1."""

    is_best_effort: bool = False
    place: int = 1
    held: dict[int, Change] = dataclasses.field(default_factory=dict)
    gone: set[int] = dataclasses.field(default_factory=set)  # irrelevant: no change will come
    first: int = 0  # the greatest firstSN of the HEARTBEATs that were taken
    last: int = 0  # the greatest number that it heard of
    count: int | None = None  # of the last HEARTBEAT that was taken
    lost: list[tuple[int, int]] = dataclasses.field(default_factory=list)

    def missing(self, last: int | None = None) -> list[int]:
        """The numbers of the window of which nothing is known, up to the last one that it heard of, or to this one."""
        end = min(self.last if last is None else last, self.place + WINDOW - 1)
        return [it for it in range(self.place, end + 1) if it not in self.held and it not in self.gone and it >= self.first]

    def hear(self, said: dg.Said) -> None:
        """A DATA, a GAP or a HEARTBEAT makes something known."""
        if said.kind == "heartbeat":
            if self.count is None or said.rest[0] > self.count:
                self.count = said.rest[0]
                if not self.is_best_effort:
                    self.first, self.last = max(self.first, said.first), max(self.last, said.last)
            return
        if said.kind == "gap" and self.is_best_effort:
            return
        self.last = max(self.last, said.first) if said.kind == "data" else self.last
        numbers = [said.first] if said.kind == "data" else [*range(said.first, min(said.rest[0], self.place + WINDOW)), *said.rest[1]]
        end = (1 << 62) + 1 if self.is_best_effort else self.place + WINDOW
        for it in numbers:
            if self.place <= it < end and it not in self.held and it not in self.gone:
                if said.kind == "data":
                    self.held[it] = change_of(said)
                else:
                    self.gone.add(it)

    def reach(self) -> int:
        """How far the place could go on, if there is room."""
        if self.is_best_effort:
            return max(self.held, default=self.place - 1) + 1
        at = self.place
        while at in self.held or at in self.gone or at < self.first:
            if at not in self.held and at not in self.gone:
                known = [it for it in self.held if it >= at]
                at = min([self.first, *known])
            else:
                at += 1
        return at

    def go_on(self, to: int, lost: list[tuple[int, int]]) -> list[tuple[int, Change]]:
        """The place goes on, over runs that are lost; these changes come, with their numbers."""
        came = sorted((number, it) for number, it in self.held.items() if self.place <= number < to)
        came = [it for it in came if not any(first <= it[0] <= last for first, last in lost)]
        self.place, self.lost = to, self.lost + lost
        self.held = {number: it for number, it in self.held.items() if number >= to}
        self.gone = {it for it in self.gone if it >= to}
        self.last = max(self.last, to - 1)
        return came

    def begin(self, at: int) -> None:
        """The place begins here since a match: what lies before was not for the reader, and is not lost."""
        self.go_on(at, [])

    def settle(self) -> None:
        """What a best-effort reader did not take at once it does not hold."""
        if self.is_best_effort:
            self.held.clear()

    def text(self) -> str:
        parts = [f"place {self.place}"]
        if self.held:
            parts.append(f"holds {shown(sorted(self.held))}")
        if not self.is_best_effort and (missing := self.missing()):
            parts.append(f"misses {shown(missing)}")
        if self.lost:
            parts.append(f"lost {text_of_runs(self.lost[-6:])}")
        return "; ".join(parts)
