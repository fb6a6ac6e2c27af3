"""What a reader's instances become, as docs/MODEL.md has it ("Who is registered, and who owns", "Instances", "What is
present"): states, owners and lives, who is alive, and which statuses are raised. It follows the changes that came."""
from __future__ import annotations

import dataclasses
from typing import NamedTuple

from .config import Config, End
from .proxies import Change

ALIVE, DISPOSED, NO_WRITERS = "ALIVE", "DISPOSED", "NO_WRITERS"
DATA_AVAILABLE, SAMPLE_LOST = "DATA_AVAILABLE", "SAMPLE_LOST"
LIVELINESS_CHANGED, LIVELINESS_LOST = "LIVELINESS_CHANGED", "LIVELINESS_LOST"
PUBLICATION_MATCHED, SUBSCRIPTION_MATCHED = "PUBLICATION_MATCHED", "SUBSCRIPTION_MATCHED"
BITS = {SAMPLE_LOST: 128, DATA_AVAILABLE: 1024, LIVELINESS_LOST: 2048, LIVELINESS_CHANGED: 4096, PUBLICATION_MATCHED: 8192,
        SUBSCRIPTION_MATCHED: 16384}


class Band(NamedTuple):
    """What an instance is from an event on, up to another event or to the end."""

    key: bytes
    handle: int
    state: str
    owner: str  # the path of the writer that owns it; none under SHARED ownership, or where nobody does
    since: int
    until: int | None = None


class Sample(NamedTuple):
    """A sample that a reply shows: what tells it from others of its instance."""

    key: bytes
    value: str  # ! for one without data
    is_read: bool
    moment: int
    publication: int


@dataclasses.dataclass
class Life:
    """A known instance, from its first accepted change until nobody is registered and nothing is present."""

    handle: int
    registered: set[int] = dataclasses.field(default_factory=set)
    last: str = ""  # the last accepted change: write or dispose
    recent: list[Sample | None] = dataclasses.field(default_factory=list)  # accepted writes, none for one that was taken
    marker: Sample | None = None

    @property
    def state(self) -> str:
        return DISPOSED if self.last == "dispose" else ALIVE if self.registered else NO_WRITERS

    def is_over(self) -> bool:
        return not self.registered and self.marker is None and not any(self.recent)


class Instances:
    """The instances of one reader, and its matched writers by their publication handles."""

    def __init__(self, config: Config, reader: End):
        self.reader, self.writers = reader, config.matched(reader)
        self.strengths = {number: it.strength for number, it in enumerate(self.writers, 1)}
        self.guids = {number: config.guid(it) for number, it in enumerate(self.writers, 1)}
        self.lives: dict[bytes, Life] = {}
        self.begun, self.now = 0, 0
        self.alive: dict[int, int] = {}  # since when, by publication handle
        self.dead: set[int] = set()
        self.open: dict[bytes, Band] = {}
        self.bands: list[Band] = []
        self.raised: list[str] = []
        self.touched: set[bytes] = set()

    def handle(self, writer: str) -> int:
        """The publication handle of the writer of a path."""
        return 1 + [it.path for it in self.writers].index(writer)

    def know(self, writer: End, guid: bytes) -> None:
        """A writer that is met has the next publication handle, unless it has one."""
        if all(it.path != writer.path for it in self.writers):
            self.writers.append(writer)
            self.strengths[len(self.writers)], self.guids[len(self.writers)] = writer.strength, guid

    def rank(self, writer: int) -> tuple[int, bytes]:
        """The least rank is the owner's."""
        return -self.strengths[writer], self.guids[writer]

    def owner(self, life: Life) -> int | None:
        return min(life.registered, key=self.rank, default=None) if self.reader.is_exclusive else None

    def raise_status(self, name: str) -> None:
        if name not in self.raised:
            self.raised.append(name)

    def hear(self, writer: int) -> None:
        if writer not in self.alive:
            self.raise_status(LIVELINESS_CHANGED)
        self.dead.discard(writer)
        self.alive[writer] = self.now

    def come(self, writer: int, change: Change) -> None:
        """A change came."""
        self.hear(writer)
        if change.strength is not None and change.strength != self.strengths[writer]:
            self.strengths[writer] = change.strength
            self.touched |= self.lives.keys() if self.reader.is_exclusive else set()
        life = self.lives.get(change.key) or Life(0)
        before = life.state if life.last else ""
        rivals = life.registered - {writer}
        outranks = not self.reader.is_exclusive or all(self.rank(writer) < self.rank(it) for it in rivals)
        is_accepted = change.kind != "unregister" and outranks
        if change.kind in ("write", "dispose"):
            life.registered.add(writer)
        else:
            life.registered.discard(writer)
        if is_accepted:
            self.accept(life, writer, change)
        if life.last:
            self.touch(change.key, life, before, writer, change.moment)

    def accept(self, life: Life, writer: int, change: Change) -> None:
        if not life.last:
            self.begun += 1
            life.handle = self.begun
            self.lives[change.key] = life
        life.last = "write" if change.kind == "write" else "dispose"
        if change.kind == "write":
            life.recent.append(Sample(change.key, change.value.hex() or "-", False, change.moment, writer))
            if self.reader.depth is not None:
                del life.recent[: -self.reader.depth]
            self.raise_status(DATA_AVAILABLE)

    def touch(self, key: bytes, life: Life, before: str, writer: int, moment: int) -> None:
        """What an entry makes of an instance: a marker where it is alive no more, and the end of its life."""
        if life.state != ALIVE and life.state != before:
            life.marker = Sample(key, "!", False, moment, writer)
            self.raise_status(DATA_AVAILABLE)
        if life.is_over():
            del self.lives[key]
        self.touched.add(key)

    def tick(self, now: int) -> None:
        """The time goes on: writers whose lease is over die, in the order of their handles."""
        self.now = now
        for writer, end in enumerate(self.writers, 1):
            if end.lease is not None and writer in self.alive and now - self.alive[writer] >= end.lease:
                self.die(writer)
                self.dead.add(writer)

    def die(self, writer: int) -> None:
        """A writer is alive no more, and registered for nothing."""
        del self.alive[writer]
        self.raise_status(LIVELINESS_CHANGED)
        for key, life in [it for it in self.lives.items() if writer in it[1].registered]:
            before = life.state
            life.registered.discard(writer)
            self.touch(key, life, before, writer, self.now)

    def part(self, writer: int) -> None:
        """A writer has left: it dies if it is alive, and counts as neither from then on."""
        if writer in self.alive:
            self.die(writer)
        if writer in self.dead:
            self.dead.discard(writer)
            self.raise_status(LIVELINESS_CHANGED)
        self.raise_status(SUBSCRIPTION_MATCHED)

    def match(self) -> None:
        self.raise_status(SUBSCRIPTION_MATCHED)

    def access(self, samples: list[Sample], is_take: bool) -> None:
        """A read or a take returned these samples. They come in the order of those that are present."""
        at = 0
        for sample in samples:
            life = self.lives.get(sample.key)
            if life is None:
                continue
            if life.marker == sample:
                life.marker = None if is_take else sample._replace(is_read=True)
            else:
                at = self.leave(life, sample, is_take, at)
            if life.is_over():
                del self.lives[sample.key]
            self.touched.add(sample.key)

    def leave(self, life: Life, sample: Sample, is_take: bool, at: int) -> int:
        """What a sample leaves that was returned, and where the next one is looked for."""
        start = at if sample in life.recent[at : at + 1] else 0
        if start == 0 and sample not in life.recent:
            return at
        place = life.recent.index(sample, start)
        if is_take and self.reader.depth is None:
            del life.recent[place]
            return place
        life.recent[place] = None if is_take else sample._replace(is_read=True)
        return place + 1

    def pass_over(self) -> None:
        self.raise_status(SAMPLE_LOST)

    def end_event(self, at: int) -> list[str]:
        """What event `at` made of bands; and the statuses that it raised."""
        for key in sorted(self.touched):
            life, band = self.lives.get(key), self.open.get(key)
            owner = self.owner(life) if life else None
            path = self.writers[owner - 1].path if owner else ""
            is_same = life is not None and band is not None and band[1:4] == (life.handle, life.state, path)
            if band is not None and not is_same:
                self.bands.append(self.open.pop(key)._replace(until=at))
            if life is not None and not is_same:
                self.open[key] = Band(key, life.handle, life.state, path, at)
        raised, self.raised, self.touched = sorted(self.raised, key=BITS.__getitem__), [], set()
        return raised

    def all_bands(self) -> list[Band]:
        return sorted([*self.bands, *self.open.values()], key=lambda it: (it.since, it.handle, it.key))
