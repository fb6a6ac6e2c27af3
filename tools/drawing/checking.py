"""Whether what a picture shows of a run, where no reply says it, agrees with replies and packets that do: what an instance
is with SampleInfo, what is held and missed with the ACKNACKs that ask for it, and what is raised with what listeners kept."""
from __future__ import annotations

import re

import datagrams as dg

from . import wire
from .events import Event, Run
from .instances import ALIVE, DISPOSED, NO_WRITERS
from .story import BRACKETED, Follower, Told, sample_of

STATES = {"A": ALIVE, "D": DISPOSED, "W": NO_WRITERS}
NOTICES = {"data": "DATA_AVAILABLE", "lost": "SAMPLE_LOST", "changed": "LIVELINESS_CHANGED", "livelost": "LIVELINESS_LOST"}
MATCHED = {"w": "PUBLICATION_MATCHED", "r": "SUBSCRIPTION_MATCHED"}  # by whose notice it is


class Checker(Follower):
    """A follower that looks whether it is right."""

    def __init__(self, run: Run):
        super().__init__(run)
        self.faults: list[str] = []
        self.compared = 0
        self.kept: dict[tuple[int, str], list[str]] = {}  # what each listener was told

    def compare(self, event: Event, what: str, found: object, wanted: object) -> None:
        self.compared += 1
        if found != wanted:
            self.faults.append(f"line {event.line}: {what}: {found} for {wanted}")

    def show_samples(self, event: Event, reply: str, told: Told) -> None:
        instances = self.instances.get(f"{event.peer}.{event.words[1]}")
        for text in BRACKETED.findall(reply):
            state, sample = sample_of(text)
            life = instances.lives.get(sample.key) if instances else None
            owned = (life.state, life.handle, sample in life.recent or sample == life.marker) if life else None
            self.compare(event, f"instance {text.split(' ')[0]}", owned, (STATES[state], int(text.split(" ")[11]), True))
        super().show_samples(event, reply, told)

    def follow(self, at: int, event: Event) -> Told:
        if event.kind in ("listener", "unlisten") and not event.is_refused:
            self.compare_notices(event)
        told = super().follow(at, event)
        for piece in told.pieces:
            if piece.style == "status told":
                end, name = piece.text.split(" ")
                listener = "p" if "participant" in piece.note else end
                self.kept.setdefault((event.peer, listener), []).append(f"{end} {name}")
        for number in event.sent if event.kind == "deliver" else ():
            self.compare_acknack(event, number)
        return told

    def compare_notices(self, event: Event) -> None:
        """What is handed back are the last notices that the listener was told of."""
        words = [it.split(" ") for it in BRACKETED.findall(event.reply)]
        told = self.kept.pop((event.peer, event.words[1]), [])
        if event.reply.startswith("ok old"):
            self.compare(event, "notices", told[len(told) - len(words) :], [f"{it[0]} {NOTICES.get(it[1]) or MATCHED[it[0][0]]}" for it in words])

    def compare_acknack(self, event: Event, number: int) -> None:
        """What an ACKNACK asks for is what its reader misses."""
        packet = self.run.packet(number)
        for said in wire.said_by(packet.read):
            reader = self.entity(event.peer, "r", said.reader)
            writer = self.entity(packet.to, "w", said.writer)
            if said.kind == "acknack" and reader and writer and (reader.path, writer.path) in self.proxies:
                proxy, members = self.proxies[reader.path, writer.path], sorted(said.rest[1])
                self.compare(event, "ACKNACK", (proxy.place, proxy.missing(self.last_said(event, writer.entity))), (said.first, members))

    def last_said(self, event: Event, writer: bytes) -> int:
        """The lastSN of the HEARTBEAT that an event brought."""
        octets = self.run.packet(event.brought or 0).read
        said = dg.statements(octets, self.config.prefixes[event.peer - 1])[1]
        return max((it.last for it in said if it.kind == "heartbeat" and it.writer == writer), default=0)


def check(run: Run) -> tuple[int, list[str]]:
    """How many things were compared, and what does not agree."""
    checker = Checker(run)
    for at, event in enumerate(run.events):
        checker.step(at, event)
        if re.search(r"nomem|unsent", event.reply):
            return checker.compared, checker.faults  # what was not taken up, for want of memory, is not followed
    return checker.compared, checker.faults
