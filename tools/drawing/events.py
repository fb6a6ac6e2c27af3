"""A run as it is drawn: events, one after the other, and the packets that they send and bring."""
from __future__ import annotations

import dataclasses

from .config import Config


@dataclasses.dataclass
class Packet:
    """A datagram. What came from a peer that was not recorded has no event that sent it."""

    number: int  # from 1
    sender: int  # the number of a peer; 0 for one that the configuration does not have
    to: int  # likewise
    octets: bytes
    read: bytes  # the same as a peer reads them: with payloads of other types turned (tools/kinds.py)
    sent: int | None = None  # the event that sent it, counted from 0
    deliveries: list[int] = dataclasses.field(default_factory=list)
    is_watched: bool = True  # whether it would be seen where it came


@dataclasses.dataclass
class Event:
    """What happened at one peer, in a line or in a step of one, and the reply."""

    line: int
    words: list[str]  # without the peer's number
    peer: int  # 0 where the line names none
    reply: str
    sent: list[int] = dataclasses.field(default_factory=list)
    brought: int | None = None  # the packet that it delivers
    captions: list[str] = dataclasses.field(default_factory=list)  # the comments above its line
    source: str = ""  # the line, where the words are not the whole of it

    @property
    def kind(self) -> str:
        return self.words[0]

    @property
    def is_refused(self) -> bool:
        return self.reply.startswith("code ")


@dataclasses.dataclass
class Run:
    """The events of a run, its packets by number, and with what fault it ended."""

    title: str
    config: Config
    events: list[Event] = dataclasses.field(default_factory=list)
    packets: list[Packet] = dataclasses.field(default_factory=list)
    fault: str = ""
    status: int = 0
    output: str = ""  # what the program printed

    def packet(self, number: int) -> Packet:
        return self.packets[number - 1]

    def send(self, at: int, sender: int, to: int, octets: bytes, is_watched: bool = True, read: bytes | None = None) -> int:
        """A packet more, which event `at` sends."""
        self.packets.append(Packet(len(self.packets) + 1, sender, to, octets, octets if read is None else read, at, [], is_watched))
        return len(self.packets)
