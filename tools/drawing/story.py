"""What is told of each event at its peer's lane: the call and its reply, samples, places, what is held and lost, statuses
and notices; and the bands of instances, which follow from all of it."""
from __future__ import annotations

import dataclasses
import re
from typing import NamedTuple

import datagrams as dg

from . import wire
from .config import End, Fault, units
from .events import Event, Packet, Run
from .instances import BITS, LIVELINESS_LOST, PUBLICATION_MATCHED, Instances, Sample
from .proxies import Proxy, shown, text_of_runs

CODES = {3: "BAD_PARAMETER", 4: "PRECONDITION_NOT_MET", 5: "OUT_OF_RESOURCES", 8: "INCONSISTENT_POLICY", 10: "TIMEOUT",
         11: "NO_DATA", 100: "out of memory"}
MOVE = re.compile(r"\[(place|acked|heard|begun|strange) ([^\]]*)\]")
BRACKETED = re.compile(r"\[([^\]]*)\]")
RUN = re.compile(r"(\d+)-(\d+)")
MOST_SAMPLES, LONGEST = 12, 14  # samples that are shown of a reply; letters of a word
WAITS = "held until what is missing before it has come, or there is room"
STATES = {"A": "alive", "D": "disposed", "W": "no-writers"}
TELLINGS = ("match", "meet", "part")  # the calls by which an end is told of another


class Piece(NamedTuple):
    """A few words of a class, and what stands behind them: a note, or a sample as a reply has it."""

    style: str
    text: str
    note: str = ""


@dataclasses.dataclass
class Told:
    """What is told of an event, and what each of the peer's pairs of ends knows after it."""

    pieces: list[Piece] = dataclasses.field(default_factory=list)
    states: dict[str, str] = dataclasses.field(default_factory=dict)

    def add(self, style: str, text: str, note: str = "") -> None:
        self.pieces.append(Piece(style, text, note))


def sample_of(text: str) -> tuple[str, Sample]:
    """The words of a sample in a reply, and what they say."""
    words = text.split(" ")
    return words[4], Sample(bytes.fromhex(words[0].zfill(32)), words[1], words[2] == "R", int(words[10]), int(words[12]))


def short(word: str) -> str:
    """A long word without its middle."""
    return word if len(word) <= LONGEST else f"{word[: LONGEST - 5]}..{word[-3:]}"


def value_of(octets: str) -> str:
    """A value as text where it is a word, else its digits."""
    plain = bytes.fromhex(octets) if octets not in ("-", "!") else b""
    return short(f'"{plain.decode()}"' if len(plain) > 1 and all(33 <= it < 127 for it in plain) else octets)


def call_of(words: list[str]) -> str:
    """A call in short words, without masks that ask for everything."""
    text = " ".join([words[0], *map(short, words[1:])])
    return re.sub(r" -1$", "", re.sub(r"(?: 65535| any){3}$", "", text)) if words[0].startswith(("read", "take")) else text


class Follower:
    """A run that is followed event by event."""

    def __init__(self, run: Run):
        self.run, self.config = run, run.config
        self.readers = [it for it in self.config.ends if it.kind == "r"]
        self.instances = {it.path: Instances(self.config, it) for it in self.readers}
        self.proxies = {(it.path, other.path): Proxy(it.is_best_effort) for it in self.readers for other in self.config.matched(it)}
        self.met: dict[bytes, End] = {}  # writers by their GUIDs that a reader has met and no configuration lists
        self.away: set[tuple[str, str]] = set()  # those of them whose reader was told of a parting
        self.waiting: set[tuple[str, str]] = set()  # those whose place has not begun since a match
        self.texts: dict[tuple[str, str], str] = {}  # what was last told of each pair
        self.listeners: dict[tuple[int, str], int] = {}
        self.live: dict[str, int] = {}  # writers, since their last change or assertion
        self.now = dict.fromkeys(self.config.peers, 0)

    def step(self, at: int, event: Event) -> Told:
        """What is told of an event. A recording may have a reply that its line can't have."""
        try:
            return self.follow(at, event)
        except (IndexError, KeyError, ValueError):
            raise Fault(f"line {event.line}: not the reply to {event.source[:80]}") from None

    def follow(self, at: int, event: Event) -> Told:
        told = Told()
        reply = re.sub(r"( sent \d+-\d+)?( unsent \d+)?$", "", event.reply)
        if event.kind == "deliver" and event.brought is not None:
            self.deliver(event, reply, told)
        elif event.kind == "resume" and reply.startswith("report"):
            self.resume(event, reply, told)
        else:
            told.add("call", call_of(event.words))
            self.answer(event, reply, told)
        lost = re.search(r" unsent (\d+)$", event.reply)
        if lost:
            told.add("bad", f"{lost[1]} unsent", "packets for which memory ran out")
        self.end_event(at, event, told)
        return told

    # Calls and ticks.

    def answer(self, event: Event, reply: str, told: Told) -> None:
        word = reply.split(" ")[0]
        if word == "code":
            number = int(reply.split(" ")[1])
            told.add("quiet" if number in (10, 11) else "bad", f"{reply} {CODES.get(number, '')}".rstrip())
        elif word == "samples":
            self.show_samples(event, reply, told)
        elif word == "ok" and reply.startswith("ok old"):
            told.add("reply", "ok old")
            for it in BRACKETED.findall(reply):
                told.add("notice", it, "a notice that the listener kept")
        else:
            told.add("reply", reply or "no reply")
        if word == "ok" or word == "handle" and event.kind in TELLINGS:
            self.take_effect(event)

    def show_samples(self, event: Event, reply: str, told: Told) -> None:
        texts = BRACKETED.findall(reply)
        reader = self.instances.get(f"{event.peer}.{event.words[1]}")
        told.add("reply", f"{len(texts)} sample{'s' * (len(texts) != 1)}")
        for text in texts[:MOST_SAMPLES]:
            state, sample = sample_of(text)
            value = "no data" if sample.value == "!" else value_of(sample.value)
            told.add(f"sample {STATES[state]}", f"{short(text.split(' ')[0])}: {value}", f"s:{text}")
        if len(texts) > MOST_SAMPLES:
            told.add("quiet", f"and {len(texts) - MOST_SAMPLES} more")
        if reader:
            reader.access([sample_of(it)[1] for it in texts], event.kind.startswith("take"))

    def take_effect(self, event: Event) -> None:
        """What a call or a tick changes that was done."""
        peer, words = event.peer, event.words
        if event.kind == "tick":
            self.now[peer] = units(words[1]) if words[1:] else self.now[peer]
            for it in self.config.of(peer, "r"):
                self.instances[it.path].tick(self.now[peer])
        elif event.kind in ("write", "dispose", "unregister", "assert"):
            self.live[f"{peer}.{words[1]}"] = self.now[peer]
        elif event.kind in TELLINGS and words[1].startswith("r"):
            if event.kind == "meet":
                self.meet(f"{peer}.{words[1]}", *words[2:])
            self.tell(f"{peer}.{words[1]}", words[2], event.kind)
        elif event.kind == "listener":
            self.listeners[peer, words[1]] = 65_535 if words[2] == "any" else int(words[2])
        elif event.kind == "unlisten":
            self.listeners.pop((peer, words[1]), None)

    def meet(self, reader: str, writer: str, prefix: str, entity: str, *options: str) -> None:
        """A reader is told of a writer that it may not know."""
        peer, number = writer.split(".w")
        end, guid = End(int(peer), "w", int(number), bytes.fromhex(entity), options), bytes.fromhex(prefix + entity)
        if self.config.end(writer) is None:
            self.met.setdefault(guid, end)
        self.instances[reader].know(end, guid)
        self.proxies.setdefault((reader, writer), Proxy(self.instances[reader].reader.is_best_effort))

    def tell(self, reader: str, writer: str, word: str) -> None:
        """A reader is told that it is matched with a writer, or no longer."""
        instances, pair = self.instances[reader], (reader, writer)
        if word == "part":
            self.away.add(pair)
            self.waiting.discard(pair)
            instances.part(instances.handle(writer))
        else:
            self.away.discard(pair)
            self.waiting.add(pair)
            instances.match()

    # Deliveries.

    def deliver(self, event: Event, reply: str, told: Told) -> None:
        packet = self.run.packet(event.brought or 0)
        again = " again" if self.run.events[packet.deliveries[0]] is not event else ""
        told.add("from", f"packet {packet.number}{again}", f"p:{packet.number}")
        moves = MOVE.findall(reply)
        before = len(told.pieces)
        self.take_up(event.peer, packet, moves, told)
        for kind, text in moves:
            self.move(event.peer, kind, text.split(" "), told)
        if "nomem" in reply:
            told.add("bad", reply[reply.index("nomem") :], "memory ran out at this submessage")
        if len(told.pieces) == before:
            told.add("quiet", "answers" if event.sent else "nothing new")

    def resume(self, event: Event, reply: str, told: Told) -> None:
        """Places of a reader that are tried again, at one writer after another."""
        told.add("call", call_of(event.words))
        touched: dict[tuple[str, str], str] = {}
        for kind, text in MOVE.findall(reply):
            words = text.split(" ")
            pair = f"{event.peer}.{words[1]}", words[0]
            touched.setdefault(pair, self.texts.get(pair) or self.proxies[pair].text())
            self.move(event.peer, kind, words, told)
        for pair, before in touched.items():
            self.tell_pair(pair, before, told)
        if "nomem" in reply:
            told.add("bad", reply[reply.index("nomem") :], "memory ran out at this writer")
        if not touched:
            told.add("quiet", "nothing new")

    def take_up(self, peer: int, packet: Packet, moves: list[tuple[str, str]], told: Told) -> None:
        """Each submessage in turn, with the moves that it makes, which are taken off the list."""
        own = self.config.prefixes[peer - 1]
        is_own = wire.destination(packet.read) in (None, own)
        sender, said = packet.read[8:20], wire.said_by(packet.read) if is_own else dg.statements(packet.read, own)[1]
        touched: dict[tuple[str, str], str] = {}
        for it in said:
            writer = self.writer_of(sender, it.writer) if it.kind != "acknack" else None
            for reader in self.named(peer, it, writer) if writer else []:
                pair = reader.path, writer.path
                touched.setdefault(pair, self.texts.get(pair) or self.proxies[pair].text())
                self.proxies[pair].hear(it)
                self.take_moves(pair, reader, writer, it, moves, told)
                self.proxies[pair].settle()
        for pair, before in touched.items():
            self.tell_pair(pair, before, told)

    def entity(self, peer: int | None, kind: str, entity: bytes) -> End | None:
        return next((it for it in self.config.of(peer or 0, kind) if it.entity == entity), None)

    def writer_of(self, sender: bytes, entity: bytes) -> End | None:
        """The writer of a GUID, which the configuration lists or a reader has met."""
        return self.entity(self.config.peer_of(sender), "w", entity) or self.met.get(sender + entity)

    def named(self, peer: int, said: dg.Said, writer: End) -> list[End]:
        """The matched readers of a peer that a submessage names; where the place waits, those at which it may begin."""
        found = [it for it in self.config.of(peer, "r") if (it.path, writer.path) in self.proxies and said.reader in (dg.UNKNOWN, it.entity)]
        return [it for it in found if (it.path, writer.path) not in self.away
                and ((it.path, writer.path) not in self.waiting or self.begins(it, said))]

    def begins(self, reader: End, said: dg.Said) -> bool:
        """Whether a place may begin by such a submessage; a best-effort reader's only hears others."""
        return said.kind == "heartbeat" or reader.is_best_effort and said.kind == "data"

    def take_moves(self, pair: tuple[str, str], reader: End, writer: End, said: dg.Said, moves: list[tuple[str, str]], told: Told) -> None:
        """The moves of this pair that come next at a submessage, as far as what is known reaches."""
        while moves:
            kind, text = moves[0]
            words = text.split(" ")
            if kind in ("acked", "strange") or words[:2] != [writer.path, reader.name]:
                return
            if kind == "place" and not self.proxies[pair].place < int(words[2]) <= self.proxies[pair].reach():
                return
            if kind == "begun" and said.kind != ("data" if reader.is_best_effort else "heartbeat"):
                return
            self.move(reader.peer, *(kind, words), told)
            del moves[0]

    def move(self, peer: int, kind: str, words: list[str], told: Told) -> None:
        """One move of a report."""
        if kind == "acked":
            told.add("acked", f"{words[1]} has all below {words[2]}", f"{words[0]}: what it has acknowledged")
            told.states[f"{peer}.{words[0]} to {words[1]}"] = f"acknowledged below {words[2]}"
            return
        if kind == "strange":
            told.add("lost", f"{words[1]} is strange", f"{words[0]}: it acknowledges what was never made")
            return
        reader, writer = f"{peer}.{words[1]}", words[0]
        instances = self.instances[reader]
        handle = instances.handle(writer)
        if kind == "heard":
            instances.hear(handle)
            told.add("acked", f"heard {writer}")
            return
        if kind == "begun":
            self.waiting.discard((reader, writer))
            self.proxies[reader, writer].begin(int(words[3]))
            told.add("acked", f"begun at {words[3]}", f"{writer}: what the reader missed before is not lost")
            return
        lost = [(int(first), int(last)) for first, last in RUN.findall(" ".join(words[4:]))] if "lost" in words else []
        self.texts.pop((reader, writer), None)
        for _, change in self.proxies[reader, writer].go_on(int(words[2]), lost):
            instances.come(handle, change)
        if lost:
            instances.pass_over()
            told.add("lost", f"lost for good {text_of_runs(lost)}", "changes that were passed over")

    def tell_pair(self, pair: tuple[str, str], before: str, told: Told) -> None:
        """The place of a reader, and what it holds and misses, where that is not as it was, or keeps it waiting."""
        proxy, text = self.proxies[pair], self.proxies[pair].text()
        reader, writer = pair
        self.texts[pair] = text
        told.states[f"{reader} of {writer}"] = text
        whose = reader.split(".")[1] + (f" of {writer}" if len(self.instances[reader].writers) > 1 else "")
        if text == before:
            return
        old = int(re.match(r"place (\d+)", before)[1])
        if proxy.place != old:
            told.add("place", f"{whose}: place {proxy.place}", f"{reader} of {writer}: {text}; before {before}")
        if proxy.held:
            text = f"holds {shown(sorted(proxy.held))}"
            told.add("held", text if proxy.place != old else f"{whose} {text}", WAITS)
        if not proxy.is_best_effort and (missing := proxy.missing()):
            told.add("missing", f"misses {shown(missing)}", f"{reader} of {writer}: {text}")

    # The end of an event.

    def end_event(self, at: int, event: Event, told: Told) -> None:
        if event.kind == "tick" and not event.is_refused:
            for it in self.config.of(event.peer, "w"):
                if it.lease is not None and it.path in self.live and self.now[event.peer] - self.live[it.path] >= it.lease:
                    del self.live[it.path]
                    self.tell_status(it, LIVELINESS_LOST, told)
        if event.kind in TELLINGS and not event.is_refused and (end := self.config.end(f"{event.peer}.{event.words[1]}")) and end.kind == "w":
            self.tell_status(end, PUBLICATION_MATCHED, told)
        for it in self.config.of(event.peer, "r"):
            for name in self.instances[it.path].end_event(at):
                self.tell_status(it, name, told)

    def tell_status(self, end: End, name: str, told: Told) -> None:
        """A status that was raised, and the listener that is told of it."""
        takers = [it for it in (end.name, "p") if self.listeners.get((end.peer, it), 0) & BITS[name]]
        whom = {"p": "the participant's"}.get(takers[0], f"{takers[0]}'s") if takers else ""
        style = "status told" if takers else "status"
        told.add(style, f"{end.name} {name}", f"told to {whom} listener" if takers else "raised; no listener is told of it")
