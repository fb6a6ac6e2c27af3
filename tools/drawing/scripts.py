"""A script of `dds_peer sim`, and its run: each reply beside its line, and each packet with its octets, for which the
program is asked."""
from __future__ import annotations

import re
from collections.abc import Callable, Sequence
from typing import NamedTuple

from . import wire
from .config import Config, Fault, Setup
from .events import Event, Run
from .running import Ran

END = re.compile(r"(?:(\d+)\.)?([wr])(\d+)")
SENT = re.compile(r" sent (\d+)-(\d+)")
MOST_ANSWERS = 256  # packets with answers that a round delivers (docs/MODEL.md, "A network")
Ask = Callable[[str, Sequence[bytes]], list[Ran]]  # what the program of a kind answers to each of these


class Command(NamedTuple):
    """A line behind the set-up, with the comments above it."""

    line: int
    words: list[str]
    captions: list[str]
    text: str


def plain(word: str) -> str:
    """The name of an end without leading zeros; any other word as it is."""
    found = END.fullmatch(word)
    return word if found is None else f"{f'{int(found[1])}.' if found[1] else ''}{found[2]}{int(found[3])}"


def paragraphs(comments: list[str]) -> list[str]:
    """Comments as paragraphs: an empty one parts two."""
    found = [""]
    for it in comments:
        text = it.lstrip("# ").rstrip()
        if text:
            found[-1] = f"{found[-1]} {text}".lstrip()
        elif found[-1]:
            found.append("")
    return [it for it in found if it]


def commands_of(script: str) -> tuple[list[str], Config, list[Command]]:
    """What a script says: the comments of its head, its set-up, and its commands."""
    setup, head, comments, found = Setup(), [], [], []
    for number, line in enumerate(script.split("\n"), 1):
        words = line.split(" ")
        if line.startswith("#") or not line:
            comments.append(line)
        elif found or not setup.take(words):
            found.append(Command(number, [plain(it) for it in words], paragraphs(comments), line))
            comments = []
        else:
            head, comments = head + comments, []
    return paragraphs(head), setup.config(), found


class Replies:
    """Replies that are given out line by line to the commands that they answer."""

    def __init__(self, run: Run, lines: list[str], octets: dict[int, bytes]):
        self.run, self.lines, self.octets, self.at = run, lines, octets, 0

    def is_over(self) -> bool:
        return self.at >= len(self.lines)

    def add(self, command: Command, words: list[str], peer: int, brought: int | None = None) -> Event:
        """The next reply, as an event; its packets go to whom they name."""
        config, reply = self.run.config, self.lines[self.at]
        self.at += 1
        known = peer if peer in config.peers else 0
        captions = command.captions if not self.run.events or self.run.events[-1].line != command.line else []
        event = Event(command.line, words, known, reply, [], brought, captions, command.text)
        place = len(self.run.events)
        self.run.events.append(event)
        sent = SENT.search(reply)
        for number in range(int(sent[1]), int(sent[2]) + 1) if sent else ():
            octets = self.octets[number]
            event.sent.append(self.run.send(place, known, config.peer_of(wire.destination(octets) or b"") or 0, octets))
        if brought is not None:
            self.run.packet(brought).deliveries.append(place)
        return event

    def take(self, command: Command) -> None:
        """The events of a command."""
        words = command.words
        if words[0] == "packet":
            self.at += 1
        elif words[0] == "round":
            self.take_round(command)
        elif words[0] == "deliver":
            number = int(words[2])
            is_there = number in range(1, len(self.run.packets) + 1) and self.lines[self.at].startswith("report")
            self.add(command, words, int(words[1]), number if is_there else None)
        else:
            self.add(command, words[1:], int(words[0]))

    def take_round(self, command: Command) -> None:
        """A tick, and then the deliveries that the round chooses (docs/MODEL.md, "A network")."""
        writer, reader = (self.run.config.end(it) for it in command.words[1:])
        ticked = self.add(command, command.words if self.lines[self.at].startswith("code") else ["tick"], writer.peer if writer else 0)
        if ticked.is_refused or writer is None or reader is None:
            return
        beats = [it for it in ticked.sent if self.says(it, reader.peer, "heartbeat", writer.entity)]
        if beats:
            asked = self.deliver(command, reader.peer, beats[0])
            asks = [it for it in asked.sent if self.says(it, writer.peer, "acknack", writer.entity, reader.entity)]
            if asks:
                for it in self.deliver(command, writer.peer, asks[0]).sent[:MOST_ANSWERS]:
                    self.deliver(command, reader.peer, it)

    def deliver(self, command: Command, peer: int, number: int) -> Event:
        return self.add(command, ["deliver", str(peer), str(number)], peer, number)

    def says(self, number: int, to: int, kind: str, writer: bytes, reader: bytes | None = None) -> bool:
        """Whether a packet goes to this peer with such a submessage."""
        packet = self.run.packet(number)
        said = wire.said_by(packet.read)
        return packet.to == to and any(it.kind == kind and it.writer == writer and reader in (None, it.reader) for it in said)


def greatest_packet(output: str) -> int:
    return max((int(last) for _, last in SENT.findall(output)), default=0)


def with_packets(script: bytes, fault_line: int | None, count: int) -> bytes:
    """A script up to its fault, and then a line for each of so many packets."""
    lines = script.split(b"\n")[: None if fault_line is None else fault_line - 1]
    return b"\n".join([*lines, *(b"packet %d" % it for it in range(1, count + 1)), b""])


def octets_in(output: str, count: int) -> dict[int, bytes]:
    """The packets that the last lines of an output show."""
    shown = [it.split(" ") for it in output.split("\n")[-count - 1 : -1]]
    return {int(it[1]): bytes.fromhex(it[2]) for it in shown if it[0] == "packet"}


def run_of_script(script: bytes, ask: Ask) -> Run:
    """The run of a script, as far as it came. It is run once more with lines for its packets: for as many as such a script
    may have, and where there are more, or it has a fault, once again for those that there are."""
    guess = 2 * script.count(b"\n") + 8
    ran, asked = ask("sim", [script, with_packets(script, None, guess)])
    found, count = re.match(r"line (\d+): ", ran.errors), greatest_packet(ran.output)
    fault_line = int(found[1]) if found else None
    if count and (asked.status or count > guess):
        guess = count
        (asked,) = ask("sim", [with_packets(script, fault_line, count)])
        if asked.status:
            raise Fault(f"draw: {asked.errors}, as the script is asked for its packets", asked.status)
    text = script.decode(errors="replace")
    if fault_line is not None:
        text = "\n".join(text.split("\n")[: fault_line - 1])
    head, config, commands = commands_of(text)
    run = Run("\n".join(head), config, fault=ran.errors, status=ran.status, output=ran.output)
    replies = Replies(run, ran.output.split("\n")[:-1], octets_in(asked.output, guess) if count else {})
    for command in commands:
        if replies.is_over():
            break
        replies.take(command)
    return run
