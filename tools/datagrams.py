#!/usr/bin/env python3
"""Datagrams as docs/WIRE.md has them, written and read apart from the crates, and the dialogue with the built `dds_pipe`:
tools/fuzz and tools/damaged ask here. Run alone, it tests itself on the packets that docs/WIRE.md draws, and on the rows of
`library_tests` that say what is read of a packet."""
from __future__ import annotations

import os
import pathlib
import re
import select
import struct
import subprocess
import sys
from typing import FrozenSet, Iterator, List, NamedTuple, Optional, Tuple

TOP = pathlib.Path(__file__).resolve().parent.parent
PROGRAM = TOP / "crates/dds_pipe/out/dds_pipe"
SECONDS = 20  # for an answer
PAD, ACKNACK, HEARTBEAT, GAP, INFO_TS, INFO_DST, DATA = 0x01, 0x06, 0x07, 0x08, 0x09, 0x0E, 0x15
UNKNOWN, NO_PREFIX = bytes(4), bytes(12)
GREATEST = 1 << 62  # of the sequence numbers that are valid
LONGEST_VALUE, LONGEST_DATAGRAM, MOST_BITS = 65_000, 65_507, 256
KINDS = ["write", "dispose", "unregister", "dispose and unregister"]


# What is written. An order is that of struct: "<" or ">".


def header(prefix: bytes, magic: bytes = b"RTPS", version: bytes = b"\x02\x05", vendor: bytes = bytes(2)) -> bytes:
    return magic + version + vendor + prefix


def submessage(kind: int, flags: int, body: bytes, order: str = "<", length: Optional[int] = None) -> bytes:
    """A submessage; its length may be said wrongly."""
    said = len(body) if length is None else length
    return struct.pack(order + "BBH", kind, flags & 0xFE | (order == "<"), said & 0xFFFF) + body


def number(value: int, order: str = "<") -> bytes:
    """A sequence number: the high half first."""
    return struct.pack(order + "II", value >> 32 & 0xFFFF_FFFF, value & 0xFFFF_FFFF)


def count_of(value: int, order: str = "<") -> bytes:
    return struct.pack(order + "I", value & 0xFFFF_FFFF)


def number_set(base: int, members: List[int], order: str = "<", bits: Optional[int] = None) -> bytes:
    """A set of numbers; how many bits it has may be said wrongly."""
    length = max([it - base + 1 for it in members], default=0)
    words = [0] * ((length + 31) // 32)
    for it in members:
        words[(it - base) // 32] |= 1 << (31 - (it - base) % 32)
    said = length if bits is None else bits
    return number(base, order) + struct.pack(f"{order}I{len(words)}I", said, *words)


def datum(key: bytes, value: Optional[bytes], order: str = "<") -> bytes:
    """A datum, or the key form where there is no value."""
    begin = (b"\x00\x01" if order == "<" else b"\x00\x00") + bytes(2) + key
    return begin if value is None else begin + struct.pack(order + "I", len(value)) + value


def parameter(name: int, value: bytes, order: str = "<") -> bytes:
    return struct.pack(order + "HH", name, len(value)) + value


def data_body(reader: bytes, writer: bytes, at: int, rest: bytes, order: str = "<", skipped: int = 0) -> bytes:
    return bytes(2) + struct.pack(order + "H", 16 + skipped) + reader + writer + number(at, order) + bytes(skipped) + rest


# What is read.


class Said(NamedTuple):
    """What a submessage says to whom it is for."""

    kind: str  # data, heartbeat, acknack or gap
    reader: bytes
    writer: bytes
    first: int  # a DATA's number, firstSN, gapStart, or the base of an ACKNACK
    last: int  # the greatest number that it names
    rest: Tuple  # all else that counts
    strength: Optional[int] = None  # that a DATA says


class Set(NamedTuple):
    base: int
    members: FrozenSet[int]
    end: int


def take(order: str, form: str, octets: bytes, at: int) -> Tuple:
    """Numbers of this form from an offset on; ValueError where the octets are cut."""
    try:
        return struct.unpack_from(order + form, octets, at)
    except struct.error as cut:
        raise ValueError from cut


def take_number(order: str, octets: bytes, at: int, least: int = 1) -> int:
    high, low = take(order, "II", octets, at)
    value = high << 32 | low
    if not least <= value <= GREATEST:
        raise ValueError
    return value


def take_set(order: str, octets: bytes, at: int, is_acknack: bool = False) -> Set:
    """A set; an empty one of base 0 is one of base 1 where it is an ACKNACK's."""
    base, (bits,) = take_number(order, octets, at, 0), take(order, "I", octets, at + 8)
    if is_acknack and (base, bits) == (0, 0):
        base = 1
    if base < 1 or bits > MOST_BITS:
        raise ValueError
    words = take(order, f"{(bits + 31) // 32}I", octets, at + 12)
    members = frozenset(base + it for it in range(bits) if words[it // 32] >> (31 - it % 32) & 1)
    return Set(base, members, at + 12 + 4 * len(words))


def take_parameters(order: str, body: bytes, at: int) -> Tuple[Optional[bytes], int, Optional[int], int]:
    """The key hash, the status, the strength, and where what follows begins."""
    found: dict = {}
    while True:
        name, length = take(order, "HH", body, at)
        if name == 1:
            strength = take(order, "i", found[0x06], 0)[0] if 0x06 in found else None
            return found.get(0x70), found.get(0x71, bytes(4))[3] & 3, strength, at + 4
        value = body[at + 4 : at + 4 + length]
        if length % 4 or len(value) < length or length != {0x06: 4, 0x70: 16, 0x71: 4}.get(name, length):
            raise ValueError
        found.setdefault(name, value)
        at += 4 + length


def take_payload(payload: bytes, has_value: bool) -> Tuple[bytes, Optional[bytes]]:
    """The key of a datum with its value, or of a key form."""
    order, key = {b"\x00\x00": ">", b"\x00\x01": "<"}.get(payload[:2]), payload[4:20]
    if order is None or len(key) < 16:
        raise ValueError
    if not has_value:
        return key, None
    (length,) = take(order, "I", payload, 20)
    value = payload[24 : 24 + length]
    if length > LONGEST_VALUE or len(value) < length:
        raise ValueError
    return key, value


def read_data(order: str, flags: int, body: bytes, moment: int) -> Said:
    """A DATA; ValueError where it is not valid, as where any is read."""
    (skip,) = take(order, "H", body, 2)
    reader, writer, at = body[4:8], body[8:12], 4 + skip
    sequence = take_number(order, body, 12)
    if skip < 16 or at > len(body) or flags & 16 or flags & 12 == 12:
        raise ValueError
    key, status, strength = None, 0, None
    if flags & 2:
        key, status, strength, at = take_parameters(order, body, at)
    value: Optional[bytes] = None
    if flags & 12:
        key, value = take_payload(body[at:], bool(flags & 4))
    if key is None or status == 0 and not flags & 4:
        raise ValueError
    return Said("data", reader, writer, sequence, sequence, (KINDS[status], key, b"" if status else value, moment), strength)


def read_other(order: str, kind: int, flags: int, body: bytes) -> Said:
    """A HEARTBEAT, an ACKNACK or a GAP."""
    reader, writer = body[:4], body[4:8]
    if kind == HEARTBEAT:
        first, last, (count,) = take_number(order, body, 8), take_number(order, body, 16, 0), take(order, "i", body, 24)
        if first > last + 1:
            raise ValueError
        return Said("heartbeat", reader, writer, first, last, (count, bool(flags & 2), bool(flags & 4)))
    if kind == GAP:
        start, numbers = take_number(order, body, 8), take_set(order, body, 16)
        return Said("gap", reader, writer, start, max([numbers.base - 1, *numbers.members]), (numbers.base, numbers.members))
    asked = take_set(order, body, 8, is_acknack=True)
    (count,) = take(order, "i", body, asked.end)
    return Said("acknack", reader, writer, asked.base, max([asked.base, *asked.members]), (count, asked.members))


def statements(octets: bytes, own: bytes) -> Tuple[bytes, List[Said]]:
    """The sender of a datagram, and what it says to the peer of this prefix."""
    if octets[:4] != b"RTPS" or octets[4:5] != b"\x02" or not 20 <= len(octets) <= LONGEST_DATAGRAM:
        return b"", []
    found: List[Said] = []
    at, is_for, moment = 20, True, 0
    while at + 4 <= len(octets):
        kind, flags = octets[at], octets[at + 1]
        order = "<" if flags & 1 else ">"
        (length,) = take(order, "H", octets, at + 2)
        if length == 0 and kind not in (PAD, INFO_TS):
            length = len(octets) - at - 4
        if at + 4 + length > len(octets):
            break
        body, at = octets[at + 4 : at + 4 + length], at + 4 + length
        try:
            if kind == INFO_DST and len(body) >= 12:
                is_for = body[:12] in (own, NO_PREFIX)
            elif kind == INFO_TS and is_for:
                seconds, fraction = (0, 0) if flags & 2 else take(order, "II", body, 0)
                moment = seconds << 32 | fraction
                moment = 0 if moment >> 63 else moment
            elif kind == DATA and is_for:
                found.append(read_data(order, flags, body, moment))
            elif kind in (HEARTBEAT, GAP, ACKNACK) and is_for:
                found.append(read_other(order, kind, flags, body))
        except ValueError:
            pass
    return octets[8:20], found


# Configurations.


class End(NamedTuple):
    """A writer or a reader."""

    entity: bytes
    topic: int
    options: str = ""


class Peer(NamedTuple):
    prefix: bytes
    writers: List[End]
    readers: List[End]


def config_of(lines: List[bytes]) -> List[Peer]:
    """The configuration that the lines before `open` say."""
    peers: List[Peer] = []
    for line in lines:
        words = line.decode().split(" ")
        if words[0] == "peer":
            peers.append(Peer(bytes.fromhex(words[1]), [], []))
        elif words[0] in ("writer", "reader"):
            topics = [int(it[6:]) for it in words if it.startswith("topic=")]
            ends = peers[-1].writers if words[0] == "writer" else peers[-1].readers
            ends.append(End(bytes.fromhex(words[1]), topics[-1] if topics else 0, " ".join(words[2:])))
    return peers


def concerns(config: List[Peer], own: int, octets: bytes) -> List[Said]:
    """What a datagram says to endpoints of peer `own`, counted from 0, and to nobody else."""
    sender, found = statements(octets, config[own].prefix)
    peer = next((it for it in config if it.prefix == sender), None)
    if peer is None:
        return []
    kept = []
    for said in found:
        writers, readers = (config[own].writers, peer.readers) if said.kind == "acknack" else (peer.writers, config[own].readers)
        topics = [it.topic for it in writers if it.entity == said.writer]
        if any(it.topic in topics and said.reader in (UNKNOWN, it.entity) for it in readers):
            kept.append(said)
    return kept


# The dialogue.


class Ran(NamedTuple):
    output: bytes
    errors: bytes
    status: int


def fault_and_cause(errors: bytes) -> Tuple[bytes, bytes]:
    """The line of a fault, with its line feed, and the one behind it that says its cause."""
    fault, feed, cause = errors.partition(b"\n")
    return fault + feed, cause


def run(program: pathlib.Path, lines: List[bytes]) -> Ran:
    """What the program prints, given all these lines at once."""
    text, pipe = b"".join(it + b"\n" for it in lines), subprocess.PIPE
    ran = subprocess.run([str(program)], input=text, stdout=pipe, stderr=pipe, timeout=SECONDS, close_fds=False)
    return Ran(ran.stdout, ran.stderr, ran.returncode)


class Dialogue:
    """A program that runs, and is asked line by line."""

    def __init__(self, program: pathlib.Path) -> None:
        pipe = subprocess.PIPE
        self.process = subprocess.Popen([str(program)], stdin=pipe, stdout=pipe, stderr=pipe, bufsize=0, close_fds=False)
        assert self.process.stdin and self.process.stdout
        self.to, self.back = self.process.stdin.fileno(), self.process.stdout.fileno()
        self.output = b""

    def tell(self, line: bytes) -> None:
        text = line + b"\n"
        while text:
            text = text[os.write(self.to, text) :]

    def ask(self, line: bytes) -> List[bytes]:
        """The lines that answer a line, up to that of its reply; BrokenPipeError where the program ends before."""
        self.tell(line)
        answer = b""
        while not re.search(rb"(^|\n)reply [^\n]*\n\Z", answer):
            if not select.select([self.back], [], [], SECONDS)[0]:
                raise TimeoutError
            more = os.read(self.back, 1 << 16)
            if not more:
                raise BrokenPipeError
            answer += more
        self.output += answer
        return answer.split(b"\n")[:-1]

    def resident(self) -> int:
        """How many KiB of memory the program had at most so far."""
        status = pathlib.Path(f"/proc/{self.process.pid}/status").read_text()
        found = re.search(r"VmHWM:\s*(\d+) kB", status)
        return int(found[1]) if found else 0

    def end(self) -> Ran:
        """Closes the input. The output is all that there was."""
        rest, errors = self.process.communicate(timeout=SECONDS)
        return Ran(self.output + rest, errors, self.process.returncode)

    def stop(self) -> None:
        self.process.kill()
        self.process.communicate()


def drawn(text: str) -> bytes:
    """The octets of a drawing: the words of two digits that each row begins with."""
    return b"".join(bytes.fromhex(re.match(r"\s*((?:[0-9a-f]{2}\b *)*)", row)[1]) for row in text.split("\n"))  # type: ignore[index]


def text_of_members(members: FrozenSet[int]) -> str:
    ends = [it for it in sorted(members) if not (it - 1 in members and it + 1 in members)]
    return "members" + "".join(f"-{it}" if it - 1 in members else f" {it}" for it in ends)


def text_of(said: Said) -> str:
    """A submessage in the words of a row, but for what does not count here."""
    ids, rest = f"writer {said.writer.hex()} reader {said.reader.hex()}", said.rest
    if said.kind == "data":
        value = f" {rest[2].hex()}" if rest[0] == "write" else ""
        strength = "" if said.strength is None else f" strength {said.strength}"
        return f"DATA {ids} sn {said.first} {rest[0]} {rest[1].hex()}{value}".rstrip() + strength
    if said.kind == "heartbeat":
        final, liveliness = (str(it).lower() for it in rest[1:])
        return f"HEARTBEAT {ids} first {said.first} last {said.last} count {rest[0]} final {final} liveliness {liveliness}"
    if said.kind == "gap":
        return f"GAP {ids} start {said.first} base {rest[0]} {text_of_members(rest[1])}"
    return f"ACKNACK {ids} count {rest[0]} base {said.first} {text_of_members(rest[1])}"


def rows() -> Iterator[Tuple[str, bytes, List[str]]]:
    """The rows of `library_tests` that say of a packet what is read: the row, its octets, and each submessage."""
    for path in sorted((TOP / "crates/library_tests/src/tests/wire").rglob("*.rt")):
        for table in re.findall(r'"\\\n(.*?)"', path.read_text(), re.S):
            for row in re.sub(r"\\\n\s*", "", table).split("\n"):
                shown = re.match(r"(whole|read) (.*?) => (.*)", row)
                if shown:
                    words = [it.partition("x") for it in shown[2].split()]
                    octets = b"".join(bytes.fromhex(digits) * int(count or 1) for digits, _, count in words)
                    parts = re.sub(r"; written.*", "", shown[3]).split("; ")[1:]
                    yield row, octets if shown[1] == "whole" else header(bytes(11) + b"\x01") + octets, parts


def test_rows() -> int:
    """How many rows say what is read here: those of which all is for one peer."""
    passed = 0
    for row, octets, parts in rows():
        owns = {it[9:33] for it in parts if it.startswith("INFO_DST ")} or {NO_PREFIX.hex()}
        if len(owns) == 1:
            named = [it for it in parts if it.split(" ")[0] in ("DATA", "HEARTBEAT", "GAP", "ACKNACK")]
            wanted = [re.sub(r" bits \d+| final \w+(?= base)", "", it).rstrip() for it in named]
            found = [text_of(it) for it in statements(octets, bytes.fromhex(owns.pop()))[1]]
            assert found == wanted, f"{row}: {found} for {wanted}"
            passed += 1
    return passed


def test() -> int:
    page = (TOP / "docs/WIRE.md").read_text()
    first, second = [drawn(it) for it in re.findall(r"```text\n(52 54 50 53.*?)```", page, re.S)]
    one, two, writer, reader, key = bytes(11) + b"\x01", bytes(11) + b"\x02", b"\0\0\1\2", b"\0\0\1\7", bytes(15) + b"\x01"
    rest = parameter(0x70, key) + parameter(0x71, b"\0\0\0\1") + parameter(1, b"") + datum(key, None)
    dispose = submessage(INFO_TS, 0, bytes(8)) + submessage(DATA, 10, data_body(UNKNOWN, writer, 2, rest))
    asked = submessage(ACKNACK, 0, reader + writer + number_set(2, [2]) + count_of(1))
    assert first == header(one) + submessage(INFO_DST, 0, two) + dispose
    assert second == header(two) + submessage(INFO_DST, 0, one) + asked
    assert statements(first, two) == (one, [Said("data", UNKNOWN, writer, 2, 2, ("dispose", key, b"", 0))])
    assert statements(second, one) == (two, [Said("acknack", reader, writer, 2, 2, (1, frozenset([2])))])
    assert statements(second, two)[1] == statements(second[:-1], one)[1] == []
    print(f"datagrams: 2 drawings and {test_rows()} rows passed")
    return 0


if __name__ == "__main__":
    sys.exit(test())
