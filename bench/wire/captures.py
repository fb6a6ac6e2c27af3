#!/usr/bin/env python3
"""Datagrams for bench/wire/run: those that stand in the repository, and 500 of each form in which dds_core sends one, written
by tools/datagrams.py. Run alone, it prints them, but for the vectors, on lines of hexadecimal digits."""
import pathlib
import random
import re
import struct
import sys
from typing import Iterator

TOP = pathlib.Path(__file__).resolve().parent.parent.parent
sys.path.insert(0, str(TOP / "tools"))
import datagrams as wire  # noqa: E402

OTHER_PRODUCTS = TOP / "crates/library_tests/src/tests/wire/captured.rt"
TRANSCRIPTS = ("cases/*", "examples/*.out", "examples/*.pipe", "crates/*/stdin", "crates/*/stdout")
OF_EACH = 500  # of each form
SENDER, RECEIVER = bytes(11) + b"\x01", bytes(11) + b"\x02"
WRITER, READER = b"\0\0\1\2", b"\0\0\1\7"
HAS_PARAMETERS, HAS_DATUM, HAS_KEY, FINAL = 2, 4, 8, 2
KEY_HASH, STATUS_INFO, STRENGTH, SENTINEL = 0x70, 0x71, 0x06, 0x01


def captured() -> list[bytes]:
    """Each datagram of a transcript, and those of other products; each once."""
    files = [it for pattern in TRANSCRIPTS for it in sorted(TOP.glob(pattern)) if it.is_file()]
    texts = [found for file in files for found in re.findall(r"\b52545053(?:[0-9a-f]{2})+\b", file.read_text(errors="replace").lower())]
    return list(dict.fromkeys([*map(bytes.fromhex, texts), *rows(True)]))


def rows(of_others: bool) -> list[bytes]:
    """The datagrams in the rows of library_tests: those that other products sent, or the others, which no peer sends."""
    said = re.sub(r"\\\n\s*", "", OTHER_PRODUCTS.read_text())
    return [octets for row, octets, _ in wire.rows() if (row in said) == of_others]


def datagram(*parts: bytes) -> bytes:
    return wire.header(SENDER) + wire.submessage(wire.INFO_DST, 0, RECEIVER) + b"".join(parts)


def moment(dice: random.Random) -> bytes:
    return wire.submessage(wire.INFO_TS, 0, struct.pack("<II", dice.randrange(1 << 20), dice.randrange(1 << 32)))


def key_of(dice: random.Random) -> bytes:
    return bytes(14) + dice.randbytes(2)


def data(flags: int, reader: bytes, at: int, rest: bytes) -> bytes:
    body = wire.data_body(reader, WRITER, at, rest)
    return wire.submessage(wire.DATA, flags, body + bytes(-len(body) % 4))


def change(dice: random.Random, at: int, octets: int, reader: bytes = wire.UNKNOWN, strength: bytes = b"") -> bytes:
    """A write of so many octets."""
    said = strength + wire.parameter(SENTINEL, b"") if strength else b""
    value = wire.datum(key_of(dice), dice.randbytes(octets))
    return moment(dice) + data(HAS_DATUM | (HAS_PARAMETERS if strength else 0), reader, at, said + value)


def writes(dice: random.Random, octets: int) -> Iterator[bytes]:
    return (datagram(change(dice, at, octets)) for at in range(1, OF_EACH + 1))


def strong_writes(dice: random.Random) -> Iterator[bytes]:
    for at in range(1, OF_EACH + 1):
        strength = wire.parameter(STRENGTH, struct.pack("<i", dice.randrange(100)))
        yield datagram(change(dice, at, 8, strength=strength))


def ends(dice: random.Random) -> Iterator[bytes]:
    """Disposes, unregisters, and both at once."""
    for at in range(1, OF_EACH + 1):
        key = key_of(dice)
        said = wire.parameter(KEY_HASH, key) + wire.parameter(STATUS_INFO, bytes([0, 0, 0, dice.randint(1, 3)]))
        rest = said + wire.parameter(SENTINEL, b"") + wire.datum(key, None)
        yield datagram(moment(dice), data(HAS_PARAMETERS | HAS_KEY, wire.UNKNOWN, at, rest))


def heartbeats(dice: random.Random) -> Iterator[bytes]:
    for count in range(1, OF_EACH + 1):
        first = dice.randint(1, count)
        body = wire.UNKNOWN + WRITER + wire.number(first) + wire.number(dice.randint(first, 2 * count)) + wire.count_of(count)
        yield datagram(wire.submessage(wire.HEARTBEAT, dice.choice([0, 0, 0, 6]), body))


def acknacks(dice: random.Random, most: int) -> Iterator[bytes]:
    """Of a reader that misses some of the next `most` numbers, and the last of them; nothing, where that is 0."""
    for count in range(1, OF_EACH + 1):
        base, span = dice.randint(1, 10_000), dice.randint(min(1, most), most)
        missing = [base + it for it in range(span) if it == span - 1 or dice.randrange(4) == 0]
        body = READER + WRITER + wire.number_set(base, missing) + wire.count_of(count)
        yield datagram(wire.submessage(wire.ACKNACK, 0 if missing else FINAL, body))


def gap(start: int, end: int) -> bytes:
    return wire.submessage(wire.GAP, 0, READER + WRITER + wire.number(start) + wire.number_set(end, []))


def gaps(dice: random.Random) -> Iterator[bytes]:
    return (datagram(gap(at, at + dice.randint(1, 100))) for at in range(1, OF_EACH + 1))


def answers(dice: random.Random) -> Iterator[bytes]:
    """Eight answers to an ACKNACK: changes of 8 to 64 octets, and GAPs between them."""
    for at in range(1, OF_EACH + 1):
        parts = [gap(at + it, at + it + 1) if dice.randrange(8) == 0 else change(dice, at + it, dice.randint(8, 64), READER) for it in range(8)]
        yield datagram(*parts)


def forms() -> dict[str, list[bytes]]:
    """The datagrams of each form, by a name of it."""
    dice = random.Random(1)
    made = {f"write_{octets}": writes(dice, octets) for octets in (8, 64, 256, 1024)}
    made |= {"write_8_strength": strong_writes(dice), "dispose": ends(dice), "heartbeat": heartbeats(dice)}
    made |= {f"acknack_{most}": acknacks(dice, most) for most in (0, 32, 256)}
    made |= {"gap": gaps(dice), "eight_answers": answers(dice)}
    found = {name: list(datagrams) for name, datagrams in made.items()}
    own = captured()
    every = [*own, *(it for datagrams in found.values() for it in datagrams)]
    return {"all": every, "captured": own, **found, "vectors": list(dict.fromkeys(rows(False)))}


if __name__ == "__main__":
    for octets in forms()["all"]:
        print(octets.hex())
