"""The bytes of RTPS messages that discovery sends and reads, and those that a bridge looks at: docs/WIRE.md draws them."""
import struct
from typing import Iterator, NamedTuple

PAD, ACKNACK, HEARTBEAT, GAP, INFO_TS, INFO_DST, DATA, DATA_FRAG = 0x01, 0x06, 0x07, 0x08, 0x09, 0x0E, 0x15, 0x16
# Where the body of a submessage names a reader, and a writer behind it
ENDS_AT = {ACKNACK: 0, HEARTBEAT: 0, GAP: 0, DATA: 4, DATA_FRAG: 4}
HAS_PARAMETERS, HAS_DATA, HAS_KEY, IS_FINAL = 2, 4, 8, 2
SENTINEL, STATUS_INFO = 0x0001, 0x0071
PARAMETERS_LE = bytes([0, 3, 0, 0])  # the representation of a list of parameters


class Submessage(NamedTuple):
    kind: int
    flags: int
    body: bytes

    def numbers(self, form: str, at: int) -> tuple[int, ...]:
        return struct.unpack_from(("<" if self.flags & 1 else ">") + form, self.body, at)

    def sequence_number(self, at: int) -> int:
        high, low = self.numbers("iI", at)
        return (high << 32) + low


class Data(NamedTuple):
    """What a DATA says; a payload that is None is not there."""

    reader: bytes
    writer: bytes
    number: int
    status: int
    payload: bytes | None


def submessages(datagram: bytes) -> Iterator[Submessage]:
    """The submessages of a datagram, as far as they are whole."""
    at = 20
    while at + 4 <= len(datagram):
        kind, flags = datagram[at], datagram[at + 1]
        (length,) = struct.unpack_from("<H" if flags & 1 else ">H", datagram, at + 2)
        end = at + 4 + length if length or kind in (PAD, INFO_TS) else len(datagram)
        if end > len(datagram):
            return
        yield Submessage(kind, flags, datagram[at + 4 : end])
        at = end


def prefix_of(datagram: bytes) -> bytes | None:
    """The prefix of the sender, of a datagram that is a message."""
    return datagram[8:20] if len(datagram) >= 20 and datagram[:5] == b"RTPS\2" else None


def is_for(datagram: bytes, prefix: bytes) -> bool:
    """Whether no INFO_DST names another participant. Those of which we know have at most one, before all else."""
    return all(it.body[:12] in (prefix, bytes(12)) for it in submessages(datagram) if it.kind == INFO_DST)


def parameters(said: Submessage, at: int) -> tuple[dict[int, bytes], int]:
    """The parameters from an offset of a body on, the first of each id, and the offset behind them."""
    found: dict[int, bytes] = {}
    while True:
        number, length = said.numbers("HH", at)
        at += 4
        if number == SENTINEL:
            return found, at
        found.setdefault(number, said.body[at : at + length])
        at += length


def read_data(said: Submessage) -> Data:
    """What a DATA says; a struct.error where it is cut."""
    (skipped,) = said.numbers("H", 2)
    at, status = 4 + skipped, 0
    if said.flags & HAS_PARAMETERS:
        found, at = parameters(said, at)
        status = found.get(STATUS_INFO, bytes(4))[3]
    payload = said.body[at:] if said.flags & (HAS_DATA | HAS_KEY) else None
    return Data(said.body[4:8], said.body[8:12], said.sequence_number(12), status, payload)


def read_parameters(payload: bytes) -> dict[int, bytes]:
    """The parameters of a payload that is a list of them; its order of bytes is that of its representation."""
    return parameters(Submessage(DATA, payload[1] & 1, payload), 4)[0]


def with_kinds(datagram: bytes, kinds: dict[int, int]) -> bytes:
    """The same, but for the last octets of the entity ids that its submessages name."""
    octets, at = bytearray(datagram), 20
    for said in submessages(datagram):
        if (ends_at := ENDS_AT.get(said.kind)) is not None and len(said.body) >= ends_at + 8:
            for last in (at + ends_at + 7, at + ends_at + 11):
                octets[last] = kinds.get(octets[last], octets[last])
        at += 4 + len(said.body)
    return bytes(octets)


def message(prefix: bytes, to: bytes | None, *said: bytes) -> bytes:
    whom = submessage(INFO_DST, 0, to) if to else b""
    return b"RTPS" + bytes([2, 5, 0, 0]) + prefix + whom + b"".join(said)


def submessage(kind: int, flags: int, body: bytes) -> bytes:
    return struct.pack("<BBH", kind, flags | 1, len(body)) + body


def sequence_number(number: int) -> bytes:
    return struct.pack("<iI", number >> 32, number & 0xFFFFFFFF)


def data(reader: bytes, writer: bytes, number: int, payload: bytes) -> bytes:
    return submessage(DATA, HAS_DATA, struct.pack("<HH", 0, 16) + reader + writer + sequence_number(number) + payload)


def heartbeat(reader: bytes, writer: bytes, first: int, last: int, count: int) -> bytes:
    numbers = sequence_number(first) + sequence_number(last) + struct.pack("<I", count)
    return submessage(HEARTBEAT, 0, reader + writer + numbers)


def acknack(reader: bytes, writer: bytes, base: int, missing: list[int], count: int) -> bytes:
    """All below the base have come, and those that are missing are asked for, of the 256 from the base on."""
    places = [it - base for it in missing if it < base + 256]
    words = [0] * ((max(places, default=-1) + 32) // 32)
    for place in places:
        words[place // 32] |= 1 << (31 - place % 32)
    bits = struct.pack(f"<I{len(words)}I", max(places, default=-1) + 1, *words)
    flags = 0 if places else IS_FINAL
    return submessage(ACKNACK, flags, reader + writer + sequence_number(base) + bits + struct.pack("<I", count))


def parameter_list(*items: tuple[int, bytes]) -> bytes:
    padded = [(number, value + bytes(-len(value) % 4)) for number, value in items]
    said = b"".join(struct.pack("<HH", number, len(value)) + value for number, value in [*padded, (SENTINEL, b"")])
    return PARAMETERS_LE + said
