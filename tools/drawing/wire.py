"""Datagrams, field by field, with the names of docs/WIRE.md. A dissection is a list of fields that covers all octets: each
has a length, a name, and how its octets are to be read (`Kind`), so packets of one form share one list."""
from __future__ import annotations

import functools
import struct
from collections.abc import Iterator
from typing import NamedTuple

import datagrams as dg

NAMES = {dg.PAD: "PAD", dg.ACKNACK: "ACKNACK", dg.HEARTBEAT: "HEARTBEAT", dg.GAP: "GAP", dg.INFO_TS: "INFO_TS",
         dg.INFO_DST: "INFO_DST", dg.DATA: "DATA"}
PARAMETERS = {0x06: ("PID_OWNERSHIP_STRENGTH", "strength"), 0x70: ("PID_KEY_HASH", "key"), 0x71: ("PID_STATUS_INFO", "status info")}
SENTINEL, LONGEST = 1, 65_507


class Field(NamedTuple):
    """Octets that stand for something. A kind is hex, text, skip (which has no value), or the type of a number, which
    ends with the order of its octets: u<, u> without a sign, i< with one, n< a sequence number, t< a moment, b< a set."""

    length: int
    name: str
    kind: str = "hex"


class Frame(NamedTuple):
    """A submessage: where it begins, its id, its flags, and its body."""

    at: int
    id: int
    flags: int
    body: bytes

    @property
    def order(self) -> str:
        return "<" if self.flags & 1 else ">"


def is_message(octets: bytes) -> bool:
    return octets[:4] == b"RTPS" and octets[4:5] == b"\x02" and 20 <= len(octets) <= LONGEST


def frames(octets: bytes) -> Iterator[Frame]:
    """The submessages of a datagram, up to where reading ends."""
    at = 20
    while is_message(octets) and at + 4 <= len(octets):
        kind, flags = octets[at], octets[at + 1]
        (length,) = struct.unpack_from(("<" if flags & 1 else ">") + "H", octets, at + 2)
        if length == 0 and kind not in (dg.PAD, dg.INFO_TS):
            length = len(octets) - at - 4
        if at + 4 + length > len(octets):
            return
        yield Frame(at, kind, flags, octets[at + 4 : at + 4 + length])
        at += 4 + length


def destination(octets: bytes) -> bytes | None:
    """The prefix that the first INFO_DST names, or none."""
    return next((it.body[:12] for it in frames(octets) if it.id == dg.INFO_DST and len(it.body) >= 12), None)


def set_fields(order: str, body: bytes, at: int, name: str) -> list[Field]:
    """A set of numbers from an offset on: its base, and its bits, which are read with it."""
    (bits,) = struct.unpack_from(order + "I", body, at + 8)
    return [Field(8, f"{name}.base", "n" + order), Field(4 + 4 * ((min(bits, dg.MOST_BITS) + 31) // 32), f"{name}.bits", "b" + order)]


def fields_of_data(frame: Frame, is_turned: bool = False) -> Iterator[Field]:
    order, body = frame.order, frame.body
    yield from [Field(2, "extraFlags"), Field(2, "octetsToInlineQos", "u" + order), Field(4, "readerId"), Field(4, "writerId")]
    yield Field(8, "writerSN", "n" + order)
    (skip,) = struct.unpack_from(order + "H", body, 2)
    at = 4 + skip
    if skip > 16:
        yield Field(skip - 16, "skipped", "skip")
    if frame.flags & 2:
        for field in fields_of_parameters(order, body, at):
            at += field.length
            yield field
    if is_turned:
        yield Field(len(body) - at, "payload of another type")
    elif frame.flags & 12:
        yield from fields_of_payload(body[at:], bool(frame.flags & 4))


def fields_of_parameters(order: str, body: bytes, at: int) -> Iterator[Field]:
    while True:
        name, length = struct.unpack_from(order + "HH", body, at)
        if name == SENTINEL:
            yield Field(4, "PID_SENTINEL", "skip")
            return
        known, value = PARAMETERS.get(name, (f"parameter 0x{name:04x}", "value"))
        yield Field(4, known, "skip")
        if length:
            yield Field(length, value, "i" + order if value == "strength" else "hex")
        at += 4 + length


def fields_of_payload(payload: bytes, has_value: bool) -> Iterator[Field]:
    """A datum, or a key form."""
    order = {b"\0\0": ">", b"\0\1": "<"}[payload[:2]]
    yield from [Field(2, "representation identifier"), Field(2, "options"), Field(16, "key")]
    if has_value:
        (length,) = struct.unpack_from(order + "I", payload, 20)
        yield Field(4, "length of the value", "u" + order)
        if length:
            yield Field(length, "value")


def fields_of_body(frame: Frame, is_turned: bool = False) -> Iterator[Field]:
    """The fields of a body, by its id; struct.error, KeyError or ValueError where it is not valid. That of a DATA which is
    turned for a peer is valid if what it turns into is."""
    order, body = frame.order, frame.body
    if frame.id == dg.INFO_DST:
        yield Field(12, "GUID prefix")
    elif frame.id == dg.INFO_TS and not frame.flags & 2:
        yield Field(8, "moment", "t" + order)
    elif frame.id == dg.DATA:
        if not is_turned:
            dg.read_data(order, frame.flags, body, 0)
        yield from fields_of_data(frame, is_turned)
    elif frame.id in (dg.HEARTBEAT, dg.ACKNACK, dg.GAP):
        dg.read_other(order, frame.id, frame.flags, body)
        yield from [Field(4, "readerId"), Field(4, "writerId")]
        if frame.id == dg.HEARTBEAT:
            yield from [Field(8, "firstSN", "n" + order), Field(8, "lastSN", "n" + order), Field(4, "count", "i" + order)]
        elif frame.id == dg.GAP:
            yield from [Field(8, "gapStart", "n" + order), *set_fields(order, body, 16, "gapList")]
        else:
            yield from [*set_fields(order, body, 8, "readerSNState"), Field(4, "count", "i" + order)]


def flags_named(frame: Frame) -> str:
    """The letters of the flags that count and are set."""
    letters = {dg.ACKNACK: "EF", dg.HEARTBEAT: "EFL", dg.INFO_TS: "EI", dg.DATA: "EQDK"}.get(frame.id, "E")
    return "".join(it for place, it in enumerate(letters) if frame.flags >> place & 1) or "none"


def turns(frame: Frame, read: Frame) -> bool:
    """Whether a submessage is a DATA whose payload is turned for a peer."""
    return frame.id == read.id == dg.DATA and frame.flags == read.flags and frame.body != read.body


def fields_of_frame(frame: Frame, read: Frame) -> list[Field]:
    """The header of a submessage, and its body, or all of it skipped where it is not valid or of another id."""
    try:
        body, name = list(fields_of_body(frame, turns(frame, read))), NAMES.get(frame.id, f"Other 0x{frame.id:02x}")
        left = len(frame.body) - sum(it.length for it in body)
    except (struct.error, KeyError, ValueError):
        body, name, left = [], f"Other 0x{frame.id:02x}", len(frame.body)
    head = [Field(1, name, "head"), Field(1, f"flags {flags_named(frame)}"), Field(2, "length of the body", "u" + frame.order)]
    rest = "zeros at the end" if body and not any(frame.body[len(frame.body) - left :]) else "not looked at"
    return [*head, *body, *([Field(left, rest, "skip")] if left else [])]


def fields_of(octets: bytes, read: bytes | None = None) -> list[Field]:
    """The fields of a datagram, whose lengths are in all those of its octets. What a peer reads of it may be something else."""
    if not is_message(octets):
        return [Field(len(octets), "no message", "skip")] if octets else []
    found = [Field(4, "header", "text"), Field(1, "major", "u>"), Field(1, "minor", "u>"), Field(2, "vendor id")]
    found.append(Field(12, "GUID prefix of the sender"))
    end = 20
    for frame, other in zip(frames(octets), frames(octets if read is None else read)):
        found += fields_of_frame(frame, other)
        end = frame.at + 4 + len(frame.body)
    return [*found, *([Field(len(octets) - end, "not looked at", "skip")] if end < len(octets) else [])]


def runs_of(numbers: list[int]) -> str:
    """Numbers in ascending order as text, with a dash for each run: 2, 4-6."""
    ends: list[list[int]] = []
    for it in numbers:
        if ends and ends[-1][1] == it - 1:
            ends[-1][1] = it
        else:
            ends.append([it, it])
    return ", ".join(str(first) if first == last else f"{first}-{last}" for first, last in ends)


def label_of_said(said: dg.Said) -> str:
    if said.kind == "data":
        kind = "" if said.rest[0] == "write" else f" {said.rest[0]}"
        return f"DATA {said.first}{kind}"
    if said.kind == "heartbeat":
        alive = " alive" if said.rest[2] else ""
        return f"HEARTBEAT {said.first} to {said.last}{alive}" if said.first <= said.last else f"HEARTBEAT none, next {said.first}{alive}"
    if said.kind == "gap":
        base, members = said.rest
        return f"GAP {runs_of([*range(said.first, min(base, said.first + 1_000)), *sorted(members)]) or said.first}"
    members = sorted(said.rest[1])
    return f"ACKNACK below {said.first}" + (f", asks {runs_of(members)}" if members else "")


@functools.lru_cache(1 << 16)
def said_by(octets: bytes) -> tuple[dg.Said, ...]:
    """What a packet says to whom it names."""
    return tuple(dg.statements(octets, destination(octets) or dg.NO_PREFIX)[1])


def label_of(octets: bytes) -> str:
    """What a packet says, in a few words."""
    said = said_by(octets)
    if len(said) > 2 and all(it.kind == "data" and it.rest[0] == "write" for it in said):
        return f"DATA {runs_of(sorted({it.first for it in said}))}"
    return "; ".join(map(label_of_said, said)) or ("says nothing" if is_message(octets) else "no message")


def kind_of(octets: bytes) -> str:
    """The kind of the first submessage that says something."""
    said = said_by(octets)
    return said[0].kind if said else "other"
