"""Payloads of other types, turned for a peer as docs/WIRE.md has it ("Other types"), apart from the crates: the tools that read what
a session with `kind` lines is given ask here."""
from __future__ import annotations

import hashlib
import re
import struct
from typing import Dict, NamedTuple, Optional, Tuple

import datagrams as dg

DATA_FRAG, FLAG_N, NO_KEY, USUAL_VALUE = 0x16, 16, bytes(16), 1_024
LINE = re.compile(r"kind ([0-9a-fA-F]{24}) ([0-9a-fA-F]{8}) (datum|keyless|cdr2?)((?: \d+:0*[1248])*)(?: values=(\d+))?( gaps)?")
REPRESENTATIONS = {"cdr": 0, "cdr2": 6}  # of the big-endian one; that of the little-endian one is the next


class Kind(NamedTuple):
    """What the topic of a writer carries, and whether numbers that can't be read stand in GAPs."""

    name: str  # datum, keyless, cdr or cdr2
    fields: Tuple[Tuple[int, int], ...]  # the place and the size of each key field
    most: int  # octets of a value
    has_gaps: bool


Kinds = Dict[bytes, Kind]  # by the GUIDs of writers


def kind_of(line: str) -> Optional[Tuple[bytes, Kind]]:
    """The writer of a line, and what its topic carries, or none."""
    found = LINE.fullmatch(line)
    if not found or (found[3] in REPRESENTATIONS) != bool(found[4]):
        return None
    fields = tuple((int(place), int(size)) for place, size in re.findall(r"(\d+):(\d+)", found[4]))
    most = int(found[5]) if found[5] else USUAL_VALUE
    return bytes.fromhex(found[1] + found[2]), Kind(found[3], fields, most, bool(found[6]))


def value_of(payload: bytes) -> Optional[bytes]:
    """A payload without its octets of padding, which its options count no more."""
    if len(payload) < 4 or len(payload) - 4 < payload[3] % 4:
        return None
    padding = payload[3] % 4
    return payload[:3] + bytes([payload[3] - padding]) + payload[4 : len(payload) - padding]


def key_of(kind: Kind, value: bytes, is_key: bool) -> Optional[bytes]:
    """The key of a value, or of what says a key alone."""
    if kind.name == "keyless":
        return NO_KEY
    representation, octets = value[1] - REPRESENTATIONS[kind.name], b""
    if value[0] or representation not in (0, 1):
        return None
    for place, size in kind.fields:
        octets += bytes(-len(octets) % (size if kind.name == "cdr" else min(size, 4)))
        at = 4 + (len(octets) if is_key else place)
        field = value[at : at + size]
        if len(field) < size:
            return None
        octets += field[::-1] if representation else field
    return octets.ljust(16, b"\0") if len(octets) <= 16 else hashlib.md5(octets).digest()


def payload_at(order: str, flags: int, body: bytes) -> Optional[int]:
    """Where the payload of a DATA begins, or none."""
    try:
        (skip,) = dg.take(order, "H", body, 2)
        at = 4 + skip
        if len(body) < 20 or skip < 16 or at > len(body) or flags & FLAG_N or not flags & 12:
            return None
        while flags & 2:
            name, length = dg.take(order, "HH", body, at)
            at += 4 if name == 1 else 4 + length
            if name == 1:
                break
        return at if at <= len(body) else None
    except ValueError:
        return None


def turned_payload(kind: Kind, flags: int, payload: bytes) -> Optional[bytes]:
    """The datum or the key form of a payload, or none where it can't be turned."""
    value = value_of(payload)
    key = None if value is None else key_of(kind, value, bool(flags & 8))
    return None if value is None or key is None else dg.datum(key, value if flags & 4 else None)


def gap_of(order: str, body: bytes) -> Optional[bytes]:
    """The GAP of the number that a DATA or a DATA_FRAG names, or none."""
    try:
        number = dg.take_number(order, body, 12)
    except ValueError:
        return None
    end = dg.number_set(number + 1, [])
    return dg.submessage(dg.GAP, 0, body[4:12] + dg.number(number) + end) if number < dg.GREATEST else None


def turned_data(kind: Kind, order: str, flags: int, body: bytes) -> Tuple[Optional[bytes], bool]:
    """What stands in place of a DATA, none where it stays; and whether no peer reads that."""
    at = payload_at(order, flags, body) if flags & 12 != 12 else None
    if at is None:
        return None, bool(flags & (12 | FLAG_N))
    payload = turned_payload(kind, flags, body[at:])
    if payload is None:
        return struct.pack(order + "BBH", dg.DATA, flags | FLAG_N, len(body)) + body, True
    whole = body[:at] + payload
    whole += bytes(-len(whole) % 4)
    is_unread = len(payload) > 24 + kind.most
    return struct.pack(order + "BBH", dg.DATA, flags, len(whole) & 0xFFFF) + whole, is_unread


def turned_submessage(kinds: Kinds, sender: bytes, octets: bytes) -> bytes:
    """What a submessage turns into on its way to a peer."""
    number, flags, order, body = octets[0], octets[1], "<" if octets[1] & 1 else ">", octets[4:]
    kind = kinds.get(sender + body[8:12]) if number in (dg.DATA, DATA_FRAG) else None
    if kind is None:
        return octets
    is_unread, turned = len(body) >= 32, None
    if number == dg.DATA:
        turned, is_unread = turned_data(kind, order, flags, body) if kind.name != "datum" else (None, False)
    gap = gap_of(order, body) if kind.has_gaps and is_unread else None
    return gap or turned or octets


def turned(kinds: Kinds, octets: bytes) -> bytes:
    """A datagram as a peer reads it."""
    if octets[:4] != b"RTPS" or octets[4:5] != b"\x02" or not 20 <= len(octets) <= dg.LONGEST_DATAGRAM:
        return octets
    found, at = octets[:20], 20
    while at + 4 <= len(octets):
        (length,) = dg.take("<" if octets[at + 1] & 1 else ">", "H", octets, at + 2)
        end = len(octets) if length == 0 and octets[at] not in (dg.PAD, dg.INFO_TS) else at + 4 + length
        if end > len(octets):
            break
        found, at = found + turned_submessage(kinds, octets[8:20], octets[at:end]), end
    return found + octets[at:]
