"""A participant of a domain: discovery, and a peer whose writers and readers are matched with those that it finds."""
from __future__ import annotations

import ctypes as c
import dataclasses
import enum
import hashlib
import socket
import struct
from typing import Any, Callable, Dict, List, NamedTuple, Optional, Sequence, Tuple, Union

from . import _library
from ._adapter import Carries, KeyField, key_fields
from ._checks import Octets, i32, key_of, octets, octets_of, truth, u8, u16, u32, u64
from ._codes import ANY, Code, EntityKind, PreconditionNotMet, refused
from ._holding import Holds, Sample

_LIBRARY = _library.LIBRARY
_NO_DATA = int(Code.NO_DATA)
Address = Tuple[str, int]  # of IPv4, and a port of UDP
Datagram = Tuple[bytes, Address]  # as the arguments of a socket's sendto


class Change(enum.IntEnum):
    """Of a writer or a reader of a participant and one of another."""

    MATCHED = 1
    UNMATCHED = 2
    CHANGED = 3


class Told(NamedTuple):
    """What changed between a writer or a reader of a participant, by its GUID, and one of another."""

    change: Change
    own: bytes
    other: bytes


class Presence(NamedTuple):
    """That another participant appeared, or is gone."""

    is_there: bool
    prefix: bytes


def _name(value: str, name: str) -> bytes:
    said = value.encode()
    if not len(said) <= 256 or 0 in said:
        raise ValueError(f"{name} is {value!r}, and not up to 256 octets without a zero")
    return said


_CHECKS: Dict[str, Callable[[Any, str], Any]] = {
    **{"topic_name": _name, "type_name": _name, "strength": i32, "max_value": u32},
    **{"kind": lambda it, _: EntityKind(it), "carries": lambda it, _: Carries(it), "fields": lambda it, _: tuple(it)},
}


@dataclasses.dataclass
class Endpoint:
    """A writer or a reader of a participant: what its topic carries, with key fields where that is CDR or CDR2, its policies,
    and how many octets a value has at most."""

    kind: EntityKind
    topic_name: str
    type_name: str
    carries: Carries = Carries.KEYLESS
    fields: Sequence[KeyField] = ()
    is_exclusive: bool = False
    is_best_effort: bool = False
    strength: int = 0
    max_value: int = 1024

    def as_struct(self, first_field: int) -> _library.CEndpoint:
        """As C has it, with its fields behind so many; ValueError for what that can't hold."""
        said = {it.name: _CHECKS.get(it.name, truth)(getattr(self, it.name), it.name) for it in dataclasses.fields(self)}
        for name in ("topic_name", "type_name"):
            said[name] = (c.c_uint8 * 256)(*said[name])
        return _library.CEndpoint(first_field=first_field, field_count=len(said.pop("fields")), **said)


def _key_in(end: Endpoint, value: bytes) -> Optional[bytes]:
    """The key of a value, by the key fields of its type: these, big-endian and aligned, with zeros up to sixteen octets, or the
    MD5 of more (RTPS 2.5, 9.6.4.8); none where the type has no fields, or the value does not have them."""
    greatest = {Carries.CDR: 8, Carries.CDR2: 4}.get(end.carries)
    if greatest is None or len(value) < 4:
        return None
    body, is_little, key = value[4:], value[1] & 1 != 0, b""
    for place, size in end.fields:
        octets_in = body[place : place + size]
        if len(octets_in) < size:
            return None
        key += bytes(-len(key) % min(size, greatest)) + (octets_in[::-1] if is_little else octets_in)
    return key.ljust(16, b"\0") if len(key) <= 16 else hashlib.md5(key).digest()


def data_writer(topic_name: str, type_name: str, carries: Carries = Carries.KEYLESS, **more: Any) -> Endpoint:
    return Endpoint(EntityKind.WRITER, topic_name, type_name, carries, **more)


def data_reader(topic_name: str, type_name: str, carries: Carries = Carries.KEYLESS, **more: Any) -> Endpoint:
    return Endpoint(EntityKind.READER, topic_name, type_name, carries, **more)


def _host(value: str) -> bytes:
    try:
        return socket.inet_aton(value)
    except OSError:
        raise ValueError(f"{value!r} is no address of IPv4") from None


# As the structs of the header lie in memory.
_TOLD, _PRESENCE, _TO, _GUID = struct.Struct("=B16s16s"), struct.Struct("=?12s"), struct.Struct("=4sH"), struct.Struct("=16s")


class Participant(Holds):
    """A participant with these writers and readers, which are numbered from 1 in their order, writers and readers apart.

    Its prefix has 12 octets and is nobody else's (`new_prefix`). It is reached at an address, and announces itself to those of
    `told`, as the group of the domain, and to who announces itself. A lease is in units of 2^-32 second, 0 for eight seconds.

    Each event returns what is to be sent. A call that is refused raises `Refused`, by its code. Threads may share it: an event
    and the fetch of what it gave back are one."""

    def __init__(self, ends: Sequence[Endpoint], prefix: Octets, address: Address, told: Sequence[Address], domain: int = 0, lease: int = 0):
        self._writers = [it for it in ends if it.kind == EntityKind.WRITER]
        self._to = c.create_string_buffer(_TO.size)
        self._to_at = c.addressof(self._to)
        self._hold(_library.CParticipant(False, None), _LIBRARY.cw_participant_close)
        own = tuple(octets_of(12, prefix, "a prefix"))
        host, port = tuple(_host(address[0])), u16(address[1], "a port")
        settings = _library.CSettings(own, host, port, u32(domain, "domain"), u64(lease, "lease"))
        rows = [_library.CLocator(tuple(_host(it[0])), u16(it[1], "a port")) for it in told]
        structs, fields = [], []
        for end in ends:
            structs.append(end.as_struct(len(fields)))
            fields += key_fields(end.carries, end.fields)
        arrays = ((_library.CLocator, rows), (_library.CEndpoint, structs), (_library.CKeyField, fields))
        code = _LIBRARY.cw_participant_open(self._at, c.byref(settings), *(it for kind, items in arrays for it in _library.array_of(kind, items)))
        if code:
            raise refused(code, "an endpoint, or the address, is none, or there are too many" if code == Code.BAD_PARAMETER else "")

    def _refused(self, code: int, line: str = "") -> Exception:
        if code == Code.PRECONDITION_NOT_MET and not self.is_open:
            return PreconditionNotMet(code, "the participant is closed")
        return refused(code, line)

    def _sent(self, call: Any, *arguments: Any, why: str = "") -> List[Datagram]:
        with self._lock:
            if code := call(self._at, *arguments):
                raise self._refused(code, why if code == Code.BAD_PARAMETER else "")
            return self.datagrams()

    # Events: a datagram comes, the time goes on, the participant leaves. Moments are in units of 2^-32 second.

    def hear(self, now: int, datagram: Octets, source: Union[Address, str]) -> List[Datagram]:
        """A datagram comes, from an address; the port does not count. OutOfMemory: something was lost, as by a network."""
        came, host = octets(datagram, "a datagram"), _host(source if isinstance(source, str) else source[0])
        return self._sent(_LIBRARY.cw_participant_hear, u64(now, "now"), host, came, len(came))

    def tick(self, now: int) -> List[Datagram]:
        return self._sent(_LIBRARY.cw_participant_tick, u64(now, "now"))

    def leave(self) -> List[Datagram]:
        """It says that it leaves, and stays open."""
        return self._sent(_LIBRARY.cw_participant_leave)

    # Calls of a writer, by its number. A key has sixteen octets: the key members, big-endian, and zeros.

    def _keyed(self, call: Any, number: int, key: Octets) -> List[Datagram]:
        return self._sent(call, u8(number, "number"), key_of(key), why="there is no such writer, or its type has no such key, or an MD5")

    def register(self, number: int, key: Octets) -> List[Datagram]:
        return self._keyed(_LIBRARY.cw_participant_register, number, key)

    def write(self, number: int, value: Octets, key: Optional[Octets] = None) -> List[Datagram]:
        """Writes a value. Its key is found in it by the key fields of the type, and so need not be said; ValueError for another
        one, by which others would take a wrong value."""
        said = octets(value, "a value")
        own = _key_in(self._writers[number - 1], bytes(said)) if 0 < number <= len(self._writers) else None
        if key is not None and own is not None and bytes(key) != own:
            raise ValueError(f"the key of this value is {own.hex()}, and not {bytes(key).hex()}")
        key = key if key is not None else own or bytes(16)
        why = "there is no such writer, or the value is none of its type, or too long"
        return self._sent(_LIBRARY.cw_participant_write, u8(number, "number"), key_of(key), said, len(said), why=why)

    def dispose(self, number: int, key: Octets) -> List[Datagram]:
        return self._keyed(_LIBRARY.cw_participant_dispose, number, key)

    def unregister(self, number: int, key: Octets) -> List[Datagram]:
        return self._keyed(_LIBRARY.cw_participant_unregister, number, key)

    # Calls of a reader, by its number. Where there is no sample, the list is empty.

    def _accessed(self, call: Any, number: int, most: int, *masks: int) -> List[Sample]:
        asked = u8(number, "number"), i32(most, "most"), *(u32(it, "a mask") for it in masks)
        with self._lock:
            code = call(self._at, *asked)
            if code not in (0, _NO_DATA):
                raise self._refused(code)
            return [] if code else self.samples()

    def read(self, number: int, most: int = -1, samples: int = ANY, views: int = ANY, instances: int = ANY) -> List[Sample]:
        return self._accessed(_LIBRARY.cw_participant_read, number, most, samples, views, instances)

    def take(self, number: int, most: int = -1, samples: int = ANY, views: int = ANY, instances: int = ANY) -> List[Sample]:
        return self._accessed(_LIBRARY.cw_participant_take, number, most, samples, views, instances)

    def line(self, line: str) -> str:
        """Any call in a line of docs/PIPE.md, "call ..", and its reply in words; `datagrams` has what is to be sent."""
        said = line.encode()
        with self._lock:
            if code := _LIBRARY.cw_participant_line(self._at, said, len(said)):
                raise self._refused(code, line)
            return self.text()

    # Fetches of what came of the last event, which change nothing.

    def datagrams(self) -> List[Datagram]:
        """What is to be sent."""
        return self._each(self._datagram)

    def _datagram(self, at: int) -> Optional[Datagram]:
        said = self._copied(_LIBRARY.cw_participant_datagram, at, self._to_at, self._to_at + 4)
        if said is None:
            return None
        address, port = _TO.unpack_from(self._to)
        return said, (socket.inet_ntoa(address), port)

    def samples(self) -> List[Sample]:
        """What the last read or take gave."""
        return self._each(lambda at: self._sampled(_LIBRARY.cw_participant_sample, at))

    def told(self) -> List[Told]:
        """What changed of matches."""
        return [Told(Change(change), own, other) for change, own, other in self._each(lambda at: self._fetched(_TOLD, _LIBRARY.cw_participant_told, at))]

    def presences(self) -> List[Presence]:
        """Who appeared or is gone."""
        return [Presence(*it) for it in self._each(lambda at: self._fetched(_PRESENCE, _LIBRARY.cw_participant_presence, at))]

    def text(self) -> str:
        """The reply in words, as docs/PIPE.md has them."""
        with self._lock:
            return self._there(self._copied(_LIBRARY.cw_participant_text), "text").decode().rstrip("\n")

    # Looks, which change nothing.

    def matched(self, kind: EntityKind, number: int) -> List[bytes]:
        """The GUIDs of those of others with which the writer or the reader of this number is matched now."""
        asked = u8(EntityKind(kind), "kind"), u8(number, "number")
        return [it for (it,) in self._each(lambda at: self._fetched(_GUID, _LIBRARY.cw_participant_matched, *asked, at))]

    @property
    def is_behind(self) -> bool:
        """Whether some matched reliable reader has not acknowledged all that was written."""
        with self._lock:
            return bool(_LIBRARY.cw_participant_is_behind(self._at))
