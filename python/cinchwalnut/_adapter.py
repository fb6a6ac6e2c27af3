"""Values of other types, turned into those that a peer reads, and back."""
from __future__ import annotations

import ctypes as c
import enum
import threading
from typing import Any, List, NamedTuple, Optional, Sequence, Tuple

from . import _library
from ._checks import Octets, octets, octets_of, u32
from ._codes import Code, refused

_LIBRARY = _library.LIBRARY
_ROOM = 65507  # what a message may have at most


class Carries(enum.IntEnum):
    """What a topic carries."""

    DATUM = 0
    KEYLESS = 1
    CDR = 2
    CDR2 = 3
    PARAMETER_LIST = 4


class KeyField(NamedTuple):
    """A key field of a type: how many octets of the body of a value stand before it, and how many it takes."""

    place: int
    size: int


class WriterKind(NamedTuple):
    """What the topic of a writer carries; key fields where that is CDR or CDR2; how many octets a value has at most."""

    prefix: Octets
    entity: Octets
    carries: Carries
    fields: Sequence[KeyField] = ()
    max_value: int = 1024


class Adapter:
    """A table of writers whose topics carry other types. A datagram of the network goes through `inward` before a peer is
    given it, and one of a peer through `outward` before it is sent. With gaps a GAP stands in place of the number of a
    DATA of another type than the datum whose payload a peer could not read, and of a DATA_FRAG of any writer of the table."""

    def __init__(self, kinds: Sequence[WriterKind], gaps: bool = False) -> None:
        self._gaps = gaps
        rows: List[_library.CWriterKind] = []
        fields: List[_library.CKeyField] = []
        for kind in kinds:
            prefix = tuple(octets_of(12, kind.prefix, "a prefix"))
            entity = tuple(octets_of(4, kind.entity, "an entity"))
            carries = Carries(kind.carries)
            own = key_fields(carries, kind.fields)
            rows.append(_library.CWriterKind(prefix, entity, carries, len(fields), len(own), u32(kind.max_value, "max_value")))
            fields += own
        self._table = [*_library.array_of(_library.CWriterKind, rows), *_library.array_of(_library.CKeyField, fields)]
        self._buffer, self._needed = c.create_string_buffer(_ROOM), c.c_size_t(0)
        self._lock = threading.Lock()
        self.inward(b"")  # raises where the table is none

    def _turned(self, call: Any, flags: Tuple[bool, ...], datagram: Octets) -> Optional[bytes]:
        came = octets(datagram, "a datagram")
        with self._lock:
            code = call(*self._table, *flags, came, len(came), self._buffer, _ROOM, c.byref(self._needed))
            if code == Code.OK:
                return c.string_at(self._buffer, self._needed.value)
        if code == Code.NO_DATA:
            return came
        if code == Code.OUT_OF_RESOURCES:
            return None
        raise refused(code)

    def inward(self, datagram: Octets) -> Optional[bytes]:
        """What a peer is given; none where it would be longer than a message may be."""
        return self._turned(_LIBRARY.cw_inward, (self._gaps,), datagram)

    def outward(self, datagram: Octets) -> Optional[bytes]:
        """What is sent to the network; none where it would be longer than a message may be."""
        return self._turned(_LIBRARY.cw_outward, (), datagram)


def key_fields(carries: Carries, fields: Sequence[KeyField]) -> List[_library.CKeyField]:
    """The key fields of a type, as C has them."""
    if fields and carries not in (Carries.CDR, Carries.CDR2):
        raise ValueError(f"{Carries(carries).name} has no key fields")
    return [_library.CKeyField(u32(place, "a place"), _size(size)) for place, size in fields]


def _size(size: int) -> int:
    if size not in (1, 2, 4, 8):
        raise ValueError(f"a key field takes 1, 2, 4 or 8 octets, and not {size}")
    return size
