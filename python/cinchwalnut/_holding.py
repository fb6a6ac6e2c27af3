"""What a peer and a participant have in common: they are held by an address, and fetches copy what the last event gave."""
from __future__ import annotations

import ctypes as c
import struct
import threading
from typing import Any, Callable, List, NamedTuple, Optional, Tuple, TypeVar

from ._checks import u64
from ._codes import Code, InstanceState, SampleState, ViewState, refused

_BUFFER = 1 << 16
_NO_DATA, _OUT_OF_RESOURCES = int(Code.NO_DATA), int(Code.OUT_OF_RESOURCES)
_Held = TypeVar("_Held", bound="Holds")
_Item = TypeVar("_Item")


class SampleInfo(NamedTuple):
    """DDS 1.4, 2.2.2.5 (SampleInfo), with the key of the sample; the timestamp is in units of 2^-32 second."""

    key: bytes
    source_timestamp: int
    instance_handle: int
    publication_handle: int
    disposed_generation_count: int
    no_writers_generation_count: int
    sample_rank: int
    generation_rank: int
    absolute_generation_rank: int
    sample_state: SampleState
    view_state: ViewState
    instance_state: InstanceState
    valid_data: bool


Sample = Tuple[SampleInfo, bytes]

# As the struct of the header lies in memory.
_INFO = struct.Struct("=16s8Q3I?3x")
_SAMPLE_STATES = {int(it): it for it in SampleState}
_VIEW_STATES = {int(it): it for it in ViewState}
_INSTANCE_STATES = {int(it): it for it in InstanceState}


class Holds:
    """It frees what it holds, at the end of a `with` too; each call then raises PreconditionNotMet."""

    def _hold(self, held: Any, close: Any) -> None:
        self._lock, self._held, self._close = threading.RLock(), held, close
        self._at = c.byref(held)
        self._make_buffer(_BUFFER)
        self._needed, self._value = c.c_size_t(0), c.create_string_buffer(_INFO.size)
        self._value_at, self._needed_at = c.addressof(self._value), c.addressof(self._needed)

    def close(self) -> None:
        """Frees what is held. Once more, it does nothing."""
        with self._lock:
            self._close(self._at)

    def __enter__(self: _Held) -> _Held:
        return self

    def __exit__(self, *_: object) -> None:
        self.close()

    def __del__(self) -> None:
        if hasattr(self, "_needed_at"):
            self.close()

    @property
    def is_open(self) -> bool:
        return bool(self._held.is_open)

    def _refused(self, code: int, line: str = "") -> Exception:
        raise NotImplementedError

    def _sampled(self, fetch: Any, at: int) -> Optional[Sample]:
        value = self._copied(fetch, at, self._value_at)
        if value is None:
            return None
        *plain, sample, view, instance, valid = _INFO.unpack_from(self._value)
        return SampleInfo._make((*plain, _SAMPLE_STATES[sample], _VIEW_STATES[view], _INSTANCE_STATES[instance], valid)), value

    def _each(self, fetch: Callable[[int], Optional[_Item]]) -> List[_Item]:
        got: List[_Item] = []
        with self._lock:
            while True:
                item = fetch(len(got))
                if item is None:
                    return got
                got.append(item)

    def _one(self, fetch: Callable[[int], Optional[_Item]], at: int, what: str) -> _Item:
        with self._lock:
            return self._there(fetch(u64(at, "at")), f"{what} {at}")

    @staticmethod
    def _there(item: Optional[_Item], what: str) -> _Item:
        if item is None:
            raise refused(Code.NO_DATA, f"there is no {what} to fetch")
        return item

    def _copied(self, fetch: Any, *arguments: Any) -> Optional[bytes]:
        """The octets that a fetch copies into the buffer, which grows where it is too short; none where there are none."""
        code = fetch(self._at, *arguments, self._buffer_at, self._room, self._needed_at)
        if code == 0:
            return c.string_at(self._buffer_at, self._needed.value)
        if code == _NO_DATA:
            return None
        if code != _OUT_OF_RESOURCES:
            raise self._refused(code)
        self._make_buffer(self._needed.value)
        return self._copied(fetch, *arguments)

    def _fetched(self, shape: struct.Struct, fetch: Any, *arguments: Any) -> Optional[Tuple[Any, ...]]:
        """A value that a fetch writes; none where there is none."""
        with self._lock:
            code = fetch(self._at, *arguments, self._value_at)
            if code == 0:
                return shape.unpack_from(self._value)
            if code == _NO_DATA:
                return None
            raise self._refused(code)

    def _make_buffer(self, room: int) -> None:
        self._buffer, self._room = c.create_string_buffer(room), room
        self._buffer_at = c.addressof(self._buffer)
