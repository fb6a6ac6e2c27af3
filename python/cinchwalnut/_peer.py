"""A peer: its events, and what they give back."""
from __future__ import annotations

import ctypes as c
import struct
from typing import Any, Callable, List, NamedTuple, Optional, Sequence, Tuple, Type, TypeVar

from . import _library
from ._causes import cause, own_of, own_of_text
from ._checks import Octets, i32, key_of, octets, octets_of, truth, u8, u32, u64
from ._codes import ANY, Code, EntityKind, PreconditionNotMet, Status, refused
from ._config import ReaderConfig, WriterConfig
from ._faults import arrays, fault_in, line_fault, text_fault
from ._holding import Holds, Sample

_LIBRARY = _library.LIBRARY
SECOND = 1 << 32
_RECORDED_VALUE = 65_001  # octets of a value that stand in a line: one more than any that is taken
_NO_DATA = int(Code.NO_DATA)
_Peer = TypeVar("_Peer", bound="Peer")


def ms(milliseconds: float) -> int:
    """Milliseconds in units of 2^-32 second, as ticks and leases have them."""
    return int(milliseconds * SECOND / 1000)


class TotalStatus(NamedTuple):
    """SAMPLE_LOST, LIVELINESS_LOST."""

    total_count: int
    total_count_change: int


class Observed(NamedTuple):
    """What a datagram holds that would be nothing to a peer: DATA and HEARTBEATs that are old to a reader, one for each such
    reader, and what concerns no reader and no writer of the peer."""

    old_data: int
    old_heartbeats: int
    to_nobody: int

    def plus(self, more: "Observed") -> "Observed":
        """Both together: a count for each writer is such a sum."""
        return Observed(*(one + another for one, another in zip(self, more)))


class ChangedStatus(NamedTuple):
    """LIVELINESS_CHANGED; the handle is 0 for none."""

    alive_count: int
    not_alive_count: int
    alive_count_change: int
    not_alive_count_change: int
    last_publication_handle: int


End = Tuple[int, int]  # a writer or a reader, by the number of its peer and its number there


class MatchedStatus(NamedTuple):
    """PUBLICATION_MATCHED of a writer, SUBSCRIPTION_MATCHED of a reader; the last is the reader or writer with which the last
    match was made or ended, None before that."""

    total_count: int
    total_count_change: int
    current_count: int
    current_count_change: int
    last: Optional[End]


class NoticeInfo(NamedTuple):
    """That a status of an entity was raised, with its values; those that it does not have are 0."""

    entity_kind: EntityKind
    entity_number: int
    status: Status
    total: TotalStatus
    changed: ChangedStatus
    matched: MatchedStatus


Packet = Tuple[int, bytes]  # the number of the peer that it is for, and its octets
# As the structs of the header lie in memory.
_NOTICE = struct.Struct("=BB2xI2Q4iQ2Q2qIB3x")
_TOTAL, _CHANGED, _MATCHED = struct.Struct("=2Q"), struct.Struct("=4iQ"), struct.Struct("=2Q2qIB3x")
_OBSERVED = struct.Struct("=3Q")
_NUMBER, _HANDLE, _KEY = struct.Struct("=I"), struct.Struct("=Q"), struct.Struct("=16s")


class Peer(Holds):
    """A peer of a configuration: the prefixes of its peers, its writers and its readers, and its own number.

    Peers are numbered from 1 in their order, and so are the writers of a peer, and its readers. A key has 16 octets, and a value
    at most as many as the `max_value` of its writer says. `most` is how many samples at most, -1 for all; masks are sums of states, or `ANY`.

    Each event returns what it sends: the packets, each with the number of the peer that it is for. A call that is refused
    raises `Refused`, by its code, and says the cause. Threads may share a peer: an event and the fetch of what it gave back are one."""

    def __init__(self, prefixes: Sequence[Octets], writers: Sequence[WriterConfig], readers: Sequence[ReaderConfig], number: int):
        self._begin()
        configuration, self._own = arrays(prefixes, writers, readers), own_of(writers, readers, number)
        if code := _LIBRARY.cw_open(self._at, *configuration, u32(number, "number")):
            fault = fault_in(configuration) if code != Code.MEMORY else None
            raise refused(code, fault.sentence if fault else f"there is no peer {number}" if code == Code.BAD_PARAMETER else "")

    @classmethod
    def from_text(cls: Type[_Peer], text: str, number: int) -> _Peer:
        """A peer of a configuration in lines of docs/PIPE.md: "peer ..", "writer ..", "reader .."."""
        self = cls.__new__(cls)
        self._begin()
        said = text.encode()
        if code := _LIBRARY.cw_open_text(self._at, said, len(said), u32(number, "number")):
            raise refused(code, (text_fault(text) or f"there is no peer {number}") if code != Code.MEMORY else "")
        self._own = own_of_text(text, number)
        return self

    def _begin(self) -> None:
        self._to = c.c_uint32(0)
        self._to_at = c.addressof(self._to)
        self._hold(_library.CPeer(False, None), _LIBRARY.cw_close)

    def _happens(self, line: Callable[[], str], call: Any, *arguments: Any) -> int:
        """The code of an event, by its call. What it is in a line of docs/PIPE.md is asked for where it is recorded."""
        code: int = call(self._at, *arguments)
        return code

    def _event(self, line: Callable[[], str], call: Any, *arguments: Any) -> None:
        if code := self._happens(line, call, *arguments):
            raise self._refused(code, line())

    def _refused(self, code: int, line: str = "") -> Exception:
        """The exception of a code, with which the event of a line was refused, or else a fetch."""
        if code == Code.PRECONDITION_NOT_MET and not self.is_open:
            return PreconditionNotMet(code, "the peer is closed")
        return refused(code, cause(code, line, self._own) if line else "")

    def _sent(self, line: Callable[[], str], call: Any, *arguments: Any) -> List[Packet]:
        with self._lock:
            self._event(line, call, *arguments)
            return self._each(self._packet)

    # Events: a datagram comes, the time goes on, places of a reader are tried again.

    def deliver(self, datagram: Octets) -> List[Packet]:
        came = octets(datagram, "a datagram")
        return self._sent(lambda: f"deliver {came.hex() if 0 < len(came) < 1 << 16 else '-'}", _LIBRARY.cw_deliver, came, len(came))

    def observe(self, datagram: Octets, writer: Optional[End] = None) -> Observed:
        """What a datagram holds that would be nothing to the peer, as it stands before it is delivered. It changes nothing.
        Old DATA and HEARTBEATs are those of all writers, or of one, by the number of its peer and its number there."""
        came = octets(datagram, "a datagram")
        looked = _LIBRARY.cw_observe if writer is None else _LIBRARY.cw_observe_writer
        whose = () if writer is None else _named(writer, "writer")
        with self._lock:
            if code := looked(self._at, *whose, came, len(came), self._value_at):
                raise self._refused(code)
            return Observed(*_OBSERVED.unpack_from(self._value))

    def tick(self, now: int) -> List[Packet]:
        """The time goes on to this moment, in units of 2^-32 second."""
        u64(now, "now")
        return self._sent(lambda: f"tick {now}", _LIBRARY.cw_tick, now)

    def resume(self, number: int) -> List[Packet]:
        """The places of a reader are tried again, as after a take that made room: what it holds comes as far as there is room.
        Nothing is sent; `text` says what moved."""
        u8(number, "number")
        return self._sent(lambda: f"resume r{number}", _LIBRARY.cw_resume, number)

    # Calls of a writer, by its number.

    def _keyed(self, word: str, call: Any, number: int, key: Octets) -> List[Packet]:
        u8(number, "number")
        said = key_of(key)
        return self._sent(lambda: f"call {word} w{number} {said.hex()}", call, number, said)

    def register(self, number: int, key: Octets) -> List[Packet]:
        return self._keyed("register", _LIBRARY.cw_register, number, key)

    def write(self, number: int, key: Octets, value: Octets) -> List[Packet]:
        u8(number, "number")
        of, said = key_of(key), octets(value, "a value")
        return self._sent(lambda: f"call write w{number} {of.hex()} {said[:_RECORDED_VALUE].hex() or '-'}", _LIBRARY.cw_write, number, of, said, len(said))

    def dispose(self, number: int, key: Octets) -> List[Packet]:
        return self._keyed("dispose", _LIBRARY.cw_dispose, number, key)

    def unregister(self, number: int, key: Octets) -> List[Packet]:
        return self._keyed("unregister", _LIBRARY.cw_unregister, number, key)

    def assert_liveliness(self, number: int) -> List[Packet]:
        u8(number, "number")
        return self._sent(lambda: f"call assert w{number}", _LIBRARY.cw_assert_liveliness, number)

    def set_strength(self, number: int, strength: int) -> List[Packet]:
        u8(number, "number"), i32(strength, "strength")
        return self._sent(lambda: f"call strength w{number} {strength}", _LIBRARY.cw_set_strength, number, strength)

    def get_liveliness_lost_status(self, number: int) -> TotalStatus:
        u8(number, "number")
        with self._lock:
            self._event(lambda: f"call livelost w{number}", _LIBRARY.cw_get_liveliness_lost_status, number)
            return self.total()

    def match_reader(self, number: int, reader: End, greeted: bool = False) -> List[Packet]:
        """The writer is told that it is matched with a reader from now on, by the number of its peer and its number there.
        A greeted one is told no more than where it begins until it has answered: as those of other products want it."""
        if greeted:
            return self._told("match", _LIBRARY.cw_greet_reader, number, reader, " greeted")
        return self._told("match", _LIBRARY.cw_match_reader, number, reader)

    def unmatch_reader(self, number: int, reader: End) -> List[Packet]:
        """The writer is told that a reader is gone: it waits for it no longer, and sends it nothing."""
        return self._told("part", _LIBRARY.cw_unmatch_reader, number, reader)

    def meet_reader(
        self, number: int, reader: End, prefix: Octets, entity: Octets, is_best_effort: bool = False, greeted: bool = False
    ) -> List[Packet]:
        """The same of a reader that no configuration has to list: of another topic, or of a peer that came later. The caller
        gives the number of its peer, one for each GUID prefix, and its number there; the prefix has 12 octets, the entity 4,
        of which the last is 7."""
        u8(number, "number")
        peer, there = _named(reader, "reader")
        guid = octets_of(12, prefix, "prefix"), octets_of(4, entity, "entity")
        said = truth(is_best_effort, "is_best_effort"), truth(greeted, "greeted")
        return self._sent(
            lambda: f"call meet w{number} {peer}.r{there} {guid[0].hex()} {guid[1].hex()}{' besteffort' * said[0]}{' greeted' * said[1]}",
            *(_LIBRARY.cw_meet_reader, number, peer, there, *guid, *said),
        )

    def _told(self, word: str, call: Any, number: int, reader: End, option: str = "") -> List[Packet]:
        u8(number, "number")
        peer, there = _named(reader, "reader")
        return self._sent(lambda: f"call {word} w{number} {peer}.r{there}{option}", call, number, peer, there)

    def get_publication_matched_status(self, number: int) -> MatchedStatus:
        u8(number, "number")
        with self._lock:
            self._event(lambda: f"call matched w{number}", _LIBRARY.cw_get_publication_matched_status, number)
            return self.matched()

    # Calls of a reader, by its number. Where there is no sample, the list is empty.

    def _accessed(self, line: Callable[[], str], call: Any, *arguments: Any) -> List[Sample]:
        with self._lock:
            code = self._happens(line, call, *arguments)
            if code not in (0, _NO_DATA):
                raise self._refused(code, line())
            return [] if code else self._each(self._sample)

    def _by_masks(self, word: str, number: int, most: int, handle: Optional[int], samples: int, views: int, instances: int) -> List[Sample]:
        u8(number, "number"), i32(most, "most")
        masks = u32(samples, "samples"), u32(views, "views"), u32(instances, "instances")
        of = () if handle is None else (u64(handle, "handle"),)
        call = getattr(_LIBRARY, f"cw_{word}")
        return self._accessed(lambda: _line(word, number, of, most, *masks), call, number, most, *of, *masks)

    def read(self, number: int, most: int = -1, samples: int = ANY, views: int = ANY, instances: int = ANY) -> List[Sample]:
        return self._by_masks("read", number, most, None, samples, views, instances)

    def take(self, number: int, most: int = -1, samples: int = ANY, views: int = ANY, instances: int = ANY) -> List[Sample]:
        return self._by_masks("take", number, most, None, samples, views, instances)

    def read_instance(self, number: int, handle: int, most: int = -1, samples: int = ANY, views: int = ANY, instances: int = ANY) -> List[Sample]:
        return self._by_masks("read_instance", number, most, handle, samples, views, instances)

    def take_instance(self, number: int, handle: int, most: int = -1, samples: int = ANY, views: int = ANY, instances: int = ANY) -> List[Sample]:
        return self._by_masks("take_instance", number, most, handle, samples, views, instances)

    def read_next_instance(self, number: int, previous: int, most: int = -1, samples: int = ANY, views: int = ANY, instances: int = ANY) -> List[Sample]:
        return self._by_masks("read_next_instance", number, most, previous, samples, views, instances)

    def take_next_instance(self, number: int, previous: int, most: int = -1, samples: int = ANY, views: int = ANY, instances: int = ANY) -> List[Sample]:
        return self._by_masks("take_next_instance", number, most, previous, samples, views, instances)

    def _next_sample(self, word: str, number: int) -> List[Sample]:
        u8(number, "number")
        return self._accessed(lambda: f"call {word} r{number}", getattr(_LIBRARY, f"cw_{word}"), number)

    def read_next_sample(self, number: int) -> List[Sample]:
        return self._next_sample("read_next_sample", number)

    def take_next_sample(self, number: int) -> List[Sample]:
        return self._next_sample("take_next_sample", number)

    def _by_condition(self, word: str, number: int, most: int, previous: Optional[int], condition: int) -> List[Sample]:
        u8(number, "number"), i32(most, "most"), u32(condition, "condition")
        of = () if previous is None else (u64(previous, "previous"),)
        call = getattr(_LIBRARY, f"cw_{word}_condition")
        return self._accessed(lambda: _line(word, number, of, most, condition), call, number, most, *of, condition)

    def read_w_condition(self, number: int, condition: int, most: int = -1) -> List[Sample]:
        return self._by_condition("read_w", number, most, None, condition)

    def take_w_condition(self, number: int, condition: int, most: int = -1) -> List[Sample]:
        return self._by_condition("take_w", number, most, None, condition)

    def read_next_instance_w_condition(self, number: int, previous: int, condition: int, most: int = -1) -> List[Sample]:
        return self._by_condition("read_next_instance_w", number, most, previous, condition)

    def take_next_instance_w_condition(self, number: int, previous: int, condition: int, most: int = -1) -> List[Sample]:
        return self._by_condition("take_next_instance_w", number, most, previous, condition)

    def get_key_value(self, number: int, handle: int) -> bytes:
        u8(number, "number"), u64(handle, "handle")
        with self._lock:
            self._event(lambda: f"call key r{number} {_handle_in_line(handle)}", _LIBRARY.cw_get_key_value, number, handle)
            return self.key()

    def lookup_instance(self, number: int, key: Octets) -> int:
        """The handle of the instance, 0 where it is not known."""
        u8(number, "number")
        said = key_of(key)
        with self._lock:
            self._event(lambda: f"call lookup r{number} {said.hex()}", _LIBRARY.cw_lookup_instance, number, said)
            return self.handle()

    def get_sample_lost_status(self, number: int) -> TotalStatus:
        u8(number, "number")
        with self._lock:
            self._event(lambda: f"call lost r{number}", _LIBRARY.cw_get_sample_lost_status, number)
            return self.total()

    def get_liveliness_changed_status(self, number: int) -> ChangedStatus:
        u8(number, "number")
        with self._lock:
            self._event(lambda: f"call changed r{number}", _LIBRARY.cw_get_liveliness_changed_status, number)
            return self.changed()

    def match_writer(self, number: int, writer: End) -> int:
        """The reader is told that it is matched with a writer from now on, by the number of its peer and its number there; gives
        the publication handle."""
        u8(number, "number")
        peer, there = _named(writer, "writer")
        with self._lock:
            self._event(lambda: f"call match r{number} {peer}.w{there}", _LIBRARY.cw_match_writer, number, peer, there)
            return self.handle()

    def unmatch_writer(self, number: int, writer: End) -> List[Packet]:
        """The reader is told that a writer is gone: its instances go to the next owner, or are without writers."""
        u8(number, "number")
        peer, there = _named(writer, "writer")
        return self._sent(lambda: f"call part r{number} {peer}.w{there}", _LIBRARY.cw_unmatch_writer, number, peer, there)

    def meet_writer(self, number: int, writer: End, prefix: Octets, entity: Octets, strength: int = 0, lease: Optional[int] = None) -> int:
        """The reader is told that it is matched from now on with a writer that no configuration has to list, as by meet_reader;
        its entity ends with 2, and a lease is in units of 2^-32 second. Gives the publication handle."""
        u8(number, "number"), i32(strength, "strength"), u64(lease or 0, "lease")
        peer, there = _named(writer, "writer")
        guid = octets_of(12, prefix, "prefix"), octets_of(4, entity, "entity")
        said = f" strength={int(strength)}" + ("" if lease is None else f" lease={int(lease)}")
        with self._lock:
            self._event(
                lambda: f"call meet r{number} {peer}.w{there} {guid[0].hex()} {guid[1].hex()}{said}",
                *(_LIBRARY.cw_meet_writer, number, peer, there, *guid, strength, lease is not None, lease or 0),
            )
            return self.handle()

    def get_subscription_matched_status(self, number: int) -> MatchedStatus:
        u8(number, "number")
        with self._lock:
            self._event(lambda: f"call matched r{number}", _LIBRARY.cw_get_subscription_matched_status, number)
            return self.matched()

    # Any event in a line, filters and recorders.

    def line(self, line: str) -> str:
        """Any event in a line of docs/PIPE.md, and its reply in words; `packets` has what it sends. It raises where the line
        names none, or the event is refused."""
        said = line.encode()
        with self._lock:
            code = self._happens(lambda: line, _LIBRARY.cw_line, said, len(said))
            if code == Code.BAD_PARAMETER and (why := line_fault(line)):
                raise refused(code, why)
            if code:
                raise self._refused(code, line)
            return self.text()

    def add_filter(self, begins: Octets) -> int:
        """A filter, which values pass that begin with these octets, by its number."""
        said = octets(begins, "a filter")
        with self._lock:
            return int(self._there(self._fetched(_NUMBER, _LIBRARY.cw_add_filter, said, len(said)), "filter")[0])

    def set_recorder(self, kind: int, number: int, mask: int, room: int) -> List[NoticeInfo]:
        """Has an entity record the statuses of this mask, the last ones, as many as there is room for; what the recorder
        before it kept is handed back."""
        u8(kind, "kind"), u8(number, "number"), u32(mask, "mask"), u64(room, "room")
        with self._lock:
            if code := _LIBRARY.cw_set_recorder(self._at, kind, number, mask, room):
                raise self._refused_recorder(code, kind, number, room)
            return self.notices()

    def clear_recorder(self, kind: int, number: int) -> List[NoticeInfo]:
        """Has it record none; what was kept is handed back."""
        u8(kind, "kind"), u8(number, "number")
        with self._lock:
            if code := _LIBRARY.cw_clear_recorder(self._at, kind, number):
                raise self._refused_recorder(code, kind, number)
            return self.notices()

    def _refused_recorder(self, code: int, kind: int, number: int, room: int = 1) -> Exception:
        if code != Code.BAD_PARAMETER:
            return self._refused(code)
        is_room = 1 <= room <= 1 << 16
        return refused(code, f"there is no entity of kind {int(kind)} and number {number}" if is_room else f"room is {room}, and not from 1 to 65536")

    # Fetches of the last answer, which change nothing.

    def packets(self) -> List[Packet]:
        """What the last event sends."""
        return self._each(self._packet)

    def packet(self, at: int) -> Packet:
        """One of these, from 0; NoData where there is none."""
        return self._one(self._packet, at, "packet")

    def _packet(self, at: int) -> Optional[Packet]:
        said = self._copied(_LIBRARY.cw_packet, at, self._to_at)
        return None if said is None else (self._to.value, said)

    def samples(self) -> List[Sample]:
        """What the last read or take gave."""
        return self._each(self._sample)

    def sample(self, at: int) -> Sample:
        """One of these, from 0; NoData where there is none."""
        return self._one(self._sample, at, "sample")

    def _sample(self, at: int) -> Optional[Sample]:
        return self._sampled(_LIBRARY.cw_sample, at)

    def notices(self) -> List[NoticeInfo]:
        """What the recorder kept that was set anew or cleared last, the oldest first."""
        return self._each(self._notice)

    def notice(self, at: int) -> NoticeInfo:
        """One of these, from 0; NoData where there is none."""
        return self._one(self._notice, at, "notice")

    def _notice(self, at: int) -> Optional[NoticeInfo]:
        found = self._fetched(_NOTICE, _LIBRARY.cw_notice, at)
        if found is None:
            return None
        kind, number, status, *values = found
        total, changed, matched = TotalStatus(*values[:2]), ChangedStatus(*values[2:7]), _matched(values[7:])
        return NoticeInfo(EntityKind(kind), number, Status(status), total, changed, matched)

    def key(self) -> bytes:
        """Of get_key_value."""
        return bytes(self._there(self._fetched(_KEY, _LIBRARY.cw_key), "key")[0])

    def handle(self) -> int:
        """Of lookup_instance, or of match_writer or meet_writer."""
        return int(self._there(self._fetched(_HANDLE, _LIBRARY.cw_handle), "handle")[0])

    def number(self) -> int:
        """Of what a line made: a condition, a WaitSet."""
        return int(self._there(self._fetched(_NUMBER, _LIBRARY.cw_number), "number")[0])

    def total(self) -> TotalStatus:
        """Of a look at SAMPLE_LOST or LIVELINESS_LOST."""
        return TotalStatus(*self._there(self._fetched(_TOTAL, _LIBRARY.cw_total), "total"))

    def changed(self) -> ChangedStatus:
        """Of a look at LIVELINESS_CHANGED."""
        return ChangedStatus(*self._there(self._fetched(_CHANGED, _LIBRARY.cw_changed), "counts of LIVELINESS_CHANGED"))

    def matched(self) -> MatchedStatus:
        """Of a look at PUBLICATION_MATCHED or SUBSCRIPTION_MATCHED."""
        return _matched(self._there(self._fetched(_MATCHED, _LIBRARY.cw_matched), "counts of matches"))

    def unsent(self) -> int:
        """How many packets found no memory, as if they were lost."""
        with self._lock:
            if not self.is_open:
                raise self._refused(Code.PRECONDITION_NOT_MET)
            return int(_LIBRARY.cw_unsent(self._at))

    def text(self) -> str:
        """The reply in words, as docs/PIPE.md has them."""
        with self._lock:
            return self._there(self._copied(_LIBRARY.cw_text), "text").decode().rstrip("\n")


def _named(end: End, kind: str) -> End:
    if not isinstance(end, tuple) or len(end) != 2:
        raise TypeError(f"{kind} is {end!r}, and no pair of the number of its peer and its number there")
    return u32(end[0], f"the {kind}'s peer"), u8(end[1], f"the {kind}")


def _matched(values: Sequence[int]) -> MatchedStatus:
    """As the struct has them, in which a peer of 0 is none."""
    *counts, peer, number = values
    return MatchedStatus(*counts, (peer, number) if peer else None)


def _handle_in_line(handle: int) -> int:
    """A handle in a line has 32 bits; no instance is known by a greater one."""
    return min(handle, (1 << 32) - 1)


def _line(word: str, number: int, handles: Sequence[int], *numbers: int) -> str:
    return f"call {word} r{number} {' '.join(str(int(it)) for it in (*map(_handle_in_line, handles), *numbers))}"
