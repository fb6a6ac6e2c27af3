"""Configurations as arrays of the library, why one is refused, and whether two are equal."""
from __future__ import annotations

import ctypes as c
from typing import Any, List, NamedTuple, Optional, Sequence, Type

from . import _library
from ._checks import Octets, octets_of
from ._codes import Code, Place, Rule, refused
from ._config import ReaderConfig, WriterConfig

_LIBRARY = _library.LIBRARY


class ConfigFault(NamedTuple):
    """The rule that a configuration breaks first, and what breaks it: its peer and its number are 0 for none."""

    code: Code
    rule: Rule
    place: Place
    peer: int
    number: int
    sentence: str


def _struct_of(kind: Type[Any], end: Any) -> Any:
    fields = {name: getattr(end, name) for name, _ in kind._fields_}
    return kind(**{**fields, "entity": tuple(end.entity)})


def arrays(prefixes: Sequence[Octets], writers: Sequence[WriterConfig], readers: Sequence[ReaderConfig]) -> List[Any]:
    """The arguments that name a configuration."""
    peers = [_library.CPeerConfig(prefix=tuple(octets_of(12, it, "a prefix"))) for it in prefixes]
    lists = [
        _library.array_of(_library.CPeerConfig, peers),
        _library.array_of(_library.CWriterConfig, [_struct_of(_library.CWriterConfig, it) for it in writers]),
        _library.array_of(_library.CReaderConfig, [_struct_of(_library.CReaderConfig, it) for it in readers]),
    ]
    return [it for one in lists for it in one]


def _sentence(call: Any, *arguments: Any, room: int = 512) -> Optional[str]:
    """What a call says in words; none where it answers NO_DATA."""
    buffer, needed = c.create_string_buffer(room), c.c_size_t(0)
    code = call(*arguments, buffer, room, c.byref(needed))
    if code == Code.OUT_OF_RESOURCES:
        return _sentence(call, *arguments, room=needed.value)
    if code == Code.NO_DATA:
        return None
    if code:
        raise refused(code)
    return c.string_at(buffer, needed.value).decode()


def _of_no_peer(configuration: Sequence[Any]) -> str:
    """Which writer or reader, in the order of the list, names a peer that there isn't."""
    count = configuration[1]
    for kind, ends, length in (("writer", *configuration[2:4]), ("reader", *configuration[4:6])):
        for at, end in enumerate(ends[:length], 1):
            if not 1 <= end.peer <= count:
                return f"the configuration: {kind} {at} of all names peer {end.peer}, and there are {count}"
    return ""


def fault_in(configuration: Sequence[Any]) -> Optional[ConfigFault]:
    fault = _library.CFault()
    sentence = _sentence(_LIBRARY.cw_config_fault, *configuration, c.byref(fault))
    if sentence is None:
        return None
    if fault.rule == Rule.NAMED_PEER:
        sentence = _of_no_peer(configuration) or sentence
    return ConfigFault(Code(fault.code), Rule(fault.rule), Place(fault.place), fault.peer, fault.number, sentence)


def config_fault(prefixes: Sequence[Octets], writers: Sequence[WriterConfig], readers: Sequence[ReaderConfig]) -> Optional[ConfigFault]:
    """Which rule a configuration breaks first, and where; none where it breaks none."""
    return fault_in(arrays(prefixes, writers, readers))


def config_sum(prefixes: Sequence[Octets], writers: Sequence[WriterConfig], readers: Sequence[ReaderConfig]) -> int:
    """The sum of a configuration, equal of equal ones: for processes to compare before their peers talk."""
    found = c.c_uint64(0)
    if code := _LIBRARY.cw_config_sum(*arrays(prefixes, writers, readers), c.byref(found)):
        raise refused(code)
    return found.value


def text_fault(text: str) -> Optional[str]:
    """Why `Peer.from_text` refuses a text, in words; none where it takes it."""
    said = text.encode()
    return _sentence(_LIBRARY.cw_text_fault, said, len(said))


def line_fault(line: str) -> Optional[str]:
    """Why `Peer.line` takes a line for none, in words; none where it is one."""
    said = line.encode()
    return _sentence(_LIBRARY.cw_line_fault, said, len(said))
