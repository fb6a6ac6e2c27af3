"""libcinchwalnut.so: where it is, and its calls. It is looked for where the environment says, CINCHWALNUT; beside this file,
where tools/install puts it; and where the loader looks."""
from __future__ import annotations

import ctypes as c
import os
import pathlib
from typing import Any, Dict, List, Sequence, Tuple, Type

NAME = "libcinchwalnut.so"
BESIDE = pathlib.Path(__file__).resolve().parent / NAME


class CPeer(c.Structure):
    _fields_ = [("is_open", c.c_bool), ("held", c.c_void_p)]


class CParticipant(c.Structure):
    _fields_ = CPeer._fields_


class CPeerConfig(c.Structure):
    _fields_ = [("prefix", c.c_uint8 * 12)]


class CWriterConfig(c.Structure):
    _fields_ = [
        *[("peer", c.c_uint32), ("entity", c.c_uint8 * 4)],
        *[(name, c.c_bool) for name in ("is_exclusive", "keeps_last", "has_lease", "autodispose", "is_best_effort")],
        *[("topic", c.c_uint32), ("depth", c.c_uint32), ("max_samples", c.c_int32), ("strength", c.c_int32)],
        *[("max_value", c.c_uint32), ("lease", c.c_uint64)],
    ]


class CReaderConfig(c.Structure):
    _fields_ = [
        *[("peer", c.c_uint32), ("entity", c.c_uint8 * 4)],
        *[(name, c.c_bool) for name in ("is_exclusive", "keeps_last", "has_lease", "is_best_effort", "has_max_arrivals")],
        *[("topic", c.c_uint32), ("depth", c.c_uint32), ("max_samples", c.c_int32), ("max_instances", c.c_int32)],
        *[("max_value", c.c_uint32), ("lease", c.c_uint64), ("max_arrivals", c.c_uint64)],
    ]


class CFault(c.Structure):
    _fields_ = [
        *[(name, c.c_uint8) for name in ("code", "rule", "place")],
        *[(name, c.c_uint64) for name in ("peer", "number")],
    ]


class CKeyField(c.Structure):
    _fields_ = [("place", c.c_uint32), ("size", c.c_uint8)]


class CWriterKind(c.Structure):
    _fields_ = [
        *[("prefix", c.c_uint8 * 12), ("entity", c.c_uint8 * 4), ("kind", c.c_uint8)],
        *[(name, c.c_uint32) for name in ("first_field", "field_count", "max_value")],
    ]


class CLocator(c.Structure):
    _fields_ = [("address", c.c_uint8 * 4), ("port", c.c_uint16)]


class CSettings(c.Structure):
    _fields_ = [
        *[("prefix", c.c_uint8 * 12), ("address", c.c_uint8 * 4), ("port", c.c_uint16)],
        *[("domain", c.c_uint32), ("lease", c.c_uint64)],
    ]


class CEndpoint(c.Structure):
    _fields_ = [
        *[("topic_name", c.c_uint8 * 256), ("type_name", c.c_uint8 * 256), ("kind", c.c_uint8), ("carries", c.c_uint8)],
        *[("is_exclusive", c.c_bool), ("is_best_effort", c.c_bool), ("strength", c.c_int32)],
        *[(name, c.c_uint32) for name in ("first_field", "field_count", "max_value")],
    ]


def array_of(kind: Type[Any], items: Sequence[Any]) -> Tuple[Any, int]:
    """An array, which has an element also where there are none: no pointer is ever null."""
    return (kind * max(len(items), 1))(*items), len(items)


# A pointer to octets that are read, and the address of memory that is written to.
_OCTETS, _INTO, _SIZE = c.c_char_p, c.c_void_p, c.c_size_t
_U8, _U32, _U64, _I32 = c.c_uint8, c.c_uint32, c.c_uint64, c.c_int32
_ARRAYS = [it for kind in (CPeerConfig, CWriterConfig, CReaderConfig) for it in (c.POINTER(kind), _SIZE)]
_MASKS = [_U32, _U32, _U32]
# Each has the peer before these.
_ARGUMENTS: Dict[str, List[Any]] = {
    **{"open": [*_ARRAYS, _U32], "open_text": [_OCTETS, _SIZE, _U32], "close": []},
    **{"deliver": [_OCTETS, _SIZE], "observe": [_OCTETS, _SIZE, _INTO], "tick": [_U64], "line": [_OCTETS, _SIZE]},
    **{"observe_writer": [_U32, _U8, _OCTETS, _SIZE, _INTO], "resume": [_U8]},
    **{it: [_U8, _OCTETS] for it in ("register", "dispose", "unregister", "lookup_instance")},
    **{"write": [_U8, _OCTETS, _OCTETS, _SIZE], "set_strength": [_U8, _I32], "get_key_value": [_U8, _U64]},
    **{it: [_U8] for it in ("assert_liveliness", "get_liveliness_lost_status", "get_sample_lost_status")},
    **{it: [_U8] for it in ("get_liveliness_changed_status", "read_next_sample", "take_next_sample")},
    **{it: [_U8] for it in ("get_publication_matched_status", "get_subscription_matched_status")},
    **{it: [_U8, _U32, _U8] for it in ("match_reader", "greet_reader", "unmatch_reader", "match_writer", "unmatch_writer")},
    **{"meet_reader": [_U8, _U32, _U8, _OCTETS, _OCTETS, c.c_bool, c.c_bool]},
    **{"meet_writer": [_U8, _U32, _U8, _OCTETS, _OCTETS, _I32, c.c_bool, _U64]},
    **{f"{it}": [_U8, _I32, *_MASKS] for it in ("read", "take")},
    **{f"{it}_instance": [_U8, _I32, _U64, *_MASKS] for it in ("read", "take", "read_next", "take_next")},
    **{f"{it}_w_condition": [_U8, _I32, _U32] for it in ("read", "take")},
    **{f"{it}_next_instance_w_condition": [_U8, _I32, _U64, _U32] for it in ("read", "take")},
    **{"add_filter": [_OCTETS, _SIZE, _INTO], "set_recorder": [_U8, _U8, _U32, _SIZE], "clear_recorder": [_U8, _U8]},
    **{it: [_SIZE, _INTO, _INTO, _SIZE, _INTO] for it in ("packet", "sample")},
    **{it: [_INTO] for it in ("key", "handle", "number", "total", "changed", "matched")},
    **{"notice": [_SIZE, _INTO], "text": [_INTO, _SIZE, _INTO], "unsent": []},
}


# These have a participant.
_OF_PARTICIPANT: Dict[str, List[Any]] = {
    "open": [it for kind in (CLocator, CEndpoint, CKeyField) for it in (c.POINTER(kind), _SIZE)],
    **{it: [] for it in ("close", "leave", "is_behind")},
    **{"hear": [_U64, _OCTETS, _OCTETS, _SIZE], "tick": [_U64], "line": [_OCTETS, _SIZE]},
    **{"write": [_U8, _OCTETS, _OCTETS, _SIZE], **{it: [_U8, _OCTETS] for it in ("register", "dispose", "unregister")}},
    **{it: [_U8, _I32, *_MASKS] for it in ("read", "take")},
    **{"datagram": [_SIZE, _INTO, _INTO, _INTO, _SIZE, _INTO], "sample": [_SIZE, _INTO, _INTO, _SIZE, _INTO]},
    **{"told": [_SIZE, _INTO], "presence": [_SIZE, _INTO], "text": [_INTO, _SIZE, _INTO], "matched": [_U8, _U8, _SIZE, _INTO]},
}
_OF_PARTICIPANT["open"].insert(0, c.POINTER(CSettings))


_SENTENCE = [_INTO, _SIZE, c.POINTER(_SIZE)]
_TABLE = [c.POINTER(CWriterKind), _SIZE, c.POINTER(CKeyField), _SIZE]
# These have none.
_WITHOUT_PEER: Dict[str, List[Any]] = {
    "config_fault": [*_ARRAYS, c.POINTER(CFault), *_SENTENCE],
    **{it: [_OCTETS, _SIZE, *_SENTENCE] for it in ("text_fault", "line_fault")},
    "config_sum": [*_ARRAYS, c.POINTER(_U64)],
    "inward": [*_TABLE, c.c_bool, _OCTETS, _SIZE, *_SENTENCE],
    "outward": [*_TABLE, _OCTETS, _SIZE, *_SENTENCE],
}


def _load() -> c.PyDLL:
    """The library, as one whose calls hold the interpreter's lock: so no two threads are in a peer at once."""
    name = os.environ.get("CINCHWALNUT") or (str(BESIDE) if BESIDE.exists() else NAME)
    try:
        library = c.PyDLL(name)
    except OSError as error:
        where = f"It is looked for where CINCHWALNUT says, at {BESIDE}, and where the loader looks; tools/library builds it"
        raise ImportError(f"{NAME} does not load: {error}. {where}") from error
    of_peer = {call: [c.POINTER(CPeer), *arguments] for call, arguments in _ARGUMENTS.items()}
    of_participant = {f"participant_{call}": [c.POINTER(CParticipant), *arguments] for call, arguments in _OF_PARTICIPANT.items()}
    for call, arguments in {**of_peer, **of_participant, **_WITHOUT_PEER}.items():
        if not hasattr(library, f"cw_{call}"):
            raise ImportError(f"{name} is of another version: it has no cw_{call}")
        function = getattr(library, f"cw_{call}")
        function.argtypes = arguments
        function.restype = {"close": None, "participant_close": None, "unsent": _U64}.get(call, _U8)
    return library


LIBRARY = _load()
