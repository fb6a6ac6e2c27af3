"""The numbers of include/cinchwalnut.h by their names, and an exception for each code."""
from __future__ import annotations

import enum

ANY = 65535


class Code(enum.IntEnum):
    OK = 0
    BAD_PARAMETER = 3
    PRECONDITION_NOT_MET = 4
    OUT_OF_RESOURCES = 5
    INCONSISTENT_POLICY = 8
    TIMEOUT = 10
    NO_DATA = 11
    MEMORY = 100
    BUSY = 102  # of cinchwalnut.h alone: here one thread waits for another


class SampleState(enum.IntFlag):
    READ = 1
    NOT_READ = 2


class ViewState(enum.IntFlag):
    NEW = 1
    NOT_NEW = 2


class InstanceState(enum.IntFlag):
    ALIVE = 1
    NOT_ALIVE_DISPOSED = 2
    NOT_ALIVE_NO_WRITERS = 4


class EntityKind(enum.IntEnum):
    PARTICIPANT = 0
    WRITER = 1
    READER = 2


class Status(enum.IntFlag):
    SAMPLE_LOST = 128
    DATA_AVAILABLE = 1024
    LIVELINESS_LOST = 2048
    LIVELINESS_CHANGED = 4096
    PUBLICATION_MATCHED = 8192
    SUBSCRIPTION_MATCHED = 16384


class Place(enum.IntEnum):
    """What breaks a rule of configurations."""

    WHOLE = 0
    PEER = 1
    WRITER = 2
    READER = 3


class Rule(enum.IntEnum):
    """A rule of configurations, as the header says them."""

    NAMED_PEER = 0
    PEER_COUNT = 1
    WRITER_COUNT = 2
    READER_COUNT = 3
    KNOWN_PREFIX = 4
    OWN_PREFIX = 5
    OWN_ENTITY = 6
    ENTITY_KIND = 7
    DEPTH = 8
    MAX_SAMPLES = 9
    MAX_INSTANCES = 10
    MAX_ARRIVALS = 11
    LEASE = 12
    DEPTH_WITHIN_MAXIMUM = 13
    SAME_OWNERSHIP = 14
    OFFERED_LEASE = 15
    MAX_VALUE = 16
    OFFERED_VALUE = 17
    OFFERED_RELIABILITY = 18


class Refused(Exception):
    """A call was refused with this code, and has changed nothing, but for what docs/C.md says of NO_DATA and TIMEOUT."""

    def __init__(self, code: int, why: str = ""):
        name = Code(code).name if code in Code.__members__.values() else "another one"
        super().__init__(f"code {int(code)}, {name}" + (f": {why}" if why else ""))
        self.code = code


class BadParameter(Refused):
    """There is no such writer, reader, peer, instance or line, or a value that is not taken."""


class PreconditionNotMet(Refused):
    """It can't be done now; also: the peer is closed."""


class OutOfResources(Refused):
    pass


class InconsistentPolicy(Refused):
    """A configuration whose parts do not fit."""


class Timeout(Refused):
    """A writer has no room, or a wait has ended."""


class NoData(Refused):
    """There is nothing of the kind."""


class OutOfMemory(Refused):
    pass


_REFUSED: dict[int, type[Refused]] = {
    Code.BAD_PARAMETER: BadParameter,
    Code.PRECONDITION_NOT_MET: PreconditionNotMet,
    Code.OUT_OF_RESOURCES: OutOfResources,
    Code.INCONSISTENT_POLICY: InconsistentPolicy,
    Code.TIMEOUT: Timeout,
    Code.NO_DATA: NoData,
    Code.MEMORY: OutOfMemory,
}


def refused(code: int, why: str = "") -> Refused:
    """The exception of a code."""
    return _REFUSED.get(code, Refused)(Code(code) if code in _REFUSED else code, why)
