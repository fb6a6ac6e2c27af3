"""Writers and readers of a configuration."""
from __future__ import annotations

import dataclasses
from typing import Any, Callable

from ._checks import i32, octets_of, truth, u8, u24, u32, u64


def _entity(value: Any, name: str) -> bytes:
    return octets_of(4, value, name)


_CHECKS: dict[str, Callable[[Any, str], Any]] = {
    **dict.fromkeys(("peer",), u32),
    **dict.fromkeys(("entity",), _entity),
    **dict.fromkeys(("topic", "depth", "max_value"), u32),
    **dict.fromkeys(("max_samples", "max_instances", "strength"), i32),
    **dict.fromkeys(("lease", "max_arrivals"), u64),
}


class _Checked:
    """A field takes what the struct of C can hold, and else raises ValueError."""

    def __setattr__(self, name: str, value: Any) -> None:
        object.__setattr__(self, name, _CHECKS.get(name, truth)(value, name))


@dataclasses.dataclass
class WriterConfig(_Checked):
    """A writer of a configuration; its entity is three octets of a key, and 2."""

    peer: int
    entity: bytes
    is_exclusive: bool = False
    keeps_last: bool = False
    has_lease: bool = False
    autodispose: bool = True
    is_best_effort: bool = False
    topic: int = 0
    depth: int = 0
    max_samples: int = -1
    strength: int = 0
    lease: int = 0
    max_value: int = 1024


@dataclasses.dataclass
class ReaderConfig(_Checked):
    """A reader of a configuration; its entity is three octets of a key, and 7."""

    peer: int
    entity: bytes
    is_exclusive: bool = False
    keeps_last: bool = False
    has_lease: bool = False
    is_best_effort: bool = False
    has_max_arrivals: bool = False
    topic: int = 0
    depth: int = 0
    max_samples: int = -1
    max_instances: int = -1
    lease: int = 0
    max_arrivals: int = 0
    max_value: int = 1024


def _entity_of(key: int, kind: int) -> bytes:
    return bytes([*u24(key, "key").to_bytes(3, "big"), kind])


def writer(peer: int, key: int, topic: int = 0, **policies: Any) -> WriterConfig:
    """A writer that keeps all its changes, with the standard's defaults else, but for what is said by name."""
    return WriterConfig(peer, _entity_of(key, 2), topic=topic, **policies)


def reader(peer: int, key: int, topic: int = 0, **policies: Any) -> ReaderConfig:
    """A reader that keeps all samples, with the standard's defaults else, but for what is said by name."""
    return ReaderConfig(peer, _entity_of(key, 7), topic=topic, **policies)
