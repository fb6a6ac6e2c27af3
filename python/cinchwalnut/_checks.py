"""What a call or a field can hold, and ValueError for what it can't."""
from __future__ import annotations

import operator
from typing import Callable, Union

Octets = Union[bytes, bytearray, memoryview]
Check = Callable[[int, str], int]


def _between(low: int, high: int) -> Check:
    def check(number: int, name: str) -> int:
        try:
            number = operator.index(number)
        except TypeError:
            raise TypeError(f"{name} is no whole number, but {type(number).__name__}") from None
        if not low <= number <= high:
            raise ValueError(f"{name} is {number}, and not from {low} to {high}")
        return number

    return check


u8, u16, u24, u32, u64 = (_between(0, (1 << bits) - 1) for bits in (8, 16, 24, 32, 64))
i32 = _between(-(1 << 31), (1 << 31) - 1)


def octets(value: Octets, name: str) -> bytes:
    if isinstance(value, bytes):
        return value
    if isinstance(value, (bytearray, memoryview)):
        return bytes(value)
    raise TypeError(f"{name} is no bytes, but {type(value).__name__}")


def octets_of(count: int, value: Octets, name: str) -> bytes:
    found = octets(value, name)
    if len(found) != count:
        raise ValueError(f"{name} has {len(found)} octets, and not {count}")
    return found


def truth(value: bool, name: str) -> bool:
    if value not in (False, True):
        raise ValueError(f"{name} is {value!r}, and not False or True")
    return bool(value)


def key_of(value: Octets) -> bytes:
    return octets_of(16, value, "a key")
