"""Why an event is refused, in words: by its code, the line of docs/PIPE.md that it is, and how many writers and readers the
peer has. docs/MODEL.md says which call is refused with which code, and when."""
from __future__ import annotations

from typing import Dict, List, NamedTuple, Sequence, Tuple

from ._codes import Code
from ._config import ReaderConfig, WriterConfig

_BAD, _NOT_NOW = Code.BAD_PARAMETER, Code.PRECONDITION_NOT_MET
_USUAL = 1024  # octets of a value, where the configuration does not say
# By the code and the call; `{0}` is its first operand.
_CAUSES: Dict[Tuple[int, str], str] = {
    (_BAD, "key"): "no known instance has handle {1}",
    (_BAD, "querycond"): "there is no filter {4}",
    (_BAD, "trigger"): "there is no condition or entity {0}",
    **{(_BAD, it): "{1} is none of the topic of {0}" for it in ("match", "part")},
    (_BAD, "meet"): "{1} has a number, a GUID, a RELIABILITY or a lease that it can't have",
    **{(_NOT_NOW, it): "{0} and {1} are matched" for it in ("match", "meet")},
    (Code.OUT_OF_RESOURCES, "meet"): "{0} knows as many others there as it can",
    (_NOT_NOW, "part"): "{0} and {1} are not matched",
    **{(_BAD, it): "there is no condition {0}" for it in ("setguard", "delete")},
    **{(_BAD, it): "there is no WaitSet {0}, or no condition {1}" for it in ("attach", "detach")},
    **{(_BAD, it): "there is no WaitSet {0}" for it in ("delwaitset", "conditions", "begin", "look", "end")},
    (_NOT_NOW, "unregister"): "the instance is not registered at this writer",
    (_NOT_NOW, "strength"): "the writer is of shared ownership",
    (_NOT_NOW, "setguard"): "condition {0} is no guard condition",
    (_NOT_NOW, "detach"): "condition {1} is not attached to WaitSet {0}",
    **{(_NOT_NOW, it): "somebody waits in WaitSet {0}" for it in ("delwaitset", "begin")},
    **{(_NOT_NOW, it): "nobody waits in WaitSet {0}" for it in ("look", "end")},
    (Code.TIMEOUT, "look"): "the wait has ended",
    **{(Code.TIMEOUT, it): "the writer has no room until more is acknowledged" for it in ("write", "dispose", "unregister")},
}


class Own(NamedTuple):
    """How many writers and readers a peer has, and how many octets a value of each writer has at most."""

    writers: int
    readers: int
    values: Sequence[int]


def own_of(writers: Sequence[WriterConfig], readers: Sequence[ReaderConfig], number: int) -> Own:
    values = [it.max_value or _USUAL for it in writers if it.peer == number]
    return Own(len(values), sum(it.peer == number for it in readers), values)


def own_of_text(text: str, number: int) -> Own:
    """Those of a configuration in lines that was taken."""
    peer = 0
    own: List[str] = []
    values: List[int] = []
    for word, *options in (it.split(" ") for it in text.splitlines()):
        peer += word == "peer"
        own += [word] * (peer == number)
        if word == "writer" and peer == number:
            said = [it.partition("=")[2] for it in options if it.startswith("values=")]
            values.append(int(said[-1]) if said else _USUAL)
    return Own(len(values), own.count("reader"), values)


def cause(code: int, line: str, own: Own) -> str:
    """The cause; empty where the code says all that is known."""
    words = line.split()
    if words[0] == "tick" and code == _BAD:
        return f"moment {words[1]} is before the last one, or from 2^63 units on"
    name, *operands = words[1:] if words[0] == "call" else words
    if code == _BAD and (nobody := _no_end(operands, own)):
        return nobody
    if code == _BAD and name == "write":
        return f"a value has at most {own.values[int(operands[0][1:]) - 1]:,} octets"
    if name in ("read", "take") or name.startswith(("read_", "take_")):
        return _cause_of_access(code, name, operands)
    return _CAUSES.get((code, name), "").format(*operands)


def _no_end(operands: Sequence[str], own: Own) -> str:
    """That there is no such writer or reader, where the first operand names none."""
    end = operands[0] if operands else ""
    if end[:1] not in ("w", "r"):
        return ""
    kind, count = ("writer", own.writers) if end[0] == "w" else ("reader", own.readers)
    return "" if 1 <= int(end[1:]) <= count else f"there is no {kind} {end[1:]}; the peer has {count or 'none'}"


def _cause_of_access(code: int, name: str, operands: Sequence[str]) -> str:
    if code == Code.NO_DATA:
        return "no sample is selected"
    is_by_condition, is_of_instance = name.endswith("_w"), "instance" in name
    most = operands[1 + is_of_instance :][:1]
    if code == _BAD and most and int(most[0]) < 1 and int(most[0]) != -1:
        return f"at most {most[0]} samples are asked for, which is neither -1 nor positive"
    if code == _BAD and is_by_condition:
        return f"there is no condition {operands[-1]}"
    if code == _BAD and is_of_instance:
        return f"no known instance has handle {operands[1]}"
    return f"condition {operands[-1]} is no read condition of this reader" if code == _NOT_NOW and is_by_condition else ""
