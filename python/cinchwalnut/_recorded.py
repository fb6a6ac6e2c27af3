"""A peer that is recorded."""
from __future__ import annotations

from typing import Any, Callable, Dict, List, Sequence, Set, TextIO, Tuple, Union

from ._checks import Octets, octets
from ._codes import Code, EntityKind, Status
from ._config import ReaderConfig, WriterConfig
from ._library import LIBRARY
from ._peer import NoticeInfo, Peer

_End = Union[WriterConfig, ReaderConfig]


class RecordedPeer(Peer):
    """A peer whose events are written as lines of docs/PIPE.md, each with its packets and its reply, as dds_pipe gives them:
    so a run of the field is played again at the desk, by dds_pipe, and looked at, by tools/draw.

    Not recorded is what changed nothing and may have been no event: what is refused for want of memory, a line that is refused
    with BAD_PARAMETER, and a call of a closed peer. The lines go to a text stream, which stays the caller's."""

    def __init__(
        self,
        prefixes: Sequence[Octets],
        writers: Sequence[WriterConfig],
        readers: Sequence[ReaderConfig],
        number: int,
        to: TextIO,
    ):
        super().__init__(prefixes, writers, readers, number)
        self._record(to)
        ends: List[_End] = [*writers, *readers]
        for at, prefix in enumerate(prefixes, 1):
            to.write(f"peer {bytes(prefix).hex()}\n")
            to.writelines(f"{_options(it)}\n" for it in ends if it.peer == at)
        to.write(f"open {number}\nreply ok\n")

    @classmethod
    def from_text(cls, text: str, number: int, to: TextIO) -> RecordedPeer:  # type: ignore[override]
        self = super().from_text(text, number)
        self._record(to)
        to.write(f"{text}{'' if text.endswith(chr(10)) or not text else chr(10)}open {number}\nreply ok\n")
        return self

    def _record(self, to: TextIO) -> None:
        self._stream = to
        self._listeners: Set[Tuple[int, int]] = set()  # who has a recorder

    def _happens(self, line: Callable[[], str], call: Any, *arguments: Any) -> int:
        was_open = self.is_open
        code: int = call(self._at, *arguments)
        if was_open and code != Code.MEMORY and not (call is LIBRARY.cw_line and code == Code.BAD_PARAMETER):
            packets = [f"packet {to} {said.hex()}\n" for to, said in self.packets()]
            self._stream.writelines([f"{line()}\n", *packets, f"reply {self.text()}\n"])
        return code

    def add_filter(self, begins: Octets) -> int:
        with self._lock:
            number = super().add_filter(begins)
            self._stream.write(f"filter {octets(begins, 'a filter').hex() or '-'}\nreply id {number}\n")
            return number

    def set_recorder(self, kind: int, number: int, mask: int, room: int) -> List[NoticeInfo]:
        with self._lock:
            told = super().set_recorder(kind, number, mask, room)
            self._stream.write(f"listener {_entity(kind, number)} {int(mask)} {room}\n")
            self._replaced(kind, number, told)
            self._listeners.add((kind, number))
            return told

    def clear_recorder(self, kind: int, number: int) -> List[NoticeInfo]:
        with self._lock:
            told = super().clear_recorder(kind, number)
            self._stream.write(f"unlisten {_entity(kind, number)}\n")
            self._replaced(kind, number, told)
            self._listeners.discard((kind, number))
            return told

    def _replaced(self, kind: int, number: int, told: List[NoticeInfo]) -> None:
        old = " old" if (kind, number) in self._listeners else ""
        self._stream.write(f"reply ok{old}{''.join(map(_notice, told))}\n")


def _entity(kind: int, number: int) -> str:
    return "p" if kind == EntityKind.PARTICIPANT else f"{'w' if kind == EntityKind.WRITER else 'r'}{number}"


def _notice(it: NoticeInfo) -> str:
    of_status: Dict[Status, List[Any]] = {
        Status.DATA_AVAILABLE: ["data"],
        Status.LIVELINESS_CHANGED: ["changed", *it.changed],
        Status.SAMPLE_LOST: ["lost", *it.total],
    }
    if it.status in (Status.PUBLICATION_MATCHED, Status.SUBSCRIPTION_MATCHED):
        of_status[it.status] = ["matched", *it.matched[:4], _last(it)]
    words = of_status.get(it.status, ["livelost", *it.total])
    return f" [{' '.join(map(str, [_entity(it.entity_kind, it.entity_number), *words]))}]"


def _last(it: NoticeInfo) -> str:
    """The other end of the last match, `-` for none."""
    if it.matched.last is None:
        return "-"
    peer, number = it.matched.last
    return f"{peer}.{'r' if it.status == Status.PUBLICATION_MATCHED else 'w'}{number}"


def _options(end: _End) -> str:
    """A writer or a reader of a configuration, as a line of docs/PIPE.md."""
    words = ["writer" if isinstance(end, WriterConfig) else "reader", end.entity.hex()]
    words += ["exclusive" if end.is_exclusive else "shared", f"last={end.depth}" if end.keeps_last else "all"]
    words += [f"max={end.max_samples}", f"topic={end.topic}"]
    words += [f"strength={end.strength}"] if isinstance(end, WriterConfig) else [f"instances={end.max_instances}"]
    words += [f"lease={end.lease}"] if end.has_lease else []
    words += [f"values={end.max_value}"] if end.max_value not in (0, 1024) else []
    if isinstance(end, WriterConfig):
        words += ["noauto"] * (not end.autodispose)
    else:
        words += [f"arrivals={end.max_arrivals}"] * end.has_max_arrivals
    return " ".join([*words, *["besteffort"] * end.is_best_effort])
