"""What the drawing of runs is tested by, where no program is needed: datagrams that docs/WIRE.md draws, small recordings,
and wrong ones. tools/pictures asks here."""
from __future__ import annotations

import json
import re
from collections.abc import Callable, Iterator

import datagrams as dg

from . import checking, config, layout, page, sessions, wire
from .events import Run
from .running import TOP

ONE, TWO = bytes(11) + b"\x01", bytes(11) + b"\x02"
WRITER, READER, KEY = b"\0\0\1\2", b"\0\0\1\7", bytes(15) + b"\1"
SETUP = f"peer {ONE.hex()}\nwriter 00000102 all\npeer {TWO.hex()}\nreader 00000107 all\n"


def packet(sender: bytes, to: bytes, *rest: bytes) -> bytes:
    return dg.header(sender) + dg.submessage(dg.INFO_DST, 0, to) + b"".join(rest)


def data(number: int, value: bytes = b"\1") -> bytes:
    return packet(ONE, TWO, dg.submessage(dg.DATA, 4, dg.data_body(dg.UNKNOWN, WRITER, number, dg.datum(KEY, value))))


def heartbeat(last: int) -> bytes:
    return packet(ONE, TWO, dg.submessage(dg.HEARTBEAT, 0, dg.UNKNOWN + WRITER + dg.number(1) + dg.number(last) + dg.count_of(1)))


def acknack(base: int, members: list[int]) -> bytes:
    return packet(TWO, ONE, dg.submessage(dg.ACKNACK, 0, READER + WRITER + dg.number_set(base, members) + dg.count_of(1)))


# The writer's peer, whose second change is lost and repaired; and the reader's.
FIRST = [SETUP + "open 1\nreply ok",
         *(f"call write w1 1 0{it}\npacket 2 {data(it, bytes([it])).hex()}\nreply ok" for it in (1, 2)),
         f"tick 7\npacket 2 {heartbeat(2).hex()}\nreply ok",
         f"deliver {acknack(2, [2]).hex()}\npacket 2 {data(2, bytes([2])).hex()}\nreply report [acked w1 2.r1 2]", ""]
SECOND = [SETUP + "open 2\nreply ok",
          f"deliver {data(1).hex()}\nreply report [place 1.w1 r1 2]",
          f"deliver {data(1).hex()}\nreply report",
          f"deliver {heartbeat(2).hex()}\npacket 1 {acknack(2, [2]).hex()}\nreply report",
          f"deliver {data(2, bytes([2])).hex()}\nreply report [place 1.w1 r1 3]",
          "call take r1\nreply samples 2 [1 01 N N A 0 0 1 0 0 0 1 1] [1 02 N N A 0 0 0 0 0 0 1 1]", ""]


def woven() -> Run:
    return sessions.run_of_sessions(sessions.read_recordings("both", "\n".join(FIRST + SECOND).replace("\n\n", "\n")))


def fault_of(act: Callable[[], object]) -> str:
    try:
        act()
    except config.Fault as fault:
        return fault.text
    return "no fault"


def names_of(octets: bytes) -> list[str]:
    return [it.name for it in wire.fields_of(octets)]


def drawings() -> Iterator[bool]:
    """What docs/WIRE.md draws is named as it names it, octet by octet."""
    text = (TOP / "docs/WIRE.md").read_text()
    dispose, asked = [dg.drawn(it) for it in re.findall(r"```text\n(52 54 50 53.*?)```", text, re.S)]
    for octets in (dispose, asked, dispose[:-3], asked + b"\1", b"RTPX", b""):
        yield sum(it.length for it in wire.fields_of(octets)) == len(octets)
    wanted = ["INFO_DST", "INFO_TS", "DATA", "readerId", "writerId", "writerSN", "PID_KEY_HASH", "PID_STATUS_INFO", "PID_SENTINEL", "key"]
    yield [it for it in names_of(dispose) if it in wanted] == wanted[:7] + ["key"] + wanted[7:]
    yield names_of(asked)[-3:] == ["readerSNState.base", "readerSNState.bits", "count"]
    yield wire.label_of(dispose) == "DATA 2 dispose" and wire.label_of(asked) == "ACKNACK below 2, asks 2"
    yield wire.label_of(heartbeat(0)) == "HEARTBEAT none, next 1" and wire.label_of(b"RTPX") == "no message"
    yield wire.runs_of([1, 2, 4, 7, 8, 9]) == "1-2, 4, 7-9"


def runs() -> Iterator[bool]:
    """Two recordings are one run, in which each packet was sent before it came."""
    run = woven()
    ways = [(it.sent, it.deliveries) for it in run.packets]
    yield all(sent is not None and all(it > sent for it in came) for sent, came in ways)
    yield [len(it) for _, it in ways] == [2, 0, 1, 1, 1]
    compared, faults = checking.check(run)
    yield compared >= 3 and not faults
    picture = layout.picture_of(run)
    styles = [it.style for it in picture.arrows]
    yield styles == ["data", "data repeated", "data lost", "heartbeat", "acknack", "data"]
    texts = [it.text for row in picture.rows for it in row.marks]
    yield "r1: place 2" in texts and "misses 2" in texts and "r1: place 3" in texts and "1: 01" in texts
    yield [it.style for it in picture.stripes] == ["alive"]
    lines = [json.loads(it) for it in page.records(picture)]
    yield [it["row"][5] for it in lines if "row" in it] == [it.reply for it in run.events]
    parts = sessions.parts_of("\n".join(FIRST + SECOND).replace("\n\n", "\n"))
    yield [it.count("\nopen ") for it, _ in parts] == [1, 1] and [it.count("reply ") for _, it in parts] == [5, 6]
    yield "<script>" in page.page(picture) and page.drawing(picture).startswith("<svg ")
    yield "</script>" not in page.line_of("</script>")


def wrong() -> Iterator[bool]:
    """Wrong recordings are refused in words."""
    first, second = "\n".join(FIRST), "\n".join(SECOND)
    def read(name: str, text: str) -> sessions.Session:
        return sessions.read_recordings(name, text)[0]

    yield fault_of(lambda: read("a", first + "call take r1\ncall take r1\n")) == "line 20: not a command"
    for line in ("peer 00", "peer 0g", "writer 00000102", "reply ok", ""):
        yield fault_of(lambda: read("a", f"{line}\n\n")) == "line 1: not a command"
    for reply in ("maybe", "samples 1 [7]", "report [place 1.w1]", "code x"):
        yield fault_of(lambda: read("a", first + f"call take r1\nreply {reply}\n")) == "line 20: not a command"
    for call, reply in (("call write", "ok"), ("deliver -", "report [place 9.w9 r1 7]"), ("resume r1", "report [place 9.w9 r1 7]"), ("call listener r1", "ok")):
        run = sessions.run_of_sessions([read("a", first + f"{call}\nreply {reply}\n")])
        yield fault_of(lambda: layout.picture_of(run)).startswith("line 19: not the reply to")
    yield fault_of(lambda: read("a", first.replace("tick 7", "tock 7"))) == "line 13: not a command"
    without = read("second", second), read("first", first.replace(data(1).hex(), data(3).hex()))
    yield fault_of(lambda: sessions.run_of_sessions(without)).startswith("draw: stuck: second, line 7")
    other = read("other", second.replace(" all", " last=2"))
    yield "another configuration" in fault_of(lambda: sessions.run_of_sessions([read("first", first), other]))
    yield "another recording" in fault_of(lambda: sessions.run_of_sessions([read("first", first), read("again", first)]))


def faults() -> list[str]:
    """Which of these are not as they should be."""
    found = {name: list(act()) for name, act in (("drawings", drawings), ("runs", runs), ("wrong", wrong))}
    return [f"{name}: the {place}. is not so" for name, right in found.items() for place, it in enumerate(right, 1) if not it]
