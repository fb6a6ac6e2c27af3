"""Sessions of `dds_pipe`, with their answers: one that the program answers, a recording that has its answers in it, or
several recordings of peers of one configuration, which are woven into one order."""
from __future__ import annotations

import bisect
import dataclasses
import re
from collections.abc import Sequence

from kinds import Kinds, kind_of, turned

from . import wire
from .config import Config, Fault, Setup
from .events import Event, Run
from .scripts import Ask, plain

PACKET = re.compile(r"packet (\d+) ((?:[0-9a-fA-F]{2})+)")
COUNTS = r"(?:lost|livelost) \d+ \d+|changed \d+ \d+ -?\d+ -?\d+ \d+|matched \d+ \d+ \d+ -?\d+ (?:-|\d+\.[wr]\d+)"
SAMPLE = r"\[[0-9a-f]{1,32} (?:-|!|(?:[0-9a-f]{2})+) [NR] [NO] [ADW](?: \d+){8}\]"
MOVE = r"\[(?:place \d+\.w\d+ r\d+ \d+(?: lost \d+-\d+)*|acked w\d+ \d+\.r\d+ \d+|heard \d+\.w\d+ r\d+|begun \d+\.w\d+ r\d+ \d+ \d+|strange w\d+ \d+\.r\d+)\]"
CONDITION = r"(?:\d+|s:(?:p|[wr]\d+))"
REPLY = re.compile(
    rf"(?:ok(?: old(?: \[[rw]\d+ (?:data|{COUNTS})\])*)?|code \d+|samples \d+(?: {SAMPLE})+|key [0-9a-f]{{1,32}}|handle \d+|{COUNTS}"
    rf"|id \d+|true|false|(?:conditions|active)(?: {CONDITION})*|waiting|flags \d+|report(?: {MOVE})*(?: nomem \d+)?)(?: unsent \d+)?")
EVENTS = re.compile(r"(?:call [a-z]|filter |listener |unlisten |tick \d|resume r\d|deliver (?:(?:[0-9a-fA-F]{2})+|-)$)")


@dataclasses.dataclass
class Entry:
    """An event line with what answers it: packets, and a reply where there is one."""

    line: int
    text: str
    kinds: Kinds = dataclasses.field(default_factory=dict)  # what the topics of writers carry then
    packets: list[tuple[int, bytes]] = dataclasses.field(default_factory=list)
    reply: str = ""

    @property
    def datagram(self) -> bytes | None:
        """The octets that it delivers, or none."""
        word, _, octets = self.text.partition(" ")
        return bytes.fromhex(octets.replace("-", "")) if word == "deliver" else None


@dataclasses.dataclass
class Session:
    """One peer of a configuration, and what it was asked and answered."""

    name: str
    config: Config
    own: int = 0
    entries: list[Entry] = dataclasses.field(default_factory=list)
    fault: str = ""
    status: int = 0
    output: str = ""  # what the program printed


def is_recording(text: str) -> bool:
    return re.search(r"^reply ", text, re.M) is not None


def is_session(text: str) -> bool:
    """Whether a peer has octets, which it has not in a script."""
    return re.search(r"^peer [0-9a-fA-F]{24}$", text, re.M) is not None


class Reader:
    """Lines of docs/PIPE.md that are read one by one, answers among them."""

    def __init__(self, name: str):
        self.name, self.setup = name, Setup()
        self.session: Session | None = None
        self.kinds: Kinds = {}
        self.is_answered = True

    def take(self, number: int, line: str) -> bool:
        """Whether a line is one of a recording at this place; it is then taken up."""
        if self.is_answered and self.take_kind(line):
            return True
        if self.session is None:
            return self.setup.take(line.split(" ")) or self.open(line)
        if line.startswith("reply ") and REPLY.fullmatch(line, 6) and not self.is_answered:
            self.is_answered = True
            if self.session.entries:
                self.session.entries[-1].reply = line[6:]
            elif line != "reply ok":
                self.session.own = 0
            return True
        packet = PACKET.fullmatch(line)
        if packet and not self.is_answered and self.session.entries:
            self.session.entries[-1].packets.append((int(packet[1]), bytes.fromhex(packet[2])))
            return True
        if EVENTS.match(line) and self.is_answered and self.session.own:
            self.session.entries.append(Entry(number, line, self.kinds))
            self.is_answered = False
            return True
        return False

    def take_kind(self, line: str) -> bool:
        """Whether a line says what the topic of a writer carries, unless the peer was refused; nothing answers it."""
        found = kind_of(line) if self.session is None or self.session.own else None
        if found:
            self.kinds = {**self.kinds, found[0]: found[1]}
        return found is not None

    def open(self, line: str) -> bool:
        found = re.fullmatch(r"open (\d+)", line)
        if found:
            config = self.setup.config()
            self.session = Session(self.name, config, int(found[1]) if int(found[1]) in config.peers else 0)
            self.is_answered = False
        return found is not None


def read_recordings(name: str, text: str) -> list[Session]:
    """The recordings of a file: a peer's configuration behind events begins another one. A last line that has no answer,
    as where a program was stopped, stands without one."""
    readers = [Reader(name)]
    for number, line in enumerate(text.split("\n"), 1):
        if line.startswith("peer ") and readers[-1].session:
            readers.append(Reader(f"{name}, its {len(readers) + 1}."))
        is_end = not line and number == text.count("\n") + 1
        if not is_end and not readers[-1].take(number, line):
            raise Fault(f"line {number}: not a command")
    return [it.session or Session(it.name, it.setup.config()) for it in readers]


def parts_of(text: str) -> list[tuple[str, str]]:
    """For each recording of a file the lines that `dds_pipe` is asked, for it to be played again, and those of its answers."""
    found: list[tuple[str, str]] = []
    for part in re.split(r"(?<=\n)(?=peer )", text):
        asked = "".join(it for it in part.splitlines(True) if not it.startswith(("packet ", "reply ")))
        answers = "".join(it for it in part.splitlines(True) if it.startswith(("packet ", "reply ")))
        is_begun = found and not re.search(r"^open ", found[-1][0], re.M)
        found.append((found.pop()[0] + asked, answers) if is_begun else (asked, answers))
    return found


def ask_session(name: str, text: bytes, ask: Ask) -> Session:
    """A session that the program answers: its lines and the answers, as a recording has them."""
    (ran,) = ask("pipe", [text])
    answers, lines, reader = iter(ran.output.split("\n")[:-1]), text.decode(errors="replace").split("\n"), Reader(name)
    for number, line in enumerate(lines, 1):
        if not reader.take(number, line):
            break
        if reader.session is None or line.startswith("kind "):
            continue
        for answer in answers:
            reader.take(number, answer)
            if answer.startswith("reply "):
                break
        else:
            if reader.session.entries and not reader.is_answered:
                reader.session.entries.pop()  # the line that is no command
            break
    session = reader.session or Session(name, Config((), ()))
    session.fault, session.status, session.output = ran.errors, ran.status, ran.output
    return session


class Weaving:
    """Entries of several peers that are put into one order, in which each packet was sent before it came."""

    def __init__(self, run: Run, sessions: Sequence[Session]):
        self.run, self.sessions = run, sessions
        self.next = [0] * len(sessions)
        self.comes = [[at for at, entry in enumerate(it.entries) if entry.datagram is not None] for it in sessions]
        self.owns = {it.own for it in sessions}
        self.known: dict[tuple[int, bytes], list[int]] = {}  # packets by their sender and octets

    def entry(self, place: int) -> Entry | None:
        entries = self.sessions[place].entries
        return entries[self.next[place]] if self.next[place] < len(entries) else None

    def sender(self, octets: bytes) -> int:
        return self.run.config.peer_of(octets[8:20]) or 0 if wire.is_message(octets) else 0

    def is_sent(self, octets: bytes) -> bool:
        """Whether a datagram that comes was sent already, or is from a peer that is not recorded."""
        sender = self.sender(octets)
        return (sender, octets) in self.known or sender not in self.owns or len(self.owns) == 1

    def is_ready(self, place: int) -> bool:
        """Whether the next datagram that comes in a session was sent already: then what stands before it has happened."""
        comes, entries = self.comes[place], self.sessions[place].entries
        at = bisect.bisect_left(comes, self.next[place])
        return at < len(comes) and self.is_sent(entries[comes[at]].datagram or b"")

    def weave(self) -> None:
        """What leads to a datagram that was sent goes first; then calls and ticks, of the first session that has one."""
        places = range(len(self.sessions))
        while any(self.entry(it) for it in places):
            ready = [it for it in places if self.is_ready(it)]
            others = [it for it in places if (entry := self.entry(it)) and entry.datagram is None]
            if not ready and not others:
                stuck = next(it for it in places if self.entry(it))
                line = self.sessions[stuck].entries[self.next[stuck]].line
                raise Fault(f"draw: stuck: {self.sessions[stuck].name}, line {line}: a packet came that no peer had sent")
            self.take((ready or others)[0])

    def take(self, place: int) -> None:
        session, entry, at = self.sessions[place], self.entry(place), len(self.run.events)
        self.next[place] += 1
        words = [plain(it) for it in entry.text.split(" ")]
        octets, brought = entry.datagram, None
        if octets is not None:
            brought = self.bring(octets, session.own, at, turned(entry.kinds, octets))
            words = ["deliver"]
        event = Event(entry.line, words[1:] if words[0] == "call" else words, session.own, entry.reply, [], brought)
        event.source = entry.text
        for to, sent in entry.packets:
            is_watched = to in self.owns and len(self.owns) > 1 or to == session.own
            number = self.run.send(at, session.own, to, sent, is_watched, turned(entry.kinds, sent))
            event.sent.append(number)
            self.known.setdefault((session.own, sent), []).append(number)
        self.run.events.append(event)

    def bring(self, octets: bytes, to: int, at: int, read: bytes) -> int:
        """The packet that a delivery brings: the last of these octets that has not come, or else the last one that was read so."""
        same = self.known.setdefault((self.sender(octets), octets), [])
        known = [it for it in same if not self.run.packet(it).deliveries] or [it for it in same if self.run.packet(it).read == read]
        if not known:
            known = [self.run.send(at, self.sender(octets), to, octets)]
            self.run.packet(known[0]).sent = None
            same.append(known[0])
        packet = self.run.packet(known[-1])
        packet.read = read
        packet.deliveries.append(at)
        return packet.number


def run_of_sessions(sessions: Sequence[Session]) -> Run:
    """One run of the sessions of one peer or of several."""
    first = sessions[0]
    for it in sessions[1:]:
        if it.config != first.config:
            raise Fault(f"draw: {it.name} is of another configuration than {first.name}")
        if [other.own for other in sessions].count(it.own) > 1:
            raise Fault(f"draw: {it.name} is of a peer that another recording is of")
    files = ", ".join(dict.fromkeys(it.name.partition(",")[0] for it in sessions))
    whose = f"peer{'s' * (len(sessions) > 1)} {' and '.join(str(it.own) for it in sessions)}"
    run = Run(f"{files}: what {whose} did", first.config, fault=first.fault, status=first.status, output=first.output)
    Weaving(run, sessions).weave()
    return run
