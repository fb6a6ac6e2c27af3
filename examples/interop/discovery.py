"""Discovery of one participant of another product, as far as an exchange needs it: SPDP and SEDP of DDSI-RTPS 2.5, 8.5.

No sockets are here: datagrams come by `take`, and `due` gives those that are to be sent. A participant is told of by SPDP,
again and again; its writers and readers by SEDP, two topics with a small reliable protocol of their own."""
import struct
from typing import NamedTuple

import messages as m

PARTICIPANTS, PUBLICATIONS, SUBSCRIPTIONS = b"\0\1\0", b"\0\0\3", b"\0\0\4"  # the keys of the builtin entities
WRITER, READER = b"\xc2", b"\xc7"
BUILTIN_ENDPOINTS = 0x3F  # an announcer and a detector of each
LEASE = struct.pack("<iI", 20, 0)
ENDLESS = struct.pack("<iI", 0x7FFFFFFF, 0xFFFFFFFF)
LEASE_DURATION, TOPIC, TYPE, VERSION, VENDOR, RELIABILITY = 0x0002, 0x0005, 0x0007, 0x0015, 0x0016, 0x001A
BEST_EFFORT, RELIABLE = 1, 2
XCDR1 = 0
LIVELINESS, DURABILITY, OWNERSHIP, DEFAULT_PLACE, BUILTIN_PLACE = 0x001B, 0x001D, 0x001F, 0x0031, 0x0032
HISTORY, PARTICIPANT_GUID, BUILTIN_SET, ENDPOINT_GUID, REPRESENTATION = 0x0040, 0x0050, 0x0058, 0x005A, 0x0073
Place = tuple[str, int]


class Topic(NamedTuple):
    name: str
    type_name: str


def place_of(locator: bytes) -> Place:
    kind, port = struct.unpack_from("<iI", locator)
    if kind != 1:
        raise ValueError("no UDP over IPv4")
    return ".".join(str(it) for it in locator[20:24]), port


def locator_of(place: Place) -> bytes:
    return struct.pack("<iI", 1, place[1]) + bytes(12) + bytes(int(it) for it in place[0].split("."))


def string(text: str) -> bytes:
    octets = text.encode() + b"\0"
    return struct.pack("<I", len(octets)) + octets


def endpoint(guid: bytes, topic: Topic) -> bytes:
    """What SEDP says of a writer or a reader: RELIABLE, VOLATILE, KEEP_ALL, SHARED, XCDR1 alone, and a liveliness without end,
    which is offered to each reader that asks for none, and asks for nothing."""
    return m.parameter_list(
        (ENDPOINT_GUID, guid),
        (PARTICIPANT_GUID, guid[:12] + b"\0\0\1\xc1"),
        (TOPIC, string(topic.name)),
        (TYPE, string(topic.type_name)),
        (RELIABILITY, struct.pack("<I", RELIABLE) + ENDLESS),
        (DURABILITY, struct.pack("<I", 0)),
        (HISTORY, struct.pack("<II", 1, 0)),
        (OWNERSHIP, struct.pack("<I", 0)),
        (LIVELINESS, struct.pack("<I", 0) + ENDLESS),
        (REPRESENTATION, struct.pack("<IH", 1, XCDR1)),
    )


class End(NamedTuple):
    """A writer or a reader of the other participant."""

    guid: bytes
    type_name: str
    is_best_effort: bool
    durability: int
    has_xcdr1: bool

    @property
    def has_key(self) -> bool:
        """Whether its type has one: the last octet of its entity id says so."""
        return self.guid[15] in (2, 7)


def text_of(string: bytes) -> str:
    return string[4:].split(b"\0")[0].decode()


def end_of(found: dict[int, bytes], reliability: bytes) -> End:
    """What SEDP says of it; the policy is that of one that says none."""
    kind = struct.unpack_from("<I", found.get(RELIABILITY, reliability))[0]
    durability, count = (struct.unpack_from("<I", found.get(it, bytes(4)))[0] for it in (DURABILITY, REPRESENTATION))
    representations = struct.unpack_from(f"<{count}h", found[REPRESENTATION], 4) if count else (XCDR1,)
    return End(found[ENDPOINT_GUID], text_of(found[TYPE]), kind == BEST_EFFORT, durability, XCDR1 in representations)


class Announced:
    """The writers, or the readers, of the other participant: what the reader of a builtin topic has. `reliability` is the
    policy of those that say none."""

    def __init__(self, key: bytes, reliability: int):
        self.key, self.reliability = key, struct.pack("<I", reliability)
        self.ends: dict[str, End] = {}  # by topic
        self.known: set[int] = set()  # the numbers that have come, or never will
        self.last = 0
        self.count = 0
        self.owes_answer = False

    def take(self, said: m.Submessage) -> None:
        if said.kind == m.DATA and (came := m.read_data(said)).writer == self.key + WRITER:
            self.known.add(came.number)
            if came.payload and not came.status:
                found = m.read_parameters(came.payload)
                self.ends[text_of(found[TOPIC])] = end_of(found, self.reliability)
        elif said.kind == m.HEARTBEAT and said.body[4:8] == self.key + WRITER:
            self.known |= set(range(1, min(said.sequence_number(8), 1 << 16)))
            self.last, self.owes_answer = min(said.sequence_number(16), 1 << 16), True
        elif said.kind == m.GAP and said.body[4:8] == self.key + WRITER:
            base, (bits,) = said.sequence_number(16), said.numbers("I", 24)
            words = said.numbers(f"{(bits + 31) // 32}I", 28)
            self.known |= set(range(said.sequence_number(8), min(base, 1 << 16)))
            self.known |= {base + at for at in range(bits) if words[at // 32] >> (31 - at % 32) & 1}

    def due(self) -> list[bytes]:
        if not self.owes_answer:
            return []
        missing = [it for it in range(1, self.last + 1) if it not in self.known]
        self.count, self.owes_answer = self.count + 1, False
        return [m.acknack(self.key + READER, self.key + WRITER, min(missing, default=self.last + 1), missing, self.count)]


class Announcing:
    """Our writers, or our readers: what the writer of a builtin topic has. Until all is acknowledged, all is sent again."""

    def __init__(self, key: bytes):
        self.key = key
        self.payloads: list[bytes] = []
        self.acknowledged = 0
        self.count = 0

    def take(self, said: m.Submessage) -> None:
        if said.kind == m.ACKNACK and said.body[4:8] == self.key + WRITER:
            self.acknowledged = said.sequence_number(8) - 1

    def is_known(self) -> bool:
        return bool(self.payloads) and self.acknowledged >= len(self.payloads)

    def due(self) -> list[bytes]:
        if self.acknowledged >= len(self.payloads):
            return []
        self.count += 1
        own, other = self.key + WRITER, self.key + READER
        said = [m.data(other, own, at, payload) for at, payload in enumerate(self.payloads, 1)]
        return [*said, m.heartbeat(other, own, 1, len(said), self.count)]


class Discovery:
    """We are `prefix`, at a place for discovery and one for all else."""

    def __init__(self, prefix: bytes, builtin_place: Place, default_place: Place):
        self.prefix, self.places = prefix, (builtin_place, default_place)
        self.other: bytes | None = None  # the prefix of the participant that was found
        self.other_places: tuple[Place, Place] | None = None
        self.has_left = False
        self.writers, self.readers = Announced(PUBLICATIONS, RELIABLE), Announced(SUBSCRIPTIONS, BEST_EFFORT)
        self.own_writers, self.own_readers = Announcing(PUBLICATIONS), Announcing(SUBSCRIPTIONS)

    def announce(self) -> bytes:
        """The SPDP message of our participant."""
        said = m.parameter_list(
            (VERSION, bytes([2, 5])),
            (VENDOR, bytes(2)),
            (PARTICIPANT_GUID, self.prefix + b"\0\0\1\xc1"),
            (BUILTIN_SET, struct.pack("<I", BUILTIN_ENDPOINTS)),
            (LEASE_DURATION, LEASE),
            (BUILTIN_PLACE, locator_of(self.places[0])),
            (DEFAULT_PLACE, locator_of(self.places[1])),
        )
        return m.message(self.prefix, None, m.data(PARTICIPANTS + READER, PARTICIPANTS + WRITER, 1, said))

    def add_writer(self, entity: bytes, topic: Topic) -> None:
        self.own_writers.payloads.append(endpoint(self.prefix + entity, topic))

    def add_reader(self, entity: bytes, topic: Topic) -> None:
        self.own_readers.payloads.append(endpoint(self.prefix + entity, topic))

    def take(self, datagram: bytes) -> None:
        """A datagram came at the place for discovery; what is none of its messages changes nothing."""
        prefix = m.prefix_of(datagram)
        if prefix in (None, self.prefix) or not m.is_for(datagram, self.prefix):
            return
        for said in m.submessages(datagram):
            try:
                self._take(prefix, said)
            except (struct.error, IndexError, KeyError, ValueError):
                pass  # it is cut, or says what we know nothing of

    def _take(self, prefix: bytes, said: m.Submessage) -> None:
        if said.kind == m.DATA and (came := m.read_data(said)).writer == PARTICIPANTS + WRITER:
            self._take_participant(prefix, came)
        elif prefix == self.other:
            for it in (self.writers, self.readers, self.own_writers, self.own_readers):
                it.take(said)

    def _take_participant(self, prefix: bytes, came: m.Data) -> None:
        if came.status:
            self.has_left |= prefix == self.other
        elif self.other is None and came.payload:
            found = m.read_parameters(came.payload)
            self.other_places = (place_of(found[BUILTIN_PLACE]), place_of(found[DEFAULT_PLACE]))
            self.other = prefix

    def due(self) -> list[bytes]:
        """The messages that are to be sent to the participant's place for discovery: some ten times a second."""
        said = [it.due() for it in (self.writers, self.readers, self.own_writers, self.own_readers)]
        return [m.message(self.prefix, self.other, *it) for it in said if it]
