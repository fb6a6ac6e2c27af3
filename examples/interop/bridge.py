"""bridge.py DOMAIN TYPE CHANGES COUNT: one peer of dds_c before a participant of another product, over UDP on the loopback.

It is not proved: it finds the participant, opens the peer with the writer and the reader that it found, and from then on
carries octets, which the adapter turns between the TYPE of the topics (values.py) and what the peer reads. CHANGES is a file of
lines "write KEY VALUE", "dispose KEY" and "unregister KEY", which our writer makes, one a turn. COUNT is how many changes the
product's writer makes, from its start on. With an empty CHANGES the product needs no reader, with a COUNT of 0 no writer.

What our reader takes is printed: a write with its counts of disposed and no-writers generations and the handle of its instance.
It ends once all of both has come, and then prints the last state of each instance; a misfit ends it at once. Until both
have met it says every three seconds what it waits for."""
import argparse
import os
import pathlib
import random
import re
import select
import socket
import struct
import sys
import time
from typing import NamedTuple

sys.path.append(str(pathlib.Path(__file__).resolve().parents[2] / "python"))
import messages as m

try:
    from cinchwalnut import Adapter, Carries, Peer, SampleInfo, WriterKind, reader, writer
except ImportError as error:
    sys.exit(f"bridge.py: {error}: is PYTHONPATH=PREFIX/lib/python of `tools/install PREFIX`?")
from discovery import Discovery, End, Place, Topic
from values import TYPES

# The last octets of entity ids: those of types without a key, and those that a peer has
WITH_KEY = {3: 2, 4: 7}
BUILTIN, USER, GROUP = 0, 1, 2  # the sockets: for discovery, for all else, and for what is announced to everybody
HERE, EVERYBODY = "127.0.0.1", "239.255.0.1"
TICK, GREETING, ANNOUNCEMENT, DISCOVERY, SETTLING, COMPLAINT = 0.02, 0.1, 0.5, 0.1, 0.5, 3.0  # seconds
STATES = {1: "alive", 2: "disposed", 4: "no_writers"}
GONE = {2: "dispose", 4: "unregister"}
COMPLETE = "complete"
PLACE = re.compile(r"place 2\.w1 r1 (\d+)")


def port_of(domain: int, participant: int, socket_number: int) -> int:
    """RTPS 2.5, 9.6.2."""
    return group_port_of(domain) + 10 + 2 * participant + socket_number


def group_port_of(domain: int) -> int:
    return 7400 + 250 * domain


class Network:
    """Three sockets, and a network that loses so many datagrams of a hundred, each way."""

    def __init__(self, domain: int, drop: int, seed: int):
        self.random, self.drop, self.carried, self.lost = random.Random(seed), drop, 0, 0
        self.places: list[Place] = [(HERE, port_of(domain, 1, it)) for it in (BUILTIN, USER)]
        self.places.append((EVERYBODY, group_port_of(domain)))
        self.sockets = [socket.socket(socket.AF_INET, socket.SOCK_DGRAM) for _ in self.places]
        self.join()
        for it, place in zip(self.sockets, self.places):
            it.bind(place)

    def join(self) -> None:
        """A participant that was told of no other one announces itself to a group alone, and others hear that beside us."""
        here = socket.inet_aton(HERE)
        self.sockets[GROUP].setsockopt(socket.SOL_SOCKET, socket.SO_REUSEADDR, 1)
        self.sockets[GROUP].setsockopt(socket.IPPROTO_IP, socket.IP_ADD_MEMBERSHIP, socket.inet_aton(EVERYBODY) + here)
        self.sockets[BUILTIN].setsockopt(socket.IPPROTO_IP, socket.IP_MULTICAST_IF, here)

    def is_lost(self) -> bool:
        is_lost = self.random.randrange(100) < self.drop
        self.lost, self.carried = self.lost + is_lost, self.carried + (not is_lost)
        return is_lost

    def send(self, which: int, datagram: bytes, place: Place) -> None:
        if not self.is_lost():
            self.sockets[which].sendto(datagram, place)

    def receive(self, seconds: float) -> list[tuple[int, bytes]]:
        """What has come, of each socket one at most; where nothing has, it waits so long."""
        ready = select.select(self.sockets, [], [], seconds)[0]
        came = [(which, it.recv(65536)) for which, it in enumerate(self.sockets) if it in ready]
        return [it for it in came if not self.is_lost()]


class Timer:
    """Says when it is time again."""

    def __init__(self, seconds: float):
        self.seconds, self.next = seconds, 0.0

    def is_due(self) -> bool:
        now = time.monotonic()
        if now < self.next:
            return False
        self.next = now + self.seconds
        return True


class Change(NamedTuple):
    """What our writer does; only a write has a payload."""

    kind: str
    key: bytes
    payload: bytes


def change_of(line: str, of_type) -> Change:
    """ValueError where the line says none."""
    kind, key, value = [*line.split(None, 2), "", ""][:3]
    if kind not in ("write", *GONE.values()):
        raise ValueError(f"{kind!r} is not write, {' or '.join(GONE.values())}")
    return Change(kind, of_type.key(key), of_type.payload(key, value) if kind == "write" else b"")


def changes_of(path: pathlib.Path, of_type) -> list[Change]:
    found = []
    for number, line in enumerate(path.read_text().splitlines(), 1):
        try:
            found += [change_of(line, of_type)] if line.strip() else []
        except (ValueError, struct.error) as error:
            sys.exit(f"bridge.py: {path}:{number}: {error}")
    return found


class Bridge:
    def __init__(self, network: Network, options, changes: list[Change]):
        self.network, self.type, self.max_value = network, TYPES[options.type], options.values
        self.changes, self.count, self.made = changes, options.count, 0
        self.domain, self.to_product, self.from_product = options.domain, options.to_topic, options.from_topic
        self.prefix = bytes([0, 0]) + os.urandom(10)  # a new one each time: a product forgets none that has left at once
        self.discovery = Discovery(self.prefix, *network.places[:GROUP])
        self.announcement, self.discovering = Timer(ANNOUNCEMENT), Timer(DISCOVERY)
        self.greeting, self.tick, self.complaint = Timer(GREETING), Timer(TICK), Timer(COMPLAINT)
        self.complaint.is_due()  # not at once
        self.start = self.told = time.monotonic()
        self.peer: Peer | None = None  # until a participant is found
        self.is_answered = self.is_acknowledged = self.is_best_effort = False
        self.place, self.states = 1, {}
        self.with_key = WITH_KEY if self.type.carries == Carries.KEYLESS else {}
        self.without_key = {new: old for old, new in self.with_key.items()}
        self.own_writer, self.own_reader = (bytes([0, 0, 1, self.without_key.get(it, it)]) for it in (2, 7))

    def discover(self, first: Place) -> None:
        """One turn of discovery; `first` is where a participant is told of us that we know nothing of."""
        if self.announcement.is_due():
            for place in (first, self.network.places[GROUP]):
                self.network.send(BUILTIN, self.discovery.announce(), place)
        if self.discovery.other_places and self.discovering.is_due():
            for datagram in self.discovery.due():
                self.network.send(BUILTIN, datagram, self.discovery.other_places[BUILTIN])

    def needed(self) -> list[tuple[str, str, dict[str, End]]]:
        """The ends that the product needs, each as a word and a topic, and its ends of that sort."""
        its_writer = ("writer", self.from_product, self.discovery.writers.ends)
        its_reader = ("reader", self.to_product, self.discovery.readers.ends)
        return [its_writer] * (self.count > 0) + [its_reader] * bool(self.changes)

    def is_found(self) -> bool:
        return all(topic in ends for _, topic, ends in self.needed())

    def open(self) -> None:
        """Opens the peer, with what was found; only then our writer and our reader are announced."""
        prefixes, writers, readers = [self.prefix, self.discovery.other], [], []
        for sort, topic, ends in self.needed():
            end = ends[topic]
            if sort == "writer":
                writers.append(self.configured(writer, 2, end.guid[12:], 1, autodispose=False))
                readers.append(self.configured(reader, 1, self.own_reader, 1))
                self.discovery.add_reader(self.own_reader, Topic(topic, self.type.name))
            else:
                self.other_reader, self.is_best_effort = end.guid[12:], end.is_best_effort
                writers.append(self.configured(writer, 1, self.own_writer, 0, autodispose=False))
                readers.append(self.configured(reader, 2, self.other_reader, 0, is_best_effort=self.is_best_effort))
                self.discovery.add_writer(self.own_writer, Topic(topic, self.type.name))
        self.peer = Peer(prefixes, writers, readers, 1)
        kinds = [WriterKind(prefixes[it.peer - 1], it.entity, self.type.carries, self.type.fields, self.max_value) for it in writers]
        self.adapter = Adapter(kinds, gaps=True)  # what could not be read would be asked for without an end

    def configured(self, end, peer: int, entity: bytes, topic: int, **policies):
        return end(peer, int.from_bytes(entity[:3], "big"), topic=topic, max_value=self.max_value, **policies)

    def misfit(self) -> str | None:
        """Why the product matches no end of ours, as far as its announcements say."""
        has_key, of_key = self.type.carries != Carries.KEYLESS, {True: "with a key", False: "without a key"}
        for sort, topic, ends in self.needed():
            if (end := ends.get(topic)) is None:
                continue
            said = [
                (end.type_name != self.type.name, f"has type {end.type_name}, and ours {self.type.name}"),
                (end.has_key != has_key, f"has a type {of_key[end.has_key]}, and ours is {of_key[has_key]}"),
                (not end.has_xcdr1, "has not XCDR1 among its representations"),
                (sort == "writer" and end.is_best_effort, "is BEST_EFFORT, and our reader RELIABLE"),
                (sort == "reader" and end.durability > 0, "asks for a DURABILITY above VOLATILE, which our writer has"),
            ]
            for is_so, why in said:
                if is_so:
                    return f"its {sort} of {topic} {why}"
        return None

    def awaited(self) -> str:
        """What has not come yet."""
        if self.discovery.other is None:
            return f"a participant of domain {self.domain} on {HERE}"
        for sort, topic, ends in self.needed():
            if topic not in ends:
                return f"a {sort} of {topic}; the participant that was found first has {sort}s of {', '.join(sorted(ends)) or 'nothing'}"
        if not self.is_met():
            return f"an answer of its reader of {self.to_product}"
        came = f"{self.place - 1} of {self.count} changes came"
        return f"{came}, {self.made} of {len(self.changes)} were written{'' if self.is_acknowledged else ' and not all acknowledged'}"

    def send(self, packets: list[tuple[int, bytes]]) -> None:
        for _, packet in packets:
            said = m.with_kinds(self.adapter.outward(packet), self.without_key)
            self.network.send(USER, said, self.discovery.other_places[USER])

    def greet(self) -> None:
        """A reader that is VOLATILE begins where the first HEARTBEAT that it hears ends: so it hears one of no changes, and
        until it has answered nothing is written."""
        said = m.heartbeat(self.other_reader, self.own_writer, 1, 0, 0)
        self.send([(2, m.message(self.prefix, self.discovery.other, said))])

    def is_met(self) -> bool:
        """Whether the product's reader has begun, where it needs one. One that is BEST_EFFORT answers nothing: then it shows by
        what the product writes, which it does once it has found both our ends; where it needs no writer, a while after it was
        told of ours."""
        if not self.changes:
            return True
        if not self.is_best_effort:
            return self.is_answered
        if self.count:
            return self.place > 1
        if not self.discovery.own_writers.is_known():
            self.told = time.monotonic()
        return time.monotonic() > self.told + SETTLING

    def change(self) -> None:
        """Makes the next one."""
        kind, key, payload = self.changes[self.made]
        self.send(self.peer.write(1, key, payload) if kind == "write" else getattr(self.peer, kind)(1, key))
        self.made, self.is_acknowledged = self.made + 1, False

    def deliver(self, datagram: bytes) -> None:
        if m.prefix_of(datagram) != self.discovery.other:
            return
        self.is_answered |= any(self.answers(it) for it in m.submessages(datagram))
        turned = self.adapter.inward(m.with_kinds(datagram, self.with_key))
        if turned is None:
            return  # it would be too long, and is as one that was lost
        self.send(self.peer.deliver(turned))
        self.place = max([self.place, *(int(it) for it in PLACE.findall(self.peer.text()))])
        for info, value in self.peer.take(1) if self.count else ():
            self.print_taken(info, value)

    def answers(self, said: m.Submessage) -> bool:
        """Whether a reader answers our HEARTBEAT: before it has heard one it may say an ACKNACK of count 0."""
        return said.kind == m.ACKNACK and said.body[4:8] == self.own_writer and said.body[-4:] != bytes(4)

    def print_taken(self, info: SampleInfo, value: bytes) -> None:
        key = self.type.key_word(info.key)
        self.states[key] = STATES[info.instance_state]
        if info.valid_data:
            counts = f"{info.disposed_generation_count} {info.no_writers_generation_count}"
            print("write", key, self.word(value), counts, info.instance_handle, flush=True)
        else:
            print(GONE.get(info.instance_state, "replaced"), key, flush=True)

    def word(self, value: bytes) -> str:
        try:
            return self.type.word(value)
        except (ValueError, struct.error) as error:
            sys.exit(f"bridge.py: a value is none of {self.type.name} as values.py has it: {error}: {value.hex()}")

    def turn(self) -> None:
        """Goes on with all that is due, and takes what has come."""
        if self.tick.is_due():
            packets = self.peer.tick(int((time.monotonic() - self.start) * (1 << 32)))
            self.is_acknowledged = not packets  # a HEARTBEAT where the reader is behind, and none else
            self.send(packets)
        if not self.is_met() and self.greeting.is_due():
            self.greet()

    def receive(self, seconds: float) -> None:
        for which, datagram in self.network.receive(seconds):
            if which != USER:
                self.discovery.take(datagram)
            elif self.peer:
                self.deliver(datagram)

    def run(self, first: Place, seconds: float) -> str:
        """How it ended: complete where all that both writers made came."""
        while time.monotonic() < self.start + seconds:
            self.discover(first)
            self.receive(0.002)
            if self.discovery.has_left:
                return f"the participant left; awaited: {self.awaited()}"
            if why := self.misfit():
                return f"no match: {why}"
            if not (self.peer and self.is_met()) and self.complaint.is_due():
                print(f"bridge.py: awaited: {self.awaited()}", file=sys.stderr)
            if self.peer is None:
                if self.is_found():
                    self.open()
                continue
            self.turn()
            if self.is_met() and self.made < len(self.changes):
                self.change()
            elif self.made == len(self.changes) and self.is_acknowledged and self.place > self.count:
                return COMPLETE
        return f"not all came in time; awaited: {self.awaited()}"


def main() -> int:
    parser = argparse.ArgumentParser(description=__doc__, formatter_class=argparse.RawDescriptionHelpFormatter)
    parser.add_argument("domain", type=int)
    parser.add_argument("type", choices=TYPES)
    parser.add_argument("changes", type=pathlib.Path)
    parser.add_argument("count", type=int)
    parser.add_argument("--to", dest="to_topic", default="to_product", metavar="TOPIC", help="of our writer (default: to_product)")
    parser.add_argument("--from", dest="from_topic", default="from_product", metavar="TOPIC", help="of our reader (default: from_product)")
    parser.add_argument("--drop", type=int, default=0, metavar="PERCENT", help="loses so many datagrams of a hundred, both ways")
    parser.add_argument("--seed", type=int, default=1, help="of what is lost")
    parser.add_argument("--values", type=int, default=1024, metavar="OCTETS", help="how many a value has at most")
    parser.add_argument("--seconds", type=float, default=60, help="gives up then")
    options = parser.parse_args()
    changes = changes_of(options.changes, TYPES[options.type])
    if not changes and not options.count:
        parser.error("no changes, and a COUNT of 0")
    network = Network(options.domain, options.drop, options.seed)
    bridge = Bridge(network, options, changes)
    ended = bridge.run((HERE, port_of(options.domain, 0, BUILTIN)), options.seconds)
    for key, state in sorted(bridge.states.items()):
        print("state", key, state)
    if bridge.peer and options.count:
        print("reply", bridge.peer.line("call lost r1"))
    print("datagrams", network.carried, network.lost)
    print(ended)
    return 0 if ended == COMPLETE else 1


if __name__ == "__main__":
    sys.exit(main())
