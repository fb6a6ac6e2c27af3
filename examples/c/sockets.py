"""Two peers of one process, each behind a socket of the loopback. Each has a writer, whose topic the other one's reader has."""
import select
import socket

from cinchwalnut import Peer, ms, reader, writer

CONFIG = (
    [bytes([1] * 12), bytes([2] * 12)],
    [writer(peer=1, key=1, topic=1), writer(peer=2, key=1, topic=2)],
    [reader(peer=1, key=1, topic=2), reader(peer=2, key=1, topic=1)],
)


def bound() -> socket.socket:
    made = socket.socket(socket.AF_INET, socket.SOCK_DGRAM)
    made.bind(("127.0.0.1", 0))
    return made


def turn(peer: Peer, sock: socket.socket, other: tuple, now: int) -> list:
    """One turn of a peer behind a socket, and what its reader 1 then gives."""
    if select.select([sock], [], [], 0.001)[0]:  # a datagram came, within a millisecond
        for _, packet in peer.deliver(sock.recv(65536)):  # an event: what came, whatever it is
            sock.sendto(packet, other)  # what it gave
    for _, packet in peer.tick(now):  # an event: the time since the opening
        sock.sendto(packet, other)  # HEARTBEATs
    return peer.take(1)  # an event: a call


with Peer(*CONFIG, 1) as first, Peer(*CONFIG, 2) as second, bound() as near, bound() as far:
    for peer, sock, other, value in ((first, near, far, b"from the first"), (second, far, near, b"from the second")):
        for _, packet in peer.write(1, bytes(16), value):
            sock.sendto(packet, other.getsockname())
    at_first, at_second = [], []
    for number in range(1000):
        if at_first and at_second:
            break
        at_first += turn(first, near, far.getsockname(), number * ms(10))  # of a clock that this program makes up
        at_second += turn(second, far, near.getsockname(), number * ms(10))
    print(*(f"the {name} took: {value.decode()}" for name, came in (("first", at_first), ("second", at_second)) for _, value in came), sep="\n")
