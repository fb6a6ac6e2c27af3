"""Two peers, each in a thread of its own with a UDP socket of the loopback, and one datagram of five lost: a loop that serves a
peer, as docs/C.md explains it. The writer ends once all is acknowledged."""
import random
import select
import socket
import threading
import time

from cinchwalnut import SECOND, Peer, Timeout, ms, reader, writer

CONFIG = [bytes([1] * 12), bytes([2] * 12)], [writer(peer=1, key=1, max_samples=64)], [reader(peer=2, key=1)]
PERIOD, VALUES, KEY = ms(10), 1000, bytes([7] * 16)
START = time.monotonic()


def now() -> int:
    """The time since the start."""
    return int((time.monotonic() - START) * SECOND)


class Side:
    """A peer, its socket, and the address of the other one."""

    def __init__(self, number: int):
        self.peer = Peer(*CONFIG, number)
        self.socket = socket.socket(socket.AF_INET, socket.SOCK_DGRAM)
        self.socket.bind(("127.0.0.1", 0))
        self.socket.setblocking(False)
        self.next_tick, self.chance, self.is_acknowledged = 0, random.Random(number), False

    def send_all(self, packets) -> None:
        for _, packet in packets:
            if self.chance.randrange(5) != 0:  # one of five is lost
                self.socket.sendto(packet, self.other)

    def turn(self) -> None:
        """Waits till a datagram comes or a tick is due, and serves both."""
        select.select([self.socket], [], [], max(0, self.next_tick - now()) / SECOND)
        for _ in range(64):
            try:
                datagram = self.socket.recv(65536)
            except BlockingIOError:
                break
            self.send_all(self.peer.deliver(datagram))
        moment = now()
        if moment >= self.next_tick:
            self.next_tick = moment + PERIOD
            packets = self.peer.tick(moment)
            self.is_acknowledged = not packets  # a HEARTBEAT is due as long as something is unacknowledged
            self.send_all(packets)


def write_all(side: Side) -> None:
    number = 0
    while number < VALUES:
        try:
            side.send_all(side.peer.write(1, KEY, number.to_bytes(4, "little")))
            number += 1
        except Timeout:  # no room: once acknowledgements have come there is some
            side.turn()
            continue
        if number % 16 == 0:
            side.turn()
    side.is_acknowledged = False
    while not side.is_acknowledged:
        side.turn()


def read_all(side: Side, has_ended: threading.Event) -> None:
    came = []
    while not has_ended.is_set():
        side.turn()
        came += [int.from_bytes(value, "little") for _, value in side.peer.take(1)]
    print(f"{len(came)} values came, each in its order" if came == list(range(VALUES)) else "another order")


first, second, has_ended = Side(1), Side(2), threading.Event()
first.other, second.other = second.socket.getsockname(), first.socket.getsockname()
thread = threading.Thread(target=read_all, args=(second, has_ended))
thread.start()
write_all(first)
has_ended.set()
thread.join()
for side in (first, second):
    side.peer.close()
    side.socket.close()
