"""Two peers in one process: of three changes the second is lost, and repaired."""
from cinchwalnut import Peer, reader, writer

CONFIG = [bytes([1] * 12), bytes([2] * 12)], [writer(peer=1, key=1)], [reader(peer=2, key=1)]
KEY = bytes([7] * 16)

with Peer(*CONFIG, 1) as first, Peer(*CONFIG, 2) as second:
    for value in (b"one", b"two", b"three"):
        for _, packet in first.write(1, KEY, value):
            if value != b"two":
                second.deliver(packet)
    for _, heartbeat in first.tick(1 << 32):
        for _, acknack in second.deliver(heartbeat):
            for _, repair in first.deliver(acknack):
                second.deliver(repair)
    for info, value in second.take(1):
        print(f"{value.decode()}, rank {info.sample_rank}")
    print(second.line("call lost r1"))
