"""other_types.c in Python: a type of the application's own, with a key, between two peers."""
import struct

from cinchwalnut import Adapter, BadParameter, Carries, KeyField, Peer, WriterKind, reader, writer

PREFIXES = [bytes([1]) + bytes(11), bytes([2]) + bytes(11)]
CONFIG = PREFIXES, [writer(peer=1, key=1)], [reader(peer=2, key=1)]
KIND = WriterKind(PREFIXES[0], bytes([0, 0, 1, 2]), Carries.CDR, [KeyField(place=0, size=4)])


def reading(sensor: int, value: float) -> bytes:
    return bytes([0, 1, 0, 0]) + struct.pack("<ixxxxd", sensor, value)


adapter = Adapter([KIND], gaps=True)
with Peer(*CONFIG, 1) as first, Peer(*CONFIG, 2) as second:
    for _, packet in first.write(1, struct.pack(">i", 7) + bytes(12), reading(7, 1.5)):
        wire = adapter.outward(packet)
        print("on the wire:", wire[-20:].hex())
        second.deliver(adapter.inward(wire))
    for info, value in second.take(1):
        print("key:", info.key.hex())
        print("value:", *struct.unpack("<ixxxxd", value[4:]))
print("no datagram stays:", adapter.inward(b"") == b"")
try:
    Adapter([WriterKind(PREFIXES[0], bytes([0, 0, 1, 2]), Carries.CDR)])
except BadParameter:
    print("a kind without its fields: BadParameter")
