"""Two peers that are recorded: of three changes the second is lost on its way, and repaired; the third finds room once these
are taken, and the value of a fourth is longer than 1,024 octets. Then both ends part, and are matched again. What is
printed are the recordings of both, one after the other: dds_pipe answers each the same, and tools/draw draws both as one
run."""
import contextlib
import io

from cinchwalnut import BadParameter, EntityKind, PreconditionNotMet, RecordedPeer, Status, reader, writer

PREFIXES, LONGEST = [bytes([1] * 12), bytes([2] * 12)], bytes([1] * 1100)
CONFIG = PREFIXES, [writer(peer=1, key=1, max_value=1100)], [reader(peer=2, key=1, max_samples=2, max_value=1100)]
KEY, FIRST, SECOND = bytes([7] * 16), io.StringIO(), io.StringIO()

with RecordedPeer(*CONFIG, 1, FIRST) as first, RecordedPeer(*CONFIG, 2, SECOND) as second:
    first.set_recorder(EntityKind.WRITER, 1, Status.PUBLICATION_MATCHED, 4)
    second.set_recorder(EntityKind.READER, 1, Status.SUBSCRIPTION_MATCHED, 4)
    for value in (b"one", b"two", b"three"):
        for _, packet in first.write(1, KEY, value):
            if value != b"two":
                second.deliver(packet)
    for _, heartbeat in first.tick(1 << 32):
        for _, acknack in second.deliver(heartbeat):
            for _, repair in first.deliver(acknack):
                second.deliver(repair)
    second.take(1)
    second.resume(1)
    second.take(1)
    for _, packet in first.write(1, KEY, LONGEST):
        second.deliver(packet)
    second.take(1)
    first.unmatch_reader(1, (2, 1)), second.unmatch_writer(1, (1, 1))
    first.match_reader(1, (2, 1)), second.match_writer(1, (1, 1))
    with contextlib.suppress(PreconditionNotMet):
        second.match_writer(1, (1, 1))
    with contextlib.suppress(PreconditionNotMet):
        first.match_reader(1, (2, 1), greeted=True)
    first.get_publication_matched_status(1), second.get_subscription_matched_status(1)
    first.clear_recorder(EntityKind.WRITER, 1), second.clear_recorder(EntityKind.READER, 1)
    second.line("call lost r1")
    with contextlib.suppress(BadParameter):
        second.line("call lost r2 again")  # not recorded
print(FIRST.getvalue() + SECOND.getvalue(), end="")
