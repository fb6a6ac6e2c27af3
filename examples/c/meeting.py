"""A peer that is alone in its configuration, and meets a reader and a writer: what it sends to the one, the other's publication
handle, and its recording."""
import contextlib
import io

from cinchwalnut import BadParameter, PreconditionNotMet, RecordedPeer, reader, writer

OWN, SECOND, THIRD, RUN = bytes([1] * 12), bytes([2] * 12), bytes([3] * 12), io.StringIO()
WRITER, READER = bytes([0, 0, 1, 2]), bytes([0, 0, 1, 7])

with RecordedPeer([OWN], [writer(peer=1, key=1)], [reader(peer=1, key=1, topic=1)], 1, RUN) as peer:
    peer.meet_reader(1, (2, 1), SECOND, READER, is_best_effort=True)
    print([to for to, _ in peer.write(1, bytes(16), b"1")])
    with contextlib.suppress(PreconditionNotMet):
        peer.meet_reader(1, (2, 1), SECOND, READER, is_best_effort=True, greeted=True)
    print(peer.meet_writer(1, (3, 1), THIRD, WRITER, strength=-7, lease=1 << 32))
    for number, entity, lease in ((2, READER, None), (2, WRITER, None), (2, bytes([0, 0, 2, 2]), 0)):
        try:
            peer.meet_writer(1, (3, number), THIRD, entity, lease=lease)
        except BadParameter as error:
            print(error)
    try:
        peer.meet_reader(1, (2, 1), SECOND, READER[1:])
    except ValueError as error:
        print(error)
print(RUN.getvalue(), end="")
