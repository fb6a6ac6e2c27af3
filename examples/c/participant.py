"""Two participants in one process, which find each other: what one sends is handed to the other in memory, and the moments are
made up. The first writes readings of sensors and words, the second takes them, and the first leaves."""
from cinchwalnut import SECOND, Carries, EntityKind, InstanceState, KeyField, Participant, data_reader, data_writer

FIRST, SECOND_ONE = ("127.0.0.1", 7410), ("127.0.0.1", 7412)
READING = ("Readings", "reading", Carries.CDR)  # struct reading { long sensor; long value; } with the key sensor
WORD = ("Words", "word", Carries.KEYLESS)
KEYS = [KeyField(0, 4)]


def show(name: str, it: Participant) -> None:
    for presence in it.presences():
        print(f"{name}: participant {presence.prefix[2]} {'appeared' if presence.is_there else 'is gone'}")
    for told in it.told():
        print(f"{name}: {told.own[12:].hex()} {told.change.name.lower()} {told.other[12:].hex()}")


def carry(now: int, sent: list, name: str, it: Participant) -> None:
    """What comes of an event: what changed, and what goes to the other one, which answers."""
    show(name, it)
    for octets, to in sent:
        other, its = ("first", first) if to == FIRST else ("second", second)
        carry(now, its.hear(now, octets, "127.0.0.1"), other, its)


with Participant([data_writer(*READING, fields=KEYS), data_writer(*WORD)], bytes([0, 0, 1] + [0] * 9), FIRST, [SECOND_ONE]) as first, \
        Participant([data_reader(*WORD), data_reader(*READING, fields=KEYS)], bytes([0, 0, 2] + [0] * 9), SECOND_ONE, [FIRST]) as second:
    moments = [number * SECOND // 2 for number in range(1, 6)]
    for now in moments:
        carry(now, first.tick(now), "first", first)
        carry(now, second.tick(now), "second", second)
    print("writer 1 is matched with:", *(it[12:].hex() for it in first.matched(EntityKind.WRITER, 1)))
    key = bytes([0, 0, 0, 7] + [0] * 12)
    carry(now, first.write(1, bytes([0, 1, 0, 0, 7, 0, 0, 0, 21, 0, 0, 0]), key), "first", first)
    carry(now, first.write(2, b"\0\1\0\0\6\0\0\0hello\0"), "first", first)
    carry(now, first.dispose(1, key), "first", first)
    print("behind:", first.is_behind)
    now += SECOND
    carry(now, first.tick(now), "first", first)
    print("behind:", first.is_behind)
    for number in (1, 2):
        for info, value in second.take(number):
            print(f"reader {number}: key {info.key[:4].hex()}, value {value.hex() or '-'}, {InstanceState(info.instance_state).name.lower()}")
    print(second.line("call matched r1"))
    carry(now, first.leave(), "first", first)
