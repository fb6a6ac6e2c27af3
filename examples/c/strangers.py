"""Two participants exchange readings while strangers send them whatever they like: octets of chance, pieces and damaged copies of
what they say themselves in other names, announcements of participants that there are not. All is by one seed. Each reading comes,
once and in its order, and nothing goes to an address from which nothing came."""
import random

from cinchwalnut import SECOND, Carries, KeyField, Participant, data_reader, data_writer

WRITER, READER, STRANGER = ("127.0.0.1", 7410), ("127.0.0.2", 7410), "10.6.6.6"
READING = ("Readings", "reading", Carries.CDR)  # struct reading { long sensor; long value; } with the key sensor
KEYS = [KeyField(0, 4)]
COUNT = 300
chance = random.Random(3)


def damaged(octets: bytes) -> bytes:
    """A copy in the name of a stranger, cut or with some octets of chance."""
    said = bytearray(octets)
    said[8:20] = b"\x66" + chance.randbytes(11)
    for _ in range(chance.choice([0, 1, 4])):
        said[chance.randrange(len(said))] = chance.randrange(256)
    return bytes(said[: chance.choice([len(said), chance.randrange(len(said))])])


class Network:
    """What is on its way, what was sent lately, and from and to which addresses."""

    def __init__(self, *participants: tuple) -> None:
        self.there, self.lately, self.sources, self.sent_to = dict(participants), [], set(), set()
        self.said = self.strange = 0

    def send(self, now: int, source: str, datagrams: list) -> None:
        for octets, to in datagrams:
            self.lately = [octets, *self.lately[:40]]
            self.sent_to.add(to[0])
            self.said += 1
            self.disturb(now)
            if to in self.there:
                self.sources.add(source)
                self.send(now, to[0], self.there[to].hear(now, octets, source))

    def disturb(self, now: int) -> None:
        """A stranger says something to both; what they answer goes to nobody."""
        for it in self.there.values():
            octets = chance.choice([chance.randbytes(chance.randrange(200)), damaged(chance.choice(self.lately))])
            self.strange += 1
            self.sources.add(STRANGER)
            self.sent_to |= {to[0] for _, to in it.hear(now, octets, STRANGER)}


with Participant([data_writer(*READING, fields=KEYS)], bytes([0, 0, 1] + [0] * 9), WRITER, [READER]) as writer, \
        Participant([data_reader(*READING, fields=KEYS)], bytes([0, 0, 2] + [0] * 9), READER, [WRITER]) as reader:
    network, taken = Network((WRITER, writer), (READER, reader)), []
    for tenth in range(1, 601):
        now = tenth * SECOND // 10
        network.send(now, WRITER[0], writer.tick(now))
        network.send(now, READER[0], reader.tick(now))
        if 20 < tenth <= 20 + COUNT:
            value = (tenth - 20).to_bytes(4, "little")
            network.send(now, WRITER[0], writer.write(1, bytes([0, 1, 0, 0, 7, 0, 0, 0]) + value))
        taken += [int.from_bytes(value[8:12], "little") for info, value in reader.take(1) if info.valid_data]
    print("each came once, in its order:", taken == list(range(1, COUNT + 1)))
    print("nothing went where nothing came from:", network.sent_to <= network.sources)
    print("strangers said more than both:", network.strange > network.said > COUNT)
    print("all was acknowledged:", not writer.is_behind)
