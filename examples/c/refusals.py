"""What a program in Python does wrong, and what is raised. Where something is raised nothing has changed."""
from typing import Any, Callable

from cinchwalnut import ANY, EntityKind, Peer, Refused, Status, config_fault, config_sum, line_fault, reader, text_fault, writer

PREFIXES, KEY = [bytes([1] * 12), bytes([2] * 12)], bytes([7] * 16)
WRITERS, READERS = [writer(peer=1, key=1)], [reader(peer=2, key=1)]
BEST_EFFORT = [writer(peer=1, key=1, is_best_effort=True)]


def said(what: str, call: Callable[[], Any]) -> None:
    try:
        print(f"{what}: {call()}")
    except (Refused, ValueError, TypeError) as raised:
        print(f"{what}: {type(raised).__name__}, {raised}")


def opened(prefixes=PREFIXES, writers=WRITERS, readers=READERS, number=1) -> str:
    with Peer(prefixes, writers, readers, number):
        return "it opens"


def named(end, **fields) -> str:
    for name, value in fields.items():
        setattr(end, name, value)
    return "it is taken"


said("a configuration", opened)
said("a prefix of 11 octets", lambda: opened(prefixes=[bytes(11)]))
said("a prefix of zeros", lambda: opened(prefixes=[bytes([1] * 12), bytes(12)]))
said("peer 3 of two", lambda: opened(number=3))
said("peer 2^32 + 1", lambda: opened(number=(1 << 32) + 1))
said("a writer of peer 2^32", lambda: writer(peer=1 << 32, key=1))
said("a key of 25 bits", lambda: writer(peer=1, key=1 << 24))
said("a depth of 2^32", lambda: named(writer(1, 1), depth=1 << 32))
said("a depth of -1", lambda: named(reader(1, 1), depth=-1))
said("max_samples of 2^31", lambda: named(reader(1, 1), max_samples=1 << 31))
said("an entity of 3 octets", lambda: named(reader(1, 1), entity=bytes(3)))
said("a lease that is no whole number", lambda: named(writer(1, 1), lease=1.5))
said("a policy that is no truth", lambda: named(writer(1, 1), is_exclusive=2))
said("a depth of 0", lambda: opened(readers=[reader(peer=2, key=1, keeps_last=True)]))
said("its fault", lambda: config_fault(PREFIXES, WRITERS, [reader(peer=2, key=1, keeps_last=True)]))
said("a writer of a peer that there isn't", lambda: config_fault(PREFIXES, [writer(peer=3, key=1)], []))
said("a reliable reader of a best-effort writer", lambda: config_fault(PREFIXES, BEST_EFFORT, READERS))
said("a best-effort reader of it", lambda: config_fault(PREFIXES, BEST_EFFORT, [reader(peer=2, key=1, is_best_effort=True)]))
said("a configuration without a fault", lambda: config_fault(PREFIXES, WRITERS, READERS))
said("equal ones have equal sums", lambda: config_sum(PREFIXES, WRITERS, READERS) == config_sum(PREFIXES, list(WRITERS), [reader(2, 1)]))
said("others have other ones", lambda: config_sum(PREFIXES, WRITERS, READERS) != config_sum(PREFIXES, WRITERS, [reader(2, 1, topic=1)]))
said("a best-effort writer has another one", lambda: config_sum(PREFIXES, WRITERS, READERS) != config_sum(PREFIXES, BEST_EFFORT, READERS))
said("the fault of a text", lambda: text_fault("peer 010101010101010101010101\nwriter 00000102 al"))
said("that of a line", lambda: line_fault("call take r1 1 2"))
said("a text that is none", lambda: Peer.from_text("nonsense", 1))
with Peer(PREFIXES, WRITERS, READERS, 1) as first, Peer(PREFIXES, WRITERS, READERS, 2) as second:
    said("a write", lambda: [(to, len(packet)) for to, packet in first.write(1, KEY, b"a value")])
    said("writer 2 of one", lambda: first.write(2, KEY, b""))
    said("writer 257, which is not 1", lambda: first.write(257, KEY, b""))
    said("a key of 15 octets", lambda: first.write(1, bytes(15), b""))
    said("a value that is text", lambda: first.write(1, KEY, "text"))
    said("a value of 1,025 octets", lambda: first.write(1, KEY, bytes(1025)))
    said("a strength of 2^31", lambda: first.set_strength(1, 1 << 31))
    said("a strength of shared ownership", lambda: first.set_strength(1, 1))
    said("an instance that is not registered", lambda: first.unregister(1, bytes(16)))
    said("a moment", lambda: len(first.tick(5)))
    said("an earlier one", lambda: first.tick(4))
    said("a moment of -1", lambda: first.tick(-1))
    said("places that are tried again", lambda: second.resume(1))
    said("those of reader 2 of one", lambda: second.resume(2))
    said("a line", lambda: second.line("call lost r1"))
    said("a line that is none", lambda: second.line("call lost r1 again"))
    said("a line of a reader that there isn't", lambda: second.line("call lost r2"))
    said("what the last event answered", second.text)
    said("a mask of 2^32", lambda: second.take(1, views=1 << 32))
    said("at most 0 samples", lambda: second.take(1, most=0))
    said("samples of an instance that is not known", lambda: second.take_instance(1, 7))
    said("a condition that there isn't", lambda: second.take_w_condition(1, 7))
    said("a filter that there isn't, in a line", lambda: second.line("call querycond r1 any any any 3"))
    said("nothing to take", lambda: second.take(1))
    said("nothing to take, in a line", lambda: second.line("call take r1"))
    said("an instance that is not known", lambda: second.lookup_instance(1, KEY))
    said("its key", lambda: second.get_key_value(1, 1))
    said("a packet that there isn't", lambda: second.packet(0))
    said("a handle of an answer that has none", second.handle)
    said("a recorder of an entity that there isn't", lambda: second.set_recorder(EntityKind.READER, 2, Status.SAMPLE_LOST, 1))
    said("a recorder without room", lambda: second.set_recorder(EntityKind.READER, 1, ANY, 0))
    said("a recorder", lambda: second.set_recorder(EntityKind.READER, 1, ANY, 4))
    second.close()
    said("a call once it is closed", lambda: second.take(1))
    said("a fetch then", second.packets)
    said("its packets that found no memory", second.unsent)
    second.close()
with Peer(PREFIXES, WRITERS, READERS, 1) as first, Peer(PREFIXES, WRITERS, READERS, 2) as second:
    [(_, packet)] = first.write(1, KEY, b"a value")
    said("what is old of a datagram that comes for the first time", lambda: second.observe(packet, writer=(1, 1)))
    second.deliver(packet)
    said("of one that comes again", lambda: second.observe(packet, writer=(1, 1)))
    said("of another writer", lambda: second.observe(packet, writer=(2, 1)))
    said("of a writer that is a number", lambda: second.observe(packet, writer=1))
with Peer(PREFIXES, WRITERS, READERS, 1) as first, Peer(PREFIXES, WRITERS, READERS, 2) as second:
    said("a reader that is gone", lambda: first.unmatch_reader(1, (2, 1)))
    said("once more", lambda: first.unmatch_reader(1, (2, 1)))
    said("a reader that nobody has", lambda: first.match_reader(1, (2, 2)))
    said("a parting from it", lambda: first.unmatch_reader(1, (2, 2)))
    said("a reader that is a number", lambda: first.match_reader(1, 2))
    said("how many are matched", lambda: first.get_publication_matched_status(1))
    first.set_recorder(EntityKind.WRITER, 1, Status.PUBLICATION_MATCHED, 1)
    said("the reader comes back", lambda: first.match_reader(1, (2, 1)))
    said("what a recorder was told", lambda: [it.matched for it in first.clear_recorder(EntityKind.WRITER, 1)])
    said("a reader that is matched", lambda: first.match_reader(1, (2, 1)))
    said("matches of a writer that there isn't", lambda: first.get_publication_matched_status(2))
    said("a writer that is matched", lambda: second.match_writer(1, (1, 1)))
    said("a writer that nobody has", lambda: second.match_writer(1, (1, 2)))
    said("a parting from it", lambda: second.unmatch_writer(1, (1, 2)))
    said("one that leaves", lambda: second.unmatch_writer(1, (1, 1)))
    said("once more", lambda: second.unmatch_writer(1, (1, 1)))
    said("and comes back", lambda: second.match_writer(1, (1, 1)))
    said("how many are matched", lambda: second.get_subscription_matched_status(1))
    said("matches of a reader that there isn't", lambda: second.get_subscription_matched_status(2))
