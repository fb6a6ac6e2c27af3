"""Takes what others write of a type of one's own on domain 0, and writes one a second: members by name, by cdr.py of
examples/interop, which stands on the PYTHONPATH too. It ends after ten seconds."""
from cdr import Struct
from cinchwalnut import SECOND, Participant, Udp, data_reader, data_writer, ms, new_prefix, now

POSE = Struct("robot::Pose", "@key long robot; double x; double y")
TYPE = {"carries": POSE.carries, "fields": POSE.fields}
ENDS = [data_reader("from_product", POSE.name, **TYPE), data_writer("to_product", POSE.name, **TYPE)]
with Udp(domain=0) as udp, Participant(ENDS, new_prefix(), udp.address, udp.told) as participant:
    start = due = later = now()
    while now() - start < 10 * SECOND:
        if came := udp.receive(0.01):
            udp.send(participant.hear(now(), *came))
            for info, value in participant.take(1):
                print(POSE.key_word(info.key), POSE.word(value) if value else info.instance_state.name.lower(), flush=True)
        if now() >= due:
            udp.send(participant.tick(now()))
            due = now() + ms(100)
        if now() >= later:
            udp.send(participant.write(1, POSE.payload("7", "1.5,2.5")))
            later = now() + SECOND
    udp.send(participant.leave())
