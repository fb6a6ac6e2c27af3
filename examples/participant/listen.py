"""Prints what writers of a topic on domain 0 write, found over UDP: of this library, of Cyclone DDS, of Fast DDS. The type has
no key; --keyed says that it has one, at its first four octets. It ends after ten seconds: listen.py [--keyed] TOPIC TYPE"""
import sys

from cinchwalnut import SECOND, Carries, KeyField, Participant, Udp, data_reader, ms, new_prefix, now

*keyed, topic, type_name = sys.argv[1:]
kind = {"carries": Carries.CDR, "fields": [KeyField(0, 4)]} if keyed else {}
reader = data_reader(topic, type_name, max_value=65000, **kind)
with Udp(domain=0) as udp, Participant([reader], new_prefix(), udp.address, udp.told) as participant:
    start = due = now()
    while now() - start < 10 * SECOND:
        if came := udp.receive(0.02):  # a datagram, within 20 milliseconds
            udp.send(participant.hear(now(), *came))  # an event, and what answers it
            for info, value in participant.take(1):  # a call of reader 1
                print(info.instance_state.name.lower(), value.hex(), flush=True)
        if now() >= due:
            udp.send(participant.tick(now()))  # an event: announcements, HEARTBEATs, leases
            due = now() + ms(100)
    udp.send(participant.leave())
