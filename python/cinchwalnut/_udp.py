"""A participant over UDP: its sockets at the well-known ports of a domain (RTPS 2.5, 9.6.2), the clock, and a prefix of
chance."""
from __future__ import annotations

import errno
import os
import select
import socket
import time
from typing import Iterable, Optional, Tuple

from ._participant import Address, Datagram

_GROUP = "239.255.0.1"
_LOOPBACK = "127.0.0.1"
_ROOM = 65536


def group_of(domain: int) -> Address:
    """The group of all participants of a domain, 0 to 232."""
    return _GROUP, 7400 + 250 * domain


def now() -> int:
    """The moment, in units of 2^-32 second, of a clock that never goes back."""
    return (time.monotonic_ns() << 32) // 1_000_000_000


def new_prefix() -> bytes:
    """A prefix that nobody has: two zeros and ten octets of chance."""
    return bytes(2) + os.urandom(10)


def own_host(domain: int) -> str:
    """The address from which the system sends to the group; 127.0.0.1 where there is no network."""
    with socket.socket(socket.AF_INET, socket.SOCK_DGRAM) as probe:
        try:
            probe.connect(group_of(domain))
        except OSError:
            return _LOOPBACK
        host = str(probe.getsockname()[0])
        return _LOOPBACK if host == "0.0.0.0" else host


class Udp:
    """The socket of a participant, at the first port of the domain that is free on its address, and one that hears the group."""

    def __init__(self, domain: int = 0, host: Optional[str] = None):
        self.domain, self.host = domain, host or own_host(domain)
        self._own = socket.socket(socket.AF_INET, socket.SOCK_DGRAM)
        self._group = socket.socket(socket.AF_INET, socket.SOCK_DGRAM)
        try:
            self._open()
        except OSError:
            self.close()
            raise

    def _open(self) -> None:
        ours, (group, port) = socket.inet_aton(self.host), group_of(self.domain)
        self.address = self.host, self._bound(port)
        self._own.setsockopt(socket.IPPROTO_IP, socket.IP_MULTICAST_IF, ours)
        self._group.setsockopt(socket.SOL_SOCKET, socket.SO_REUSEADDR, 1)
        self._group.bind((group, port))
        self._group.setsockopt(socket.IPPROTO_IP, socket.IP_ADD_MEMBERSHIP, socket.inet_aton(group) + ours)

    def _bound(self, group_port: int) -> int:
        for index in range(120):
            port = group_port + 10 + 2 * index
            try:
                self._own.bind((self.host, port))
            except OSError as error:
                if error.errno != errno.EADDRINUSE:
                    raise
            else:
                return port
        raise OSError(errno.EADDRINUSE, f"no port of domain {self.domain} is free")

    @property
    def told(self) -> Tuple[Address]:
        """Who is told of a participant here: the group."""
        return (group_of(self.domain),)

    def send(self, datagrams: Iterable[Datagram]) -> None:
        """What the system does not take is lost, and repaired as any other."""
        for octets, to in datagrams:
            try:
                self._own.sendto(octets, to)
            except OSError:
                pass

    def receive(self, seconds: float) -> Optional[Tuple[bytes, Address]]:
        """A datagram and the address that it came from; none where none comes so soon."""
        ready = select.select([self._own, self._group], [], [], seconds)[0]
        return ready[0].recvfrom(_ROOM) if ready else None

    def close(self) -> None:
        self._own.close()
        self._group.close()

    def __enter__(self) -> "Udp":
        return self

    def __exit__(self, *_: object) -> None:
        self.close()
