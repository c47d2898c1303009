"""UDP on loopback: addresses, free ports, and what the system says of open sockets."""

import errno
import ipaddress
import socket
import time
from collections import Counter
from collections.abc import Callable, Collection
from pathlib import Path
from typing import NamedTuple

HOST = '127.0.0.1'
TABLES = (Path('/proc/net/udp'), Path('/proc/net/udp6'))


def family_of(host: str) -> socket.AddressFamily:
    """The family of a host's address."""
    return socket.AF_INET6 if ':' in host else socket.AF_INET


def address_of(host: str, port: int) -> str:
    """An address as a word of a command line."""
    return f'[{host}]:{port}' if ':' in host else f'{host}:{port}'


def udp_socket(host: str = HOST) -> socket.socket:
    """A UDP socket of the host's family."""
    return socket.socket(family_of(host), socket.SOCK_DGRAM)


def connected(port: int, host: str = HOST) -> socket.socket:
    """A UDP socket that sends to this port."""
    out = udp_socket(host)
    out.connect((host, port))
    return out


def free_ports(count: int, host: str = HOST) -> list[int]:
    """`count` ports that nothing is bound to."""
    sockets = [udp_socket(host) for _ in range(count)]
    for one in sockets:
        one.bind((host, 0))
    ports = [one.getsockname()[1] for one in sockets]
    for one in sockets:
        one.close()
    return ports


IpAddress = ipaddress.IPv4Address | ipaddress.IPv6Address


class OpenSocket(NamedTuple):
    """What the system says of an open socket: its address, how many bytes wait in it, how many datagrams it dropped."""

    address: IpAddress
    port: int
    waiting: int
    dropped: int


def address_in(table_word: str) -> IpAddress:
    """The address of a word of the system's tables, which spells each four bytes as one number, lowest byte first."""
    held = bytes.fromhex(table_word)
    return ipaddress.ip_address(b''.join(held[at : at + 4][::-1] for at in range(0, len(held), 4)))


def open_sockets(ports: Collection[int] | None = None) -> list[OpenSocket]:
    """The open UDP sockets, those of these ports alone where ports are given."""
    lines = [line.split() for table in TABLES if table.exists() for line in table.read_text().splitlines()[1:]]
    found = [
        OpenSocket(address_in(host), int(port, 16), int(words[4].split(':')[1], 16), int(words[-1]))
        for words in lines
        for host, port in [words[1].split(':')]
    ]
    return [one for one in found if ports is None or one.port in ports]


def waiting_bytes() -> dict[int, int]:
    """The local UDP ports that are open, each with how many bytes wait to be read at all its addresses."""
    waiting: Counter[int] = Counter()
    for one in open_sockets():
        waiting[one.port] += one.waiting
    return waiting


def is_of_this_machine(host: str) -> bool:
    """Whether a socket of this machine can be bound to the host's address, which is no group."""
    if ipaddress.ip_address(host).is_multicast:
        return False
    with udp_socket(host) as trial:
        try:
            trial.bind((host, 0))
        except OSError as error:
            if error.errno == errno.EADDRNOTAVAIL:
                return False
            raise
    return True


def is_bound(host: str, port: int) -> bool:
    """Whether a socket of this machine gets what is sent to the address: it is bound to it, or to the port alone."""
    address = ipaddress.ip_address(host)
    return any(
        one.address.is_unspecified or address.is_unspecified or one.address == address for one in open_sockets([port])
    )


def wait_until(is_so: Callable[[], bool], seconds: float = 10, pause: float = 0.005) -> bool:
    """Waits until it is so, for at most this long. Returns whether it is."""
    until = time.monotonic() + seconds
    while not is_so():
        if time.monotonic() > until:
            return False
        time.sleep(pause)
    return True
