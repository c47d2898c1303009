"""A network of two machines, which are network namespaces: this one, and another that a process keeps."""

import contextlib
import ctypes
import os
import socket
import subprocess
import time
from collections.abc import Iterator, Sequence
from pathlib import Path
from typing import Self

INTERFACE, ADDRESS, OTHER_ADDRESS = 'eth0', '10.1.1.1', '10.1.1.2'
# How many groups the system joins at most, where that can be said: those of an interface that is gone count, too.
MOST_GROUPS = Path('/proc/sys/net/ipv4/igmp_max_memberships')
MANY = 1_000
CLONE_NEWNET = 0x40000000
LIMIT_SECONDS = 600
LIBC = ctypes.CDLL(None, use_errno=True)


def apart() -> list[str]:
    """The words before a command that is to run in a network namespace of its own."""
    return ['unshare', '--net'] if os.geteuid() == 0 else ['unshare', '--user', '--map-root-user', '--net']


def is_there() -> str | None:
    """Why there is no network namespace on this machine; None where there is."""
    try:
        said = subprocess.run([*apart(), 'ip', 'link', 'set', 'lo', 'up'], capture_output=True, text=True, check=False)
    except FileNotFoundError as missing:
        return str(missing)
    return said.stderr.strip() or 'unshare fails' if said.returncode else None


def ip(words: str, there: Sequence[str] = ()) -> None:
    subprocess.run([*there, 'ip', *words.split()], capture_output=True, text=True, check=True)


def enter(namespace: int) -> None:
    """Has the calling thread be in this network namespace."""
    if LIBC.setns(namespace, CLONE_NEWNET):
        raise OSError(ctypes.get_errno(), 'setns')


class Network:
    """Two machines with an interface each, between which there is a cable. This process has to be in a network namespace
    of its own. The groups that are named are joined by this machine."""

    def __init__(self, groups: Sequence[str] = ()) -> None:
        self.groups = groups

    def __enter__(self) -> Self:
        self.other = subprocess.Popen(['unshare', '--net', 'sleep', str(LIMIT_SECONDS)], stdout=subprocess.DEVNULL)
        try:
            self.connect()
        except BaseException:
            self.other.kill()
            raise
        return self

    def connect(self) -> None:
        """Lays the cable, and joins the groups."""
        own, theirs = Path('/proc/self/ns/net'), Path(f'/proc/{self.other.pid}/ns/net')
        until = time.monotonic() + 10
        while os.readlink(theirs) == os.readlink(own) and time.monotonic() < until:
            time.sleep(0.005)
        self.here, self.there = os.open(own, os.O_RDONLY), os.open(theirs, os.O_RDONLY)
        nsenter = ['nsenter', f'--net={theirs}']
        ip('link set lo up')
        ip(f'link add {INTERFACE} type veth peer name other0')
        ip(f'link set other0 netns {self.other.pid}')
        ip(f'address add {ADDRESS}/24 dev {INTERFACE}')
        ip(f'link set {INTERFACE} up')
        ip(f'address add {OTHER_ADDRESS}/24 dev other0', nsenter)
        ip('link set other0 up', nsenter)
        with contextlib.suppress(OSError):
            MOST_GROUPS.write_text(f'{MANY}\n')
        for group in self.groups:
            ip(f'address add {group}/32 dev {INTERFACE} autojoin')

    def __exit__(self, *_: object) -> None:
        self.other.kill()
        self.other.wait()
        with contextlib.suppress(subprocess.CalledProcessError):
            ip(f'link delete {INTERFACE}')
        os.close(self.here)
        os.close(self.there)

    @contextlib.contextmanager
    def on_the_other(self) -> Iterator[None]:
        """What is opened within is of the other machine."""
        enter(self.there)
        try:
            yield
        finally:
            enter(self.here)

    def sender(self) -> socket.socket:
        """A socket of the other machine, which sends to groups."""
        with self.on_the_other():
            out = socket.socket(socket.AF_INET, socket.SOCK_DGRAM)
            out.setsockopt(socket.IPPROTO_IP, socket.IP_MULTICAST_IF, socket.inet_aton(OTHER_ADDRESS))
        return out
