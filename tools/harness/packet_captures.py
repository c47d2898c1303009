"""Packet captures, as tcpdump (savefiles) and dumpcap (pcapng) write them, of datagrams in Ethernet frames."""

import ipaddress
import struct
from collections.abc import Iterable, Sequence
from typing import NamedTuple

from harness.captures import LINE_A, LINE_B, BadCapture, Record

Address = tuple[str, int]
FROM_PORT = 26_400
FIRST_SECOND = 1_780_000_000
NANOSECONDS_APART = 1_000
ETHERNET = 1
UDP = 17
MOST_BYTES = {4: 65_507, 6: 65_527}  # of a datagram, by the version of its packet


class Frame(NamedTuple):
    """A frame: the nanoseconds from 1970 on to when it came, or None of one without a time, its bytes, and how many it
    had before it was cut, where it was."""

    time: int | None
    held: bytes
    uncut: int | None = None

    def wire(self) -> int:
        """How many bytes it had on the wire."""
        return len(self.held) if self.uncut is None else self.uncut


def udp(port: int, held: bytes, source: int = FROM_PORT) -> bytes:
    """The UDP datagram to a port, without a checksum."""
    return struct.pack('>HHHH', source, port, 8 + len(held), 0) + held


def ipv4(
    segment: bytes, address: str, *, options: bytes = b'', identification: int = 0, flags: int = 0, hops: int = 64,
    protocol: int = UDP, extra: int = 0,
) -> bytes:
    """The packet of version 4 to an address, without a checksum; `extra` is by how much its length is wrong."""
    size = 20 + len(options)
    told = size + len(segment) + extra
    first = struct.pack('>BBHHHBBH', 0x40 | size // 4, 0, told, identification, flags, hops, protocol, 0)
    return first + ipaddress.ip_address('10.0.0.1').packed + ipaddress.ip_address(address).packed + options + segment


def ipv6(segment: bytes, address: str, *, following: int = UDP, hops: int = 64) -> bytes:
    """The packet of version 6 to an address; `following` is the number of the header that follows."""
    first = struct.pack('>IHBB', 6 << 28, len(segment), following, hops)
    return first + ipaddress.ip_address('fe80::1').packed + ipaddress.ip_address(address).packed + segment


def in_ethernet(packet: bytes, kind: int | None = None, machines: bytes = bytes(12), tags: bytes = b'') -> bytes:
    """The Ethernet frame of a packet, whose version says of which kind it is where none is given."""
    kind = (0x0800 if packet[0] >> 4 == 4 else 0x86DD) if kind is None else kind
    return machines + tags + struct.pack('>H', kind) + packet


def ethernet(address: str, port: int, held: bytes) -> bytes:
    """The Ethernet frame of a datagram to an address and a port."""
    packed = ipv4 if ipaddress.ip_address(address).version == 4 else ipv6
    return in_ethernet(packed(udp(port, held), address))


def frames_of(records: Iterable[Record], lines: Sequence[Address | None]) -> list[Frame]:
    """The frames of the records that came on line A or B, a microsecond apart. The others don't come on a line, nor do those
    of a line that isn't there. BadCapture where a datagram is too long for a frame."""
    frames = []
    for record in records:
        line = None if record.kind not in (LINE_A, LINE_B) else lines[2 * record.venue + (record.kind == LINE_B)]
        if line is None:
            continue
        address, port = line
        if len(record.held) > MOST_BYTES[ipaddress.ip_address(address).version]:
            raise BadCapture(f'a record has {len(record.held)} bytes, more than a datagram to {address} can have')
        time = FIRST_SECOND * 10**9 + len(frames) * NANOSECONDS_APART
        frames.append(Frame(time, ethernet(address, port, record.held)))
    return frames


def savefile(frames: Iterable[Frame], order: str = '<', nanoseconds: bool = False, link: int = ETHERNET) -> bytes:
    """The savefile of frames, in a byte order as struct names it."""
    parts = [struct.pack(order + 'IHHIIII', 0xA1B23C4D if nanoseconds else 0xA1B2C3D4, 2, 4, 0, 0, 262_144, link)]
    unit = 1 if nanoseconds else 1_000
    for frame in frames:
        seconds, rest = divmod(frame.time, 10**9)
        parts.append(struct.pack(order + 'IIII', seconds, rest // unit, len(frame.held), frame.wire()) + frame.held)
    return b''.join(parts)


# Blocks of a pcapng file.


def block(order: str, kind: int, body: bytes) -> bytes:
    """A block of any kind."""
    body += bytes(-len(body) % 4)
    size = struct.pack(order + 'I', 12 + len(body))
    return struct.pack(order + 'I', kind) + size + body + size


def section_block(order: str, minor: int = 0) -> bytes:
    """The block with which a section begins, whose version has this minor number."""
    return block(order, 0x0A0D0D0A, struct.pack(order + 'IHHq', 0x1A2B3C4D, 1, minor, -1))


def interface_block(
    order: str, link: int = ETHERNET, snap: int = 0, resolution: int | None = None, offset: int | None = None,
    options: bytes = b'',
) -> bytes:
    """The block of an interface, with the resolution and the offset of its times after other options."""
    if resolution is not None:
        options += struct.pack(order + 'HHB3x', 9, 1, resolution)
    if offset is not None:
        options += struct.pack(order + 'HHq', 14, 8, offset)
    if options:
        options += struct.pack(order + 'HH', 0, 0)
    return block(order, 1, struct.pack(order + 'HHI', link, 0, snap) + options)


def packet_block(
    order: str, ticks: int, frame: Frame, interface: int = 0, obsolete: bool = False, options: bytes = b'',
) -> bytes:
    """The block of a frame that came at this tick of an interface; an obsolete one says that 3 were dropped."""
    where = struct.pack(order + 'HH', interface, 3) if obsolete else struct.pack(order + 'I', interface)
    head = struct.pack(order + 'IIII', *divmod(ticks, 1 << 32), len(frame.held), frame.wire())
    held = frame.held + bytes(-len(frame.held) % 4)
    return block(order, 2 if obsolete else 6, where + head + held + options)


def simple_block(order: str, frame: Frame) -> bytes:
    """The block of a frame without a time."""
    return block(order, 3, struct.pack(order + 'I', frame.wire()) + frame.held)


def section(frames: Iterable[Frame], order: str = '<') -> bytes:
    """The pcapng file of frames: one section with one interface, whose times are in microseconds. A frame without a
    time is a simple packet block."""
    parts = [section_block(order), interface_block(order, snap=262_144)]
    for frame in frames:
        timed = frame.time is not None
        parts.append(packet_block(order, frame.time // 1_000, frame) if timed else simple_block(order, frame))
    return b''.join(parts)
