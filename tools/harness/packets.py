"""Packets of MoldUDP64 1.00 and the messages that they carry, as bytes.

A packet is the session's name (10 bytes), the number of its first message (8), a count (2) and that many blocks, each
a length (2) and a message. A heartbeat has the count 0, an end of session the count 65,535.
"""

import struct
from collections.abc import Iterable
from typing import NamedTuple

HEADER = struct.Struct('>10sQH')
REQUEST = struct.Struct('>10sQH')
END_COUNT = 0xFFFF
FIRST_SESSION = b'0000000001'

# The forms of each payload, by type and length: this project's, and TotalView-ITCH 5.0's in the order of its pages.
OWN_FORMS = {(0x51, 26), (0x71, 34), (0x48, 10)}
ITCH_FORMS = {(ord(kind), size) for kind, size in (
    ('S', 12), ('R', 39), ('H', 25), ('Y', 20), ('L', 26), ('V', 35), ('W', 12), ('K', 28), ('J', 35), ('h', 21), ('A', 36),
    ('F', 40), ('E', 31), ('C', 36), ('X', 23), ('D', 19), ('U', 35), ('P', 44), ('Q', 40), ('B', 19), ('I', 50), ('N', 20),
    ('O', 48),
)}


def looks_like_itch(forms: set[tuple[int, int]]) -> bool:
    """Whether messages of these forms have one of ITCH's, and none of this project's."""
    return bool(forms & ITCH_FORMS) and not forms & OWN_FORMS


def block(message: bytes) -> bytes:
    """A message with its length before it."""
    return len(message).to_bytes(2, 'big') + message


def packet(number: int, messages: Iterable[bytes], session: bytes = FIRST_SESSION) -> bytes:
    """A packet of these messages, the first of which has this number."""
    blocks = [block(message) for message in messages]
    return HEADER.pack(session, number, len(blocks)) + b''.join(blocks)


def empty(number: int, count: int, session: bytes = FIRST_SESSION) -> bytes:
    """A packet of `count` messages without a byte."""
    return packet(number, [b''] * count, session)


def heartbeat(number: int, session: bytes = FIRST_SESSION) -> bytes:
    """A packet without a message; `number` is that of the next one."""
    return HEADER.pack(session, number, 0)


def end(number: int, session: bytes = FIRST_SESSION) -> bytes:
    """The end of a session; `number` is one more than that of its last message."""
    return HEADER.pack(session, number, END_COUNT)


def is_end(datagram: bytes) -> bool:
    """Whether the datagram has the count of an end of session."""
    return datagram[18:20] == b'\xff\xff'


class Request(NamedTuple):
    """A request for messages that are missing."""

    session: bytes
    number: int
    wanted: int


def request_of(datagram: bytes) -> Request:
    """The request that the 20 bytes are; ValueError for another length."""
    if len(datagram) != REQUEST.size:
        raise ValueError(f'a request has {REQUEST.size} bytes, and this {len(datagram)}')
    return Request(*REQUEST.unpack(datagram))


def quote(
    bid: int, bid_size: int, offer: int = 0, offer_size: int = 0, flags: int = 3, symbol: bytes = b'ACME'
) -> bytes:
    """A quotation; prices are in ten-thousandths. Flag 1 says that the bid is automated, flag 2 that the offer is."""
    return b'\x51' + symbol.ljust(8) + struct.pack('>IIII', bid, bid_size, offer, offer_size) + bytes([flags])


def wide_quote(
    bid: int, bid_size: int, offer: int, offer_size: int, flags: int = 3, symbol: bytes = b'ACME'
) -> bytes:
    """A quotation in the form whose sizes have eight bytes."""
    return b'\x71' + symbol.ljust(8) + struct.pack('>IQIQ', bid, bid_size, offer, offer_size) + bytes([flags])


def halt(state: int, symbol: bytes = b'ACME') -> bytes:
    """A halt of a symbol (1), or its end (0)."""
    return b'\x48' + symbol.ljust(8) + bytes([state])
