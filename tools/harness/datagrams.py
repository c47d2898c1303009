"""Datagrams that are sent many at a time, by sendmmsg(2)."""

import ctypes
import socket
import struct
from array import array

LIBC = ctypes.CDLL(None, use_errno=True)
NUMBER = struct.Struct('>Q')
NUMBER_AT = 10  # the place of the first message's number in a packet


class Datagrams:
    """Datagrams as sendmmsg(2) takes them: a struct mmsghdr has eight words, a struct iovec two."""

    def __init__(self, datagrams: list[bytes]) -> None:
        self.count = len(datagrams)
        self.held = ctypes.create_string_buffer(b''.join(datagrams))
        begin, self.places, self.parts, self.heads = ctypes.addressof(self.held), array('Q'), array('Q'), array('Q')
        place = 0
        for datagram in datagrams:
            self.places.append(place)
            self.parts.extend((begin + place, len(datagram)))
            place += len(datagram)
        part = self.parts.buffer_info()[0]
        for place in range(self.count):
            self.heads.extend((0, 0, part + 16 * place, 1, 0, 0, 0, 0))

    def number(self, place: int, number: int) -> None:
        """Writes which number the first message of the packet at `place` has."""
        NUMBER.pack_into(self.held, self.places[place] + NUMBER_AT, number)

    def send(self, out: socket.socket, first: int, count: int) -> None:
        """Sends `count` of them from a connected socket, from the one at `first` on."""
        head = self.heads.buffer_info()[0]
        while count:
            sent = LIBC.sendmmsg(out.fileno(), ctypes.c_void_p(head + 64 * first), count, 0)
            if sent < 0:
                raise OSError(ctypes.get_errno(), 'sendmmsg')
            first, count = first + sent, count - sent
