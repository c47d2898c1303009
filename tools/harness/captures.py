"""Captures, which are lists of records: a venue (one byte), a kind (one), a length (two) and that many bytes."""

import struct
from collections.abc import Iterator
from typing import NamedTuple

HEAD = struct.Struct('>BcH')
LINE_A, LINE_B, RECOVERY = b'A', b'B', b'R'
RENEWAL, SKIP, SELF_HELP, WITHDRAWN = b'N', b'K', b'H', b'W'
DATAGRAMS = (LINE_A, LINE_B, RECOVERY)
KINDS = (*DATAGRAMS, RENEWAL, SKIP, SELF_HELP, WITHDRAWN)


class BadCapture(Exception):
    """The bytes are no capture."""


class Record(NamedTuple):
    """A record: its venue, its kind, and the bytes that it holds."""

    venue: int
    kind: bytes
    held: bytes

    def __bytes__(self) -> bytes:
        return HEAD.pack(self.venue, self.kind, len(self.held)) + self.held


def record(kind: bytes, held: bytes, venue: int = 0) -> bytes:
    """The bytes of a record."""
    return HEAD.pack(venue, kind, len(held)) + held


def known_records_in(capture: bytes) -> Iterator[Record]:
    """The records of a capture; BadCapture where it ends within one, or one has a kind that there isn't."""
    for it in records_in(capture):
        if it.kind not in KINDS:
            raise BadCapture(f'a record has the kind {it.kind!r}')
        yield it


def records_in(capture: bytes) -> Iterator[Record]:
    """The records of a capture, of any kind; BadCapture where it ends within one."""
    at = 0
    while at < len(capture):
        if at + HEAD.size > len(capture):
            raise BadCapture('it ends within the head of a record')
        venue, kind, length = HEAD.unpack_from(capture, at)
        at += HEAD.size
        if at + length > len(capture):
            raise BadCapture('it ends within a record')
        yield Record(venue, kind, capture[at : at + length])
        at += length
