"""What venues send in a long run, and what 'nbbo listen --follow' prints of it.

Each venue quotes a symbol of its own, so that which changes there are, and in which order a venue's are, doesn't depend
on how the venues' messages come to lie in the journal. Its bid goes up by a tick with each fourth message, or another
one. After 1,600 messages its quotations begin anew: a packet is made once, and sent again with other numbers.
"""

from collections.abc import Sequence

from .datagrams import Datagrams
from .packets import Request, packet, quote

PER_PACKET = 50  # a packet of 1,420 bytes, for which a frame of Ethernet has room
PACKETS = 32
ROUND = PER_PACKET * PACKETS  # after how many messages a venue's quotations begin anew
LOWEST = 10_000
# After how many messages a bid may go up: of each hundred the last one is a change, and a round has more than one.
EVERY = (1, 2, 4, 5, 10, 20, 25, 50, 100)


def session_of(venue: int) -> bytes:
    return f'S{venue}'.encode().ljust(10)


def symbol_of(venue: int) -> str:
    return f'Q{chr(ord("A") + venue)}'


class Flow:
    """The messages of venues; each venue's first one is a change, and each one whose number `every` divides."""

    def __init__(self, venues: int, every: int) -> None:
        self.venues, self.every = venues, every
        self.rounds = [[self.quotation(venue, number) for number in range(ROUND)] for venue in range(venues)]

    def quotation(self, venue: int, number: int) -> bytes:
        return quote(LOWEST + self.tick(number), 100, symbol=symbol_of(venue).encode())

    def tick(self, number: int) -> int:
        """The tick that a venue's message bids."""
        return number % ROUND // self.every

    def ticks(self) -> int:
        """How many ticks there are."""
        return ROUND // self.every

    def changes(self, messages: int) -> int:
        """How many changes a venue's first messages make."""
        return messages // self.every + (1 if messages and self.every > 1 else 0)

    def messages(self, changes: int) -> int:
        """How many of a venue's messages are surely taken once so many of its changes are printed."""
        return max(changes - (1 if self.every > 1 else 0), 0) * self.every

    def of(self, venue: int, number: int, count: int) -> list[bytes]:
        """`count` messages of a venue from a number on, at most a packet's."""
        first = number % ROUND
        end = first + min(count, PER_PACKET)
        return self.rounds[venue][first:end] + self.rounds[venue][: max(end - ROUND, 0)]

    def datagrams(self, venue: int) -> Datagrams:
        """The packets of a venue's round."""
        firsts = range(1, ROUND + 1, PER_PACKET)
        return Datagrams([packet(first, self.of(venue, first, PER_PACKET), session_of(venue)) for first in firsts])

    def reply(self, request: Request, sent: Sequence[int]) -> bytes | None:
        """The first of the messages that are asked for, where there are any; `sent` is how many each venue has sent."""
        venue = int(request.session[1:])
        count = min(request.wanted, sent[venue] - request.number + 1)
        if count <= 0:
            return None
        return packet(request.number, self.of(venue, request.number, count), request.session)

    def change(self, venue: int, tick: int) -> bytes:
        """The best line of a change, after its two numbers."""
        price = LOWEST + tick
        return f'{symbol_of(venue)} {venue}:{price // 10_000}.{price % 10_000:04}x100 none one-sided'.encode()

    def ends(self) -> list[str]:
        """The best lines of the changes with which the venues' sessions end, each after its two numbers."""
        return [f'{symbol_of(venue)} none none empty' for venue in range(self.venues)]
