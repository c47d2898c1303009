"""A run of 'nbbo listen --follow' on loopback to which a flow is sent, and what memory it takes."""

import contextlib
import os
import re
import subprocess
import tempfile
import time
from collections.abc import Iterator, Sequence
from pathlib import Path
from typing import NamedTuple, Self

from .flow import PACKETS, PER_PACKET, Flow, session_of, symbol_of
from .follower import Follower, Printed
from .gap_server import GapServer
from .loopback import HOST, connected, free_ports, open_sockets, wait_until
from .packets import Request, end, heartbeat

# How many packets may be on their way: a socket's default buffer has room for some 90 of this size.
MOST_AHEAD = 48
# Fewer than these aren't sent at once, unless they are the last.
LEAST_AT_ONCE = 8
PAUSE_SECONDS = 0.0005
# After how long without a new line venues say how far they are, so that what is missing is asked for.
QUIET_SECONDS = 0.1
STALLED_SECONDS = 60
ENDING_SECONDS = 3
MOST_SAID = 1 << 20
# What standard error has of gaps that stand for a while, and close.
STANDS = re.compile(
    r'^nbbo: second \d+ venue \d+ (lacks|no longer lacks|has no reply to requests for) \d+ messages? from \d+\n', re.M
)
# What it has where something is amiss.
AMISS = re.compile(r"lack|gave up|fail|full|couldn't|can't|no memory|no thread|behind|withh|held back|--datagrams")


class WrongRun(Exception):
    """What was found wrong with a run."""


class Memory(NamedTuple):
    """The resident memory of a process, and the most that it had so far, in KiB."""

    resident: int
    most: int


def memory_of(process: int) -> Memory | None:
    """What the system says of a process's memory; None where it has ended."""
    text = Path(f'/proc/{process}/status').read_text()
    found = dict(re.findall(r'^(VmRSS|VmHWM):\s+(\d+) kB$', text, re.M))
    return Memory(int(found['VmRSS']), int(found['VmHWM'])) if found else None


class LongRun:
    """The program, a process that reads what it prints, and the venues that send; all end with the context."""

    def __init__(self, program: str, flow: Flow, words: Sequence[str]) -> None:
        self.program, self.flow, self.words = program, flow, words
        self.ports = free_ports(2 * flow.venues)
        self.lines = [connected(port) for port in self.ports]
        self.datagrams = [flow.datagrams(venue) for venue in range(flow.venues)]
        self.server = GapServer(self.reply)
        self.told = tempfile.TemporaryFile()
        self.sent = [0] * flow.venues  # in packets
        self.requests = 0

    def __enter__(self) -> Self:
        self.child = self.started()
        self.follower = Follower(self.flow, self.child.stdout.fileno())
        self.child.stdout.close()
        self.server.start()
        wait_until(lambda: len(open_sockets(self.ports)) == len(self.ports) or self.child.poll() is not None)
        if self.child.poll() is not None:
            said = self.said()
            self.close()
            raise WrongRun(f'the program has ended: {said}')
        return self

    def started(self) -> subprocess.Popen:
        """The program, with the C library's large pages, as ./nbbo runs it."""
        venues = range(self.flow.venues)
        names = ','.join(session_of(venue).decode().strip() for venue in venues)
        lines = ','.join(f'{HOST}:{port}' for port in self.ports)
        command = [self.program, 'listen', '--follow', '--sessions', names, '--lines', lines]
        command += ['--request', self.server.address, *self.words, *map(symbol_of, venues)]
        where = {'GLIBC_TUNABLES': 'glibc.malloc.hugetlb=1', **os.environ}
        return subprocess.Popen(command, stdout=subprocess.PIPE, stderr=self.told, env=where)

    def __exit__(self, *_: object) -> None:
        self.close()

    def close(self) -> None:
        self.child.kill()
        self.child.wait()
        self.server.close()
        self.follower.close()
        self.told.close()
        for line in self.lines:
            line.close()

    def reply(self, request: Request) -> bytes | None:
        self.requests += 1
        return self.flow.reply(request, [PER_PACKET * count for count in self.sent])

    def memory(self) -> Memory:
        memory = memory_of(self.child.pid)
        if memory is None:
            raise self.stopped()
        return memory

    def said(self) -> str:
        """What standard error has. The program writes on where it was: nothing is sought in the file."""
        return os.pread(self.told.fileno(), MOST_SAID, 0).decode()

    def is_amiss(self) -> bool:
        """Whether standard error says that something is amiss, but for gaps that have closed."""
        return AMISS.search(STANDS.sub('', self.said())) is not None

    # What is sent.

    def messages(self) -> int:
        """How many messages were sent."""
        return PER_PACKET * sum(self.sent)

    def changes(self) -> int:
        """How many changes what was sent makes."""
        return sum(self.flow.changes(PER_PACKET * count) for count in self.sent)

    @contextlib.contextmanager
    def sending(self) -> Iterator[None]:
        """Where a line listens no more, the run doesn't go on."""
        try:
            yield
        except ConnectionRefusedError:
            raise self.stopped() from None

    def send(self, venue: int, count: int) -> None:
        """Sends a venue's next packets on both lines."""
        while count > 0:
            place = self.sent[venue] % PACKETS
            some = min(count, PACKETS - place)
            for step in range(some):
                self.datagrams[venue].number(place + step, PER_PACKET * (self.sent[venue] + step) + 1)
            self.sent[venue] += some
            with self.sending():
                for line in (2 * venue, 2 * venue + 1):
                    self.datagrams[venue].send(self.lines[line], place, some)
            count -= some

    def send_heartbeats(self) -> None:
        """Each venue says on both lines how far it is."""
        with self.sending():
            for place, line in enumerate(self.lines):
                line.send(heartbeat(PER_PACKET * self.sent[place // 2] + 1, session_of(place // 2)))

    def send_ahead(self, packets: int) -> bool:
        """Sends of each venue what may be on its way, up to this many packets in all, and returns whether there was
        any."""
        before = sum(self.sent)
        for venue in range(self.flow.venues):
            taken = self.flow.messages(self.follower.changes_of(venue)) // PER_PACKET
            left = packets - self.sent[venue]
            count = min(taken + MOST_AHEAD - self.sent[venue], left)
            if count >= min(LEAST_AT_ONCE, left):
                self.send(venue, count)
        return sum(self.sent) > before

    def send_to(self, messages: int) -> None:
        """Sends on until there were so many messages of each venue, no faster than they are taken, and waits until all
        changes are printed."""
        packets = messages // PER_PACKET
        printed, since, said = self.follower.changes(), time.monotonic(), 0.0
        while printed < self.changes() or min(self.sent) < packets:
            if self.send_ahead(packets):
                continue
            time.sleep(PAUSE_SECONDS)
            now = time.monotonic()
            if printed != self.follower.changes():
                printed, since = self.follower.changes(), now
            elif self.child.poll() is not None or self.follower.has_other_lines() or now > since + STALLED_SECONDS:
                raise self.stopped()
            if now > max(since, said) + QUIET_SECONDS:
                self.send_heartbeats()
                said = now

    def send_evenly(self, messages: int, seconds: float) -> None:
        """Sends so many more messages of each venue, evenly over a time, whether they are taken or not."""
        packets, begun, before = messages // PER_PACKET, time.monotonic(), list(self.sent)
        while (took := time.monotonic() - begun) < seconds or self.sent[-1] < before[-1] + packets:
            due = min(int(took / seconds * packets), packets)
            for venue, sent in enumerate(self.sent):
                self.send(venue, min(before[venue] + due - sent, LEAST_AT_ONCE))
            time.sleep(PAUSE_SECONDS)

    # How it ends.

    def stopped(self) -> WrongRun:
        """Ends a run that doesn't go on, once it has had time to say why, and returns what is wrong."""
        self.follower.go_on()
        with contextlib.suppress(subprocess.TimeoutExpired):
            self.child.wait(ENDING_SECONDS)
        self.child.kill()
        printed = self.follower.printed(STALLED_SECONDS)
        found = f'{printed.changes} of {self.changes()} changes are printed, then {printed.rest[:1]}' if printed else ''
        return WrongRun(f'{found}; standard error: {self.said()!r}')

    def end(self) -> None:
        """Ends all sessions, and looks whether all was printed that was sent, in order, and counted."""
        until = time.monotonic() + STALLED_SECONDS
        while self.child.poll() is None and time.monotonic() < until:
            for place, line in enumerate(self.lines):
                with contextlib.suppress(ConnectionRefusedError):  # a line that has ended
                    line.send(end(PER_PACKET * self.sent[place // 2] + 1, session_of(place // 2)))
            time.sleep(QUIET_SECONDS)
        printed = self.follower.printed(STALLED_SECONDS)
        if self.child.poll() != 0 or printed is None or self.is_amiss():
            raise WrongRun(f'status {self.child.poll()}, standard error: {self.said()!r}')
        self.compare(printed)

    def compare(self, printed: Printed) -> None:
        """Compares what was printed in all with what was sent."""
        changes, venues = self.changes(), self.flow.venues
        ends, totals = [line.split(' ', 3) for line in printed.rest[:venues]], printed.rest[venues:]
        numbers = [['best', str(changes + place)] for place in range(1, venues + 1)]
        if printed.changes != changes or [words[:2] for words in ends] != numbers:
            raise WrongRun(f'{printed.changes} of {changes} changes are printed, then {printed.rest[:2]}')
        if sorted(words[-1] for words in ends) != self.flow.ends() or len(totals) != venues:
            raise WrongRun(f'the last lines are {printed.rest}')
        for venue, line in enumerate(totals):
            words, sent = line.split(), PER_PACKET * self.sent[venue]
            if words[:5] != ['venue', str(venue), 'sent', str(sent + 1), 'wins'] or sum(map(int, words[5:])) != sent:
                raise WrongRun(f'{line!r} after {sent} messages')
