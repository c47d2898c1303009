"""A process that reads what 'nbbo listen --follow' prints of a flow, and looks whether each line is the next one."""

import os
import signal
from collections.abc import Sequence
from multiprocessing import get_context
from multiprocessing.connection import Connection
from multiprocessing.sharedctypes import RawArray
from typing import NamedTuple

from .flow import Flow

CONTEXT = get_context('fork')
PIECE = 1 << 20
MOST_REST = 100  # lines that are kept


class Printed(NamedTuple):
    """What was printed in all: how many changes of the flow, each the next one, and what comes from the first other line
    on."""

    changes: int
    rest: list[str]


class Check:
    """How far the lines are. Changes are numbered from 1, their places go up, and each venue's come in its order, none left
    out."""

    def __init__(self, flow: Flow) -> None:
        self.ticks = flow.ticks()
        venues = range(flow.venues)
        self.known = {flow.change(venue, tick): (venue, tick) for venue in venues for tick in range(self.ticks)}
        self.due = [flow.tick(1)] * flow.venues
        self.counts = [0] * flow.venues
        self.changes = self.place = 0
        self.rest: list[bytes] = []

    def take(self, lines: Sequence[bytes]) -> None:
        """Takes the next lines, of which all are the rest from the first one on that isn't the next change."""
        known, due, counts, changes, place = self.known, self.due, self.counts, self.changes, self.place
        for at, line in enumerate(lines):
            words = line.split(b' ', 3)
            venue, tick = known.get(words[-1], (0, -1))
            if tick != due[venue] or self.rest or int(words[1]) != changes + 1 or int(words[2]) <= place:
                self.rest += lines[at : at + MOST_REST - len(self.rest)]
                break
            changes, place = changes + 1, int(words[2])
            due[venue] = tick + 1 if tick + 1 < self.ticks else 0
            counts[venue] += 1
        self.changes, self.place = changes, place


def read_all(flow: Flow, pipe: int, counts: 'RawArray[int]', said: Connection) -> None:
    """Reads lines until the pipe is closed, and says then what they were. Meanwhile `counts` has how many changes of each
    venue were printed, and last whether other lines were."""
    check, held = Check(flow), b''
    while piece := os.read(pipe, PIECE):
        *lines, held = (held + piece).split(b'\n')
        check.take(lines)
        counts[:] = [*check.counts, len(check.rest)]
    check.take([held] if held else [])
    said.send(Printed(check.changes, [line.decode(errors='replace') for line in check.rest]))


class Follower:
    """The process, and how far it is. It ends where the pipe is closed."""

    def __init__(self, flow: Flow, pipe: int) -> None:
        self.counts = RawArray('Q', flow.venues + 1)
        self.answer, said = CONTEXT.Pipe(duplex=False)
        self.process = CONTEXT.Process(target=read_all, args=(flow, pipe, self.counts, said), daemon=True)
        self.process.start()
        said.close()

    def changes_of(self, venue: int) -> int:
        """How many of a venue's changes were printed so far."""
        return self.counts[venue]

    def changes(self) -> int:
        """How many changes were printed so far."""
        return sum(self.counts[:-1])

    def has_other_lines(self) -> bool:
        """Whether a line was printed that isn't the next change."""
        return self.counts[-1] > 0

    def stop(self) -> None:
        """Stops the process: it reads no more, until it goes on."""
        os.kill(self.process.pid, signal.SIGSTOP)

    def go_on(self) -> None:
        os.kill(self.process.pid, signal.SIGCONT)

    def printed(self, seconds: float) -> Printed | None:
        """What was printed in all, once the pipe is closed; None where it isn't in this time."""
        return self.answer.recv() if self.answer.poll(seconds) else None

    def close(self) -> None:
        self.process.kill()
        self.process.join()
        self.answer.close()
