"""The program nbbo as it listens: its lines, what it is sent, what it says, and calls of the system that fail."""

import contextlib
import functools
import os
import re
import select
import signal
import subprocess
import tempfile
import time
import unittest
from pathlib import Path

from .gap_server import GapServer
from .loopback import HOST, address_of, free_ports, udp_socket, wait_until, waiting_bytes
from .packets import end, packet, quote
from .program import BUILT, LIMIT_SECONDS, ROOT

def numbered_quote(number):
    """A quotation that changes the national best at every number."""
    return quote(number, 100)


def price(ten_thousandths):
    return f'{ten_thousandths // 10_000}.{ten_thousandths % 10_000:04}'


def best_lines(first, last, notices=0, entries=0):
    """The best lines of the numbered quotations from `first` to `last`, each of which has its number as a notice's and
    an entry's, but for how many more there were before."""
    return ''.join(
        f'best {n + notices} {n + entries} ACME 0:{price(n)}x100 none one-sided\n' for n in range(first, last + 1)
    )


def bids_of(printed):
    """The bids of venue 0 in what was printed."""
    return [line.split()[4] for line in printed.splitlines() if line.startswith('best ') and ' 0:' in line]


def numbered_bids(numbers):
    return [f'0:{price(number)}x100' for number in numbers]


QUOTE = quote(101_500, 300, 101_600, 400)
QUOTE_LINE = 'best 1 1 ACME 0:10.1500x300 0:10.1600x400 normal\n'
EMPTY_LINE = 'best 2 2 ACME none none empty\n'
# What standard error has of lines while they go on: when, which line, and what.
NEWS = re.compile(r'^nbbo: second (\d+) line (\d+ [AB]) (.*)\n', re.M)
# What standard error has of messages that were given up: which venue, how many, and from which one.
GIVEN_UP = re.compile(r'^nbbo: second \d+ venue (\d+) gave up (\d+) messages? from (\d+)\n', re.M)
# What it has of gaps that stand: when, which venue, what, how many messages, and from which one.
STANDS = re.compile(
    r'^nbbo: second (\d+) venue (\d+) (lacks|no longer lacks|has no reply to requests for) (\d+) messages? from (\d+)\n',
    re.M,
)
LISTENS = re.compile(r'^nbbo: listening on (.*)\n')
# What a run that prints rows as they come has of who reads them.
OUTPUT_NEWS = re.compile(r"^nbbo: second \d+ output (isn't read, \d+ changes? waits?|is read again)\n", re.M)

# What a run with a further option has in its news, and at its end, of the sessions with which lines ended; in its news of
# silent lines; in both of other sessions; and at its end of lines that brought nothing, and of symbols that never came, or
# with --follow never had a best.
WITH_SESSION = 'ended with session '
MORE_NEWS = (WITH_SESSION, 'has brought nothing for ', 'is heard again', 'brings session ')
MORE = re.compile(
    r'^nbbo: (line \d+ [AB] (ended with session .*|brings session .*|had no datagram)|'
    r'(symbol \S+|\d+ more symbols?) never (came|had a best))\n',
    re.M,
)


def without_news(told):
    """Standard error without the news of lines and of output and what more is told at the end, and the news of lines, each
    of which line and what, but for those of a run with a further option."""
    news = [(line, what) for _, line, what in NEWS.findall(told) if not what.startswith(MORE_NEWS)]
    return OUTPUT_NEWS.sub('', MORE.sub('', NEWS.sub('', told))), news


def given_up(told):
    """What was given up, each of which venue, how many messages and from which one, and standard error without that."""
    return [tuple(map(int, found)) for found in GIVEN_UP.findall(told)], GIVEN_UP.sub('', told)


def without_gaps(told):
    """Standard error without what it has of gaps that stand, and that: of each which venue, what, how many messages
    and from which one."""
    gaps = [(int(venue), what, int(count), int(first)) for _, venue, what, count, first in STANDS.findall(told)]
    return STANDS.sub('', told), gaps


class Fault(AssertionError):
    """What a test has found wrong."""


def expect(seen, output, error='', status=0):
    for what, found, want in zip(('output', 'standard error', 'status'), seen, (output, error, status)):
        if found != want:
            raise Fault(f'{what}: {str(found)[:400]!r} is not {str(want)[:400]!r}')


@contextlib.contextmanager
def started(command, **how):
    """A program, which ends with the context, and so does what it has started. It takes interrupts: where the tests run
    in the background they are ignored, and a child would inherit that."""
    takes_interrupts = {'preexec_fn': lambda: signal.signal(signal.SIGINT, signal.SIG_DFL)}
    child = subprocess.Popen(command, stdout=subprocess.PIPE, start_new_session=True, **takes_interrupts, **how)
    try:
        yield child
    finally:
        with contextlib.suppress(ProcessLookupError):
            os.killpg(child.pid, signal.SIGKILL)
        child.wait()
        for pipe in filter(None, (child.stdin, child.stdout, child.stderr)):
            with contextlib.suppress(BrokenPipeError):
                pipe.close()


@functools.cache
def fail_socket():
    """The folder with the library that makes calls of the system fail, built."""
    folder = tempfile.TemporaryDirectory()
    library, source = Path(folder.name, 'fail_socket.so'), ROOT / 'tests/fail_socket.c'
    words = ['cc', '-O1', '-shared', '-fPIC', '-o', library, source, '-ldl']
    said = subprocess.run(words, capture_output=True, text=True, check=False)
    if said.returncode:
        raise Fault(f'tests/fail_socket.c was not built: {said.stderr}')
    return folder


class Failing:
    """Which calls of the system fail, by tests/fail_socket.c: those of this name from one number to another, of a
    line's socket where a line is given, whose port is known beforehand then."""

    def __init__(self, call, first, last, error, line=None):
        self.call, self.first, self.last, self.error, self.line = call, first, last, error, line
        self.told = tempfile.TemporaryDirectory()
        self.failed = Path(self.told.name, 'failed')

    def environment(self, ports):
        port = {} if self.line is None else {'FAIL_PORT': str(ports[self.line])}
        return {
            **os.environ, **port, 'LD_PRELOAD': str(Path(fail_socket().name, 'fail_socket.so')), 'FAIL_CALL': self.call,
            'FAIL_FROM': str(self.first), 'FAIL_TO': str(self.last), 'FAIL_ERRNO': str(self.error),
            'FAILED': str(self.failed),
        }

    def check(self):
        """A test whose call never failed has shown nothing."""
        if not self.failed.exists():
            raise Fault(f'{self.call} has not failed')


def port_of(address):
    """The port of an address, and None of a line that isn't there."""
    return None if address == '-' else int(address.rpartition(':')[2])


class Listener:
    """The program, listening on the lines of `venues` venues on loopback, until the context ends. The system picks the
    ports, and the program tells them, but where a call of one line's socket is to fail, or ports are given. Lines may
    each have a host, and what sends to them may be given; a host of None is a line that isn't there."""

    def __init__(
        self, program, *words, venues=1, sessions=None, environment=None, host=HOST, ports=None, failing=None,
        stdin=None, wrapped=lambda command: command, hosts=None, out=None,
    ):
        self.hosts, self.stdin, self.environment = hosts or [host] * 2 * venues, stdin, environment
        self.host, self.given_out = host, out
        is_known = failing is not None and failing.line is not None
        self.ports = ports or (free_ports(2 * venues, host) if is_known else [0] * 2 * venues)
        if failing:
            self.environment = failing.environment(self.ports)
        lines = ','.join(self.address(line) for line in range(2 * venues))
        names = sessions or ','.join(['0000000001'] * venues)
        self.command = wrapped([program, 'listen', '--sessions', names, f'--lines={lines}', *words])
        self.until = time.monotonic() + LIMIT_SECONDS
        # What was read of standard error, and then the news among it.
        self.told = b''
        self.news = []

    def __enter__(self):
        with contextlib.ExitStack() as ends:
            how = {'stdin': self.stdin, 'stderr': subprocess.PIPE, 'env': self.environment}
            self.child = ends.enter_context(started(self.command, **how))
            self.out = self.given_out or ends.enter_context(udp_socket(self.host))
            self.ends = ends.pop_all()
        return self

    def __exit__(self, *_):
        self.ends.close()

    def read_told(self, is_enough):
        """Reads standard error until it is enough. Returns whether it is, before the end and the limit in time."""
        while not is_enough():
            left = max(self.until - time.monotonic(), 0)
            piece = b''
            if select.select([self.child.stderr], [], [], left)[0]:
                piece = os.read(self.child.stderr.fileno(), 65_536)
            if not piece:
                return False
            self.told += piece
        return True

    def wait_for_text(self, text):
        """Waits until standard error has this while the program runs."""
        if not self.read_told(lambda: text.encode() in self.told):
            raise Fault(f'standard error: {self.told!r} has no {text!r}')

    def wait_for_news(self, line, what):
        """Waits until standard error has this of a line while the program runs."""
        self.wait_for_text(f' line {line} {what}\n')
        if self.child.poll() is not None:
            raise Fault('it has ended')

    def wait_for_sockets(self):
        """Waits until the program says where it listens."""
        if not self.read_told(lambda: b'\n' in self.told):
            raise Fault(f'no sockets: {self.told!r}')
        self.without_ports(self.told.decode())
        return self

    def address(self, line):
        """The word of a line in --lines."""
        return address_of(self.hosts[line], self.ports[line]) if self.hosts[line] else '-'

    def without_ports(self, told):
        """Standard error without its first line, by which the ports are known."""
        found = LISTENS.match(told)
        asked, self.ports = self.ports, [port_of(address) for address in found[1].split(',')] if found else []
        # The system chooses a port for each address: two groups may have the same.
        there = [(host, port) for host, port in zip(self.hosts, self.ports) if port]
        is_right = found and found[1].split(',') == [self.address(line) for line in range(len(self.ports))]
        is_right = is_right and len(set(there)) == len(there) == len(list(filter(None, self.hosts)))
        if not is_right or any(port not in (None, was) for port, was in zip(self.ports, asked) if was):
            raise Fault(f'standard error: {told!r} does not begin with where it listens')
        return told[found.end() :]

    def send(self, line, *datagrams):
        """To a line: twice the venue's number, and one more for line B."""
        for datagram in datagrams:
            self.out.sendto(datagram, (self.hosts[line], self.ports[line]))

    def send_to_both(self, *datagrams, venue=0):
        for line in (2 * venue, 2 * venue + 1):
            if self.hosts[line]:
                self.send(line, *datagrams)

    def send_quote_and_ends(self):
        """A quotation on line A, and the session's end on both lines."""
        self.send(0, packet(1, [QUOTE]))
        self.send_to_both(end(2))

    def is_all_read(self):
        waiting = waiting_bytes()
        return not any(waiting.get(port) for port in self.ports if port)

    def wait_while_unread(self):
        """Waits until what was sent is read, or the time is over."""
        wait_until(self.is_all_read, max(self.until - time.monotonic(), 0), 0.0005)

    def wait_until_read(self):
        """Waits until what was sent is read, and a little longer, so that it is also taken."""
        self.wait_while_unread()
        time.sleep(0.2)

    def wait_for_output(self, text):
        """Waits until the output that wasn't read before is this text, or the time is over."""
        seen = b''
        while len(seen) < len(text) and time.monotonic() < self.until:
            if select.select([self.child.stdout], [], [], 0.1)[0]:
                piece = os.read(self.child.stdout.fileno(), 65_536)
                if not piece:
                    break
                seen += piece
        if seen.decode() != text:
            raise Fault(f'output: {seen[:400]!r} is not {text[:400]!r}')

    def printed_and_told(self):
        """The output, standard error and the status, once the program has ended."""
        try:
            printed, told = self.child.communicate(timeout=max(self.until - time.monotonic(), 0.1))
        except subprocess.TimeoutExpired:
            self.child.kill()
            raise Fault(f'it has not ended: {self.child.communicate()}') from None
        return (printed or b'').decode(), (self.told + told).decode(), self.child.returncode

    def ended(self):
        """The output, standard error without the line that it listens and without news, and the status, once the
        program has ended."""
        printed, told, status = self.printed_and_told()
        told, self.news = without_news(self.without_ports(told))
        return printed, told, status


class Retransmission(GapServer):
    """A server that answers each request with the messages asked for, as far as it has them, and keeps the requests."""

    def __init__(self, messages, most=20, host=HOST):
        super().__init__(self.answer, host)
        self.messages, self.most = messages, most
        self.requests = []

    def answer(self, request):
        self.requests.append(request)
        blocks = self.messages[request.number - 1 : request.number - 1 + min(request.wanted, self.most)]
        return packet(request.number, blocks) if blocks else None

    def wait_for(self, count):
        """The requests, once there are at least `count`, or after some seconds in vain."""
        wait_until(lambda: len(self.requests) >= count)
        return self.requests


class Listening(unittest.TestCase):
    """What a test starts ends with it."""

    program = str(BUILT)

    def start(self, *words, **how):
        """The program, which may not have opened its sockets yet."""
        return self.enterContext(Listener(self.program, *words, **how))

    def listen(self, *words, **how):
        """The program, listening."""
        return self.start(*words, **how).wait_for_sockets()

    def serve(self, messages, **how):
        return self.enterContext(Retransmission(messages, **how))

    def ran(self, *words, stdout=subprocess.PIPE):
        """The output, standard error without news, and the status of a run that ends by itself."""
        how = {'stdout': stdout, 'stderr': subprocess.PIPE, 'text': True, 'timeout': LIMIT_SECONDS}
        ended = subprocess.run([self.program, *words], check=False, **how)
        return ended.stdout or '', without_news(ended.stderr)[0], ended.returncode

    def ran_on(self, lines, *words, **how):
        """The same of a run that listens, or would."""
        return self.ran('listen', '--sessions', 'a', f'--lines={lines}', *words, **how)


def processor_seconds(process):
    """How long the process has had a processor."""
    fields = Path(f'/proc/{process}/stat').read_text().rpartition(')')[2].split()
    return (int(fields[11]) + int(fields[12])) / os.sysconf('SC_CLK_TCK')


