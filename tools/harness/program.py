"""The built program, and what is asked of a program: to be built, counted under callgrind, fed piece by piece."""

import fcntl
import os
import re
import select
import struct
import subprocess
import sys
import termios
from collections.abc import Iterable, Sequence
from importlib.machinery import SourceFileLoader
from importlib.util import module_from_spec, spec_from_loader
from pathlib import Path
from types import ModuleType
from typing import NoReturn

ROOT = Path(__file__).resolve().parent.parent.parent
BUILT = ROOT / 'crates' / 'nbbo_main' / 'out' / 'nbbo_main'
LIMIT_SECONDS = 60

Words = Sequence[str | os.PathLike]


def program_of(named: str | os.PathLike | None = None) -> str:
    """The absolute path of the named program, or of the repository's own, which is built if need be."""
    if named is not None:
        return os.path.abspath(named)
    if subprocess.run([ROOT / 'nbbo', '--version'], stdout=subprocess.DEVNULL, check=False).returncode != 0:
        sys.exit('the program could not be built')
    return str(BUILT)


def built(program: str) -> str:
    """The path of a benchmark's program (bench/NAME.program), which bench/build proves and builds."""
    told = subprocess.run([ROOT / 'bench' / 'build', program], stdout=subprocess.PIPE, text=True, check=False)
    if told.returncode != 0:
        sys.exit(f'{program} could not be built')
    return told.stdout.strip()


def events_of(command: Words, capture: str | os.PathLike, options: Words) -> dict[str, int]:
    """The events that callgrind counts of a run of the command, by name; the capture is its standard input."""
    counted = ['valgrind', '--tool=callgrind', '--callgrind-out-file=/dev/null', *options, *command]
    with open(capture, 'rb') as given:
        told = subprocess.run(counted, stdin=given, stdout=subprocess.DEVNULL, stderr=subprocess.PIPE, check=True)
    names, counts = (re.search(rb'%s *: (.*)' % title, told.stderr) for title in (b'Events', b'Collected'))
    if names is None or counts is None:
        sys.exit(f'callgrind gives no count: {told.stderr[-500:].decode(errors="replace")}')
    return dict(zip(names[1].decode().split(), map(int, counts[1].split())))


def instructions(command: Words, capture: str | os.PathLike = os.devnull) -> int:
    """How many instructions a run of the command takes."""
    return events_of(command, capture, [])['Ir']


def read_misses(command: Words, capture: str | os.PathLike = os.devnull) -> int:
    """How many reads of a run miss the second cache of callgrind's model, which is the same on each machine: of 32 KiB
    before one of 1 MiB. A program's layout decides it, so that a count repeats exactly."""
    return events_of(command, capture, ['--cache-sim=yes', '--D1=32768,8,64', '--LL=1048576,16,64'])['DLmr']


def is_read(pipe: int) -> bool:
    """Whether nothing waits in the pipe."""
    return struct.unpack('i', fcntl.ioctl(pipe, termios.FIONREAD, bytes(4)))[0] == 0


def script(path: str) -> ModuleType:
    """A script of the repository, as 'tests/model', as a module."""
    name = path.rpartition('/')[2]
    spec = spec_from_loader(name, SourceFileLoader(name, str(ROOT / path)))
    assert spec is not None and spec.loader is not None
    module = module_from_spec(spec)
    sys.modules[name] = module
    kept, sys.dont_write_bytecode = sys.dont_write_bytecode, True  # beside a script without .py it would be in the way
    spec.loader.exec_module(module)
    sys.dont_write_bytecode = kept
    return module


def feed(inlet: int, pieces: Iterable[bytes]) -> None:
    """Writes each piece to a pipe once the one before was read, as long as someone reads, and closes it."""
    readers = select.poll()
    readers.register(inlet, 0)
    try:
        for piece in pieces:
            os.write(inlet, piece)
            while not is_read(inlet) and not readers.poll(0):
                os.sched_yield()
    except BrokenPipeError:
        pass
    os.close(inlet)


def finish(passed: int, failed: int) -> NoReturn:
    """Prints the last line of a part of ./test, and ends with its status. A part that has tried nothing has failed."""
    failed = failed or int(passed == 0)
    print(f'{passed} passed, {failed} failed')
    sys.exit(1 if failed else 0)


def finish_without(tool: str, part: str, outcome: str) -> NoReturn:
    """Ends a part of ./test that tries nothing for want of a tool, and says so: ./test takes no other one without a test."""
    print(f'{part}: there is no {tool}, so {outcome}')
    print('0 passed, 0 failed')
    sys.exit(0)
