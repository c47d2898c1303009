"""How a tool ends: with its name and the reason, and no traceback, where a stream or a program fails it."""

import signal
import subprocess
import sys
from collections.abc import Callable
from typing import NoReturn

WRONG = 2  # the status where the words, the input or a stream are wrong


def run_tool(name: str, main: Callable[[], int | None], reads_input: bool = True) -> NoReturn:
    """Runs a tool and ends with its status, or with status 2 and a line on standard error where a stream is closed or full,
    or a program that it calls can't be run or fails. A reader that stops early ends it as it does any command of a pipe."""
    signal.signal(signal.SIGPIPE, signal.SIG_DFL)
    closed = [of for of, stream in (('input', sys.stdin), ('output', sys.stdout)) if stream is None]
    if not reads_input and 'input' in closed:
        closed.remove('input')
    if closed:
        sys.exit(wrong(name, f'standard {closed[0]} is closed'))
    try:
        status = main() or 0
        sys.stdout.flush()
    except OSError as fault:
        status = wrong(name, f'{fault.filename}: {fault.strerror}' if fault.filename else fault.strerror)
    except subprocess.CalledProcessError as fault:
        status = wrong(name, f'{fault.cmd[0]} ended with status {fault.returncode}')
    if status == WRONG:
        sys.stdout = None  # what it still holds can't be written, and Python would try once more
    sys.exit(status)


def wrong(name: str, why: object) -> int:
    """Writes what is wrong on standard error, and returns the status for it."""
    print(f'{name}: {why}', file=sys.stderr)
    return WRONG
