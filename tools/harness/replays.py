"""The captures on which a replay's instructions are counted, and what its figures were measured on."""

import os
import re
import subprocess
import sys
from collections.abc import Callable, Sequence
from dataclasses import dataclass
from hashlib import sha256
from pathlib import Path

from .kit import libraries_of
from .program import ROOT, Words, instructions, script

# The libraries that read a capture and print its lines; with those below them they are the path of `nbbo replay`. Another
# path is that of other libraries.
PATH = ('feed_text', 'line_captures')
BENCHMARKS = ROOT / 'bench' / 'BENCHMARKS.md'
Events = Callable[[Words, str | os.PathLike], int]
MARK = re.compile(r'<!-- (bench/\w+), sources (\w+) -->')
LARGE_JOURNAL = ('--journal', '4294967295')
LOSSY = '--loss-a 0.01 --loss-b 0.01 --recover --reorder 3'


@dataclass(frozen=True)
class Replay:
    """A capture that bench/generate makes, in two lengths, which are of the messages that each venue sends."""

    name: str
    title: str
    options: str  # for bench/generate
    fewer: int  # 0 for a capture of nothing, so that a run's start is counted, too
    more: int

    def settings(self, messages: int) -> object:
        """The options of the capture of a length, as bench/generate takes them."""
        return script('bench/generate').options_of([*self.options.split(), '--messages', str(messages)])

    def venues(self) -> int:
        return self.settings(0).venues

    def capture(self, messages: int, folder: Path) -> Path:
        """The file of the capture of a length, which is made if need be."""
        path = folder / f'{self.name}-{messages}'
        if not path.exists():
            make = [ROOT / 'bench' / 'generate', *self.options.split(), '--messages', str(messages), '--output', path]
            subprocess.run(make, check=True)
        return path

    def words(self) -> list[str]:
        """The words after `replay`."""
        return [*LARGE_JOURNAL, *script('bench/generate').arguments_for(self.settings(0))]

    def count(self, program: str, folder: Path, own: Sequence[str] = (), events: Events = instructions) -> float:
        """The instructions a message by callgrind, or other events: the difference of the two lengths. The program alone is
        given `own`."""
        command = [program, 'replay', *self.words(), *own]
        fewer = self.capture(self.fewer, folder) if self.fewer else os.devnull
        taken = events(command, self.capture(self.more, folder)) - events(command, fewer)
        return taken / ((self.more - self.fewer) * self.venues())


WALK = '--market walk --mix quote=1 --endless'
REPLAYS = (
    Replay('a', 'one venue, 8 symbols, 1 message a packet', f'--symbols 8 {WALK}', 20_000, 60_000),
    Replay(
        'b',
        '16 venues, 64 symbols, 20 a packet, loss and reorder',
        f'--venues 16 --symbols 64 --per-packet 20 --lag 2 --reordered 0.02 {LOSSY} {WALK}',
        1_240,
        3_740,
    ),
    Replay(
        'c',
        '16 venues, 4,096 symbols, 20 a packet',
        f'--venues 16 --symbols 4096 --per-packet 20 {WALK}',
        1_240,
        3_740,
    ),
    Replay('c1', '.. 1 a packet', f'--venues 16 --symbols 4096 {WALK}', 1_240, 3_740),
    Replay(
        'd-gap',
        'one venue, window 65,535, first message last',
        f'--symbols 8 --lines 1 --first-last --window 65535 {WALK}',
        20_000,
        60_000,
    ),
    Replay(
        'd-tied',
        '16 venues, all at one price, 20 a packet, line A alone',
        '--venues 16 --symbols 8 --lines 1 --per-packet 20 --market tied --mix quote=1 --endless',
        1_240,
        3_740,
    ),
    Replay(
        'e-mixed',
        '4 venues, 256 symbols, halts, self-help, ends',
        f'--venues 4 --symbols 256 --per-packet 3 --lag 2 --reordered 0.02 {LOSSY} --self-help 0.0005 --market walk'
        ' --mix quote=76,wide=20,halt=1,other=3',
        5_001,
        15_000,
    ),
    Replay('plain', 'no symbol, 1 message a packet, window 64', '--window 64', 0, 10_000),
    Replay('last', 'first message last, window 65,535', '--first-last --window 65535', 0, 65_535),
    Replay(
        'far',
        'gaps asked for, the far end of 65,535 held (a packet)',
        '--stalled far --window 65535',
        0,
        2_000,
    ),
    Replay(
        'sixteen',
        '16 venues, 64 symbols, 20 a packet, loss',
        f'--venues 16 --symbols 64 --per-packet 20 {LOSSY}',
        0,
        1_000,
    ),
)


def named(name: str) -> Replay:
    """The replay of a name."""
    return next(replay for replay in REPLAYS if replay.name == name)


def path_folders(path: Sequence[str] = PATH) -> list[Path]:
    """The folders of the sources of a path, by crates.txt: no toolchain is needed to find them."""
    found = list(path)
    for crate in found:
        found += [it for it in libraries_of()[crate] if it in libraries_of() and it not in found]
    return [ROOT / 'crates' / crate / 'src' for crate in libraries_of() if crate in found]


def path_files(path: Sequence[str] = PATH) -> list[Path]:
    """The sources of a path, which its figures hang on."""
    return [file for folder in path_folders(path) for file in sorted(folder.glob('**/*.rt'))]


def sum_of(files: Sequence[Path], root: Path) -> str:
    """A sum of files below a folder: another one where a name or a byte differs."""
    found = sha256()
    for file in files:
        held = file.read_bytes()
        found.update(f'{file.relative_to(root)} {len(held)}\n'.encode() + held)
    return found.hexdigest()[:16]


def path_sum(path: Sequence[str] = PATH) -> str:
    """The sum of the sources of a path."""
    return sum_of(path_files(path), ROOT)


def tree(path: Sequence[str] = PATH) -> str:
    """The name of the commit whose sources of a path lie here; ends where there is none, so that figures have one."""
    how = {'cwd': ROOT, 'stdout': subprocess.PIPE, 'stderr': subprocess.DEVNULL, 'text': True, 'check': False}
    changed = subprocess.run(['git', 'status', '--porcelain', '--', *path_folders(path)], **how)
    name = subprocess.run(['git', 'rev-parse', '--short=8', 'HEAD'], **how).stdout.strip()
    if changed.returncode != 0 or changed.stdout or not name:
        sys.exit('figures are kept with the name of a commit: commit the sources of the path first')
    return name


def write_table(name: str, measured_on: str, rows: Sequence[str], path: Sequence[str] = PATH) -> None:
    """Puts a script's table in the place of that in bench/BENCHMARKS.md, with the tree that it was measured on."""
    text = BENCHMARKS.read_text()
    table = f'<!-- {name}, sources {path_sum(path)} -->\nTree `{measured_on}`:\n\n' + '\n'.join(rows) + '\n<!-- end -->'
    old = re.compile(rf'<!-- {re.escape(name)}, sources .*?<!-- end -->', re.S)
    if len(old.findall(text)) != 1:
        sys.exit(f'bench/BENCHMARKS.md has no one table of {name}')
    BENCHMARKS.write_text(old.sub(lambda _: table, text))
