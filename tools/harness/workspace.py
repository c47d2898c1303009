"""A program over crates of the repository, proved and built in a folder outside of it.

The gate need not prove such a program, and `rt ci` refuses a repository below which there is a second crates.txt.
"""

import importlib
import os
import re
import shutil
import subprocess
import sys
import tempfile
from collections.abc import Callable, Sequence
from hashlib import sha256
from pathlib import Path

from .kit import crate_lines, crates_below, kit_folder
from .program import ROOT


def folder_of(program: str) -> Path:
    """The folder in which a program is built: of this repository and this user, and kept."""
    return Path(tempfile.gettempdir()) / f'{program}-{os.getuid()}-{sha256(bytes(ROOT)).hexdigest()[:16]}'


def copy_crate(crate: str, crates: Path) -> None:
    """Copies the files of a crate that its proof reads, and the library that was proved and built of them, if one was."""
    for part in ('src', 'specs', 'proofs', 'out/rlib'):
        shutil.rmtree(crates / crate / part, ignore_errors=True)
        if (ROOT / 'crates' / crate / part).is_dir():
            shutil.copytree(ROOT / 'crates' / crate / part, crates / crate / part)


def is_current(crate: Path) -> bool:
    """Whether a crate has a library that is newer than each file that its proof reads."""
    made = crate / 'out' / 'rlib' / f'{crate.name}.rlib' / 'format'
    files = [it for part in ('src', 'specs', 'proofs') for it in (crate / part).rglob('*') if it.is_file()]
    return made.exists() and all(it.stat().st_mtime <= made.stat().st_mtime for it in files)


def note_built(crates: Path) -> None:
    """Notes beside each of these libraries what it was built of, by the kit's own sum, up to the first that is older.

    `rt ci`, which proved and built them, leaves no such note, and without one `rt run` proves all of them again.
    """
    sys.path.insert(0, str(kit_folder() / 'bin'))
    for crate in importlib.import_module('rtlib').crates_below(str(crates)):
        folder = Path(crate.folder)
        if not is_current(folder):
            return
        (folder / 'out' / 'rlib' / 'stamp').write_text(crate.stamp())


def built(source: Path, uses: str, words: Sequence[str] = (), place: Callable[[Path], None] | None = None) -> Path:
    """Proves and builds the program that a file NAME.program holds, and returns where it lies.

    `uses` names the libraries that it uses, and `words` are some with which it has next to nothing to do, since `rt run`
    runs it once. `place` writes into the program's crate what the prover needs beside the source. `rt ci` won't do: it
    refuses a program with a function that is handed stored closures (`hides`), as the benchmarks' are.
    """
    name, workspace = source.stem, folder_of(source.stem)
    crate = workspace / 'crates' / name
    program = crate / 'out' / name
    (crate / 'src').mkdir(parents=True, exist_ok=True)
    program.unlink(missing_ok=True)  # one of an earlier run doesn't stand in for one that can't be built
    if not (workspace / '.git').exists():
        subprocess.run(['git', 'init', '-q', workspace], check=True)
    shutil.copy(ROOT / 'HANDLES', workspace)
    below = crates_below(uses.split())
    for library in below:
        copy_crate(library, workspace / 'crates')
    lines = [*(crate_lines()[it] for it in below), f'{name}: {uses}', '']
    (workspace / 'crates.txt').write_text('\n'.join(lines))
    note_built(workspace / 'crates')
    shutil.copy(source, crate / 'src' / 'main.rt')
    if place is not None:
        place(crate)
    how = {'stdin': subprocess.DEVNULL, 'stdout': subprocess.PIPE, 'stderr': subprocess.STDOUT}
    command = ['rt', 'run', '--', *words]
    said = subprocess.run(command, cwd=crate, check=False, text=True, **how).stdout
    if not re.search(r'^logic=proved ', said, re.M) or not program.exists():
        sys.exit(f'{said}\n{name} could not be built')
    return program
