"""Tests that run without a proof: those of tests/unproved, put into a copy of what is committed."""

import os
import re
import shutil
import subprocess
from pathlib import Path

from .kit import root_file, test_words
from .program import ROOT

TESTS = ROOT / 'tests'
UNPROVED = TESTS / 'unproved'


def copy_committed(into: Path) -> None:
    """Copies what is committed into an empty folder."""
    archive = subprocess.run(['git', '-C', ROOT, 'archive', 'HEAD'], stdout=subprocess.PIPE, check=True).stdout
    subprocess.run(['tar', '-x', '-C', into], input=archive, check=True)


def place_tests(crate: str, copy: Path) -> None:
    """Puts a crate's tests into the copy, in the place of those that it has there.

    Tests that say `mod refusing;` refuse requests for memory: beside them comes refusing.source.
    """
    source = copy / 'crates' / crate / 'src'
    shutil.rmtree(source / 'tests', ignore_errors=True)
    (source / 'tests.rt').unlink(missing_ok=True)
    for file in sorted((UNPROVED / crate).rglob('*.source')):
        place = source / file.relative_to(UNPROVED / crate).with_suffix('.rt')
        place.parent.mkdir(parents=True, exist_ok=True)
        shutil.copy(file, place)
    if refuses_memory(crate, copy):
        (source / 'tests').mkdir(exist_ok=True)
        shutil.copy(TESTS / 'refusing.source', source / 'tests' / 'refusing.rt')
    root = copy / 'crates' / crate / root_file(crate)
    if not re.search('^mod tests;', root.read_text(), re.M):
        root.write_text(root.read_text() + '\n#[cfg(test)]\nmod tests;\n')


def further_libraries(crate: str) -> list[str]:
    """The libraries that a crate's tests use and the crate doesn't: the words of the file `uses` beside them."""
    file = UNPROVED / crate / 'uses'
    return file.read_text().split() if file.is_file() else []


def refuses_memory(crate: str, copy: Path) -> bool:
    """Whether tests of a crate refuse requests for memory."""
    tests = copy / 'crates' / crate / 'src' / 'tests.rt'
    return re.search('^mod refusing;', tests.read_text(), re.M) is not None


def said_of_tests(crate: str, copy: Path, seconds: int) -> str:
    """Runs a crate's tests, for `seconds` at most, and returns what they say.

    No crate of the repository has C code: what refuses requests (refuse_memory.c) is linked with the copies alone.
    """
    folder = copy / 'crates' / crate
    objects = []
    if refuses_memory(crate, copy):
        objects = [copy / f'{crate}.o']
        compiler = os.environ.get('CC', 'cc')
        subprocess.run([compiler, '-O2', '-c', TESTS / 'refuse_memory.c', '-o', objects[0]], check=True)
    words = test_words(crate, copy / 'crates', seconds, objects, further_libraries(crate))
    how = {'stdin': subprocess.DEVNULL, 'stdout': subprocess.PIPE, 'stderr': subprocess.STDOUT}
    return subprocess.run(words, cwd=folder, check=False, text=True, errors='replace', **how).stdout
