"""What the help of the program says: its commands, and of each the arguments, the options and the text around them."""

import re
import subprocess
from collections.abc import Iterable, Sequence
from dataclasses import dataclass, field

ENTRY = re.compile(r'^ {2,6}((?:-\w, )?--?[\w-]+(?: <[\w=]+>)?|\[\w+\]\.\.\.|[a-z]+)(?: {2,}(\S.*))?$')
CHOICES = re.compile(r': ((?:\w+, )*\w+ or \w+)(?=[;. ]|$)')
INDENT = 10 * ' '  # of the text below a head
PARTS = ('Commands', 'Arguments', 'Options')


@dataclass
class Entry:
    """A command, an argument or an option, as the help lists it."""

    head: str  # as '-h, --help' or '--window <N>'
    text: list[str]  # its lines, without the indent of all

    def names(self) -> list[str]:
        """The words that give an option, or the word of a command."""
        return re.findall(r'(?:^|(?<= ))[\w-]+', self.head.split(' <')[0])

    def value(self) -> str:
        """How the help calls an option's value, or nothing where it takes none."""
        return self.head.partition('<')[2].rstrip('>')

    def choices(self) -> list[str]:
        """The words that its value is one of, as the short help names them."""
        found = (re.findall(r'\w+', words) for words in CHOICES.findall(' '.join(self.text)))
        return list(dict.fromkeys(word for words in found for word in words if word != 'or'))


@dataclass
class Help:
    about: list[str] = field(default_factory=list)  # lines before the usage
    usage: str = ''
    parts: dict[str, list[Entry]] = field(default_factory=lambda: {part: [] for part in PARTS})
    after: list[str] = field(default_factory=list)  # lines after the options


def entries_of(lines: Iterable[str]) -> list[Entry]:
    """The entries of a part: each begins with its head, and lines with more indent belong to the one before."""
    entries: list[Entry] = []
    for line in lines:
        begins = ENTRY.match(line)
        if begins:
            entries.append(Entry(begins[1], [begins[2]] if begins[2] else []))
        elif entries:
            entries[-1].text.append(line.removeprefix(INDENT).rstrip())
    for entry in entries:
        while entry.text and not entry.text[-1]:
            entry.text.pop()
    return entries


def read_help(text: str) -> Help:
    """What a text of help says."""
    found, part = Help(), 'about'
    lines: dict[str, list[str]] = {it: [] for it in ('about', *PARTS, 'after')}
    for line in text.splitlines():
        if line.startswith('Usage: '):
            found.usage = line.removeprefix('Usage: ')
        elif line.removesuffix(':') in PARTS and line.endswith(':'):
            part = line.removesuffix(':')
        else:
            if part in PARTS and line and not line.startswith(' '):
                part = 'after'
            lines[part].append(line)
    found.about, found.after = (trimmed(lines[it]) for it in ('about', 'after'))
    found.parts = {it: entries_of(lines[it]) for it in PARTS}
    return found


def trimmed(lines: Sequence[str]) -> list[str]:
    """The lines without empty ones at their ends."""
    return '\n'.join(lines).strip('\n').splitlines()


def help_of(program: str, command: str = '', word: str = '--help') -> Help:
    """What a command's help says, or the program's own."""
    words = [program, *([command] if command else []), word]
    return read_help(subprocess.run(words, stdout=subprocess.PIPE, text=True, check=True).stdout)


def commands_of(program: str) -> list[Entry]:
    """The program's commands, but for `help`."""
    return [it for it in help_of(program).parts['Commands'] if it.head != 'help']
